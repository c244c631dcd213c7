//! Stands in for the crate fearless_simd, so that the published contiguous.rs builds without it: there is
//! no vector unit to be found, and the vector kernels keep their signatures alone. The scalar loops, which
//! are what is recorded, need nothing of it.
#![allow(non_camel_case_types)] // the crate's own names

#[derive(Clone, Copy)]
pub struct Level;

impl Level {
    pub fn new() -> Self {
        Level
    }

    pub fn as_avx2(self) -> Option<Avx2> {
        None
    }

    pub fn as_avx512(self) -> Option<Avx512> {
        None
    }
}

#[derive(Clone, Copy)]
pub enum Avx2 {}

#[derive(Clone, Copy)]
pub enum Avx512 {}

pub trait SimdBase {}
pub trait SimdInto {}
pub struct f64x4;
pub struct f64x8;

/// A vector kernel without its body. Nobody can call it: its first argument has no value.
#[macro_export]
macro_rules! kernel {
    ($(#[$attribute:meta])* fn $name:ident($token:ident: $unit:ident, $($argument:ident: $kind:ty),* $(,)?) $(-> $answer:ty)? $body:block) => {
        $(#[$attribute])*
        #[allow(unused_variables)]
        fn $name($token: $crate::$unit, $($argument: $kind),*) $(-> $answer)? {
            match $token {}
        }
    };
}
