//! The root of the published files of inmzhang/ticit ea5d480457 (Apache-2.0). The modules are those files,
//! unchanged; prepare.sh puts them beside this one. What they keep to their crate and is compared has a
//! function here.
#![allow(dead_code, unused_imports, unused_macros)] // the published files hold more than is asked

pub mod active;
mod bits;
pub mod contiguous;
pub mod errors;
pub mod pauli;

pub use num_complex::Complex64;

pub fn is_odd_popcount(value: u64) -> bool {
    bits::is_odd_popcount(value)
}

pub fn packed_bit(words: &[u64], bit_index: usize) -> bool {
    bits::packed_bit(words, bit_index)
}

pub fn set_packed_bit(words: &mut Vec<u64>, bit_index: usize, value: bool) {
    bits::set_packed_bit(words, bit_index, value);
}
