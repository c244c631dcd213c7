//! When two answers, and two buffers, are equal: floats by their bits, all NaNs being one.

use std::fmt::Debug;

use naribhush::{
    ActivePauli, ActivePauliAction, Complex64, Ending, PauliString,
    PrecomputedActivePauliMeasurementKernel as MeasurementKernel,
    PrecomputedActivePauliRotationKernel as RotationKernel,
};

pub trait Same: Debug {
    /// How many numbers are held against each other.
    const VALUES: u64;
    fn same(&self, other: &Self) -> bool;
}

macro_rules! same_by_equality {
    ($($kind:ty: $values:literal,)*) => {
        $(impl Same for $kind {
            const VALUES: u64 = $values;
            fn same(&self, other: &Self) -> bool {
                self == other
            }
        })*
    };
}

same_by_equality! {
    (): 0,
    bool: 1,
    usize: 1,
    Option<usize>: 1,
    [u64; 4]: 4,
    PauliString: 10,
    ActivePauli: 4,
    Ending: 2,
}

impl Same for f64 {
    const VALUES: u64 = 1;
    fn same(&self, other: &Self) -> bool {
        self.to_bits() == other.to_bits() || (self.is_nan() && other.is_nan())
    }
}

impl Same for Complex64 {
    const VALUES: u64 = 2;
    fn same(&self, other: &Self) -> bool {
        self.re.same(&other.re) && self.im.same(&other.im)
    }
}

impl Same for ActivePauliAction {
    const VALUES: u64 = 8;
    fn same(&self, other: &Self) -> bool {
        let masks = |a: &Self| (a.nqubits, a.xmask, a.zmask, a.xz_overlap_odd);
        masks(self) == masks(other)
            && self.even_phase.same(&other.even_phase)
            && self.odd_phase.same(&other.odd_phase)
    }
}

impl Same for RotationKernel {
    const VALUES: u64 = 8 + 7;
    fn same(&self, other: &Self) -> bool {
        let shape = |k: &Self| (k.is_diagonal, k.uniform_imag_pairs, k.pair_bit);
        self.action.same(&other.action)
            && shape(self) == shape(other)
            && self.cos_kernel_angle.same(&other.cos_kernel_angle)
            && self.sin_kernel_angle.same(&other.sin_kernel_angle)
            && self
                .minus_even_coefficient
                .same(&other.minus_even_coefficient)
    }
}

impl Same for MeasurementKernel {
    const VALUES: u64 = 8 + 6;
    fn same(&self, other: &Self) -> bool {
        let shape = |k: &Self| (k.pivot, k.is_diagonal, k.diagonal_phase_bit, k.out_dim);
        self.action.same(&other.action)
            && shape(self) == shape(other)
            && self
                .nondiagonal_coefficient1_even
                .same(&other.nondiagonal_coefficient1_even)
    }
}

/// Two buffers, entry by entry.
pub fn same_floats(a: &[f64], b: &[f64]) -> bool {
    a.len() == b.len() && a.iter().zip(b).fold(true, |same, (a, b)| same & a.same(b))
}

/// Two buffers bit by bit, the NaNs' bits too.
pub fn same_bits(a: &[f64], b: &[f64]) -> bool {
    let differ = |(a, b): (&f64, &f64)| a.to_bits() ^ b.to_bits();
    a.len() == b.len() && a.iter().zip(b).map(differ).fold(0, |all, bits| all | bits) == 0
}
