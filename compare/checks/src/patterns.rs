//! Floats by their bits, and bytes: fillings that a wrong access would change, and comparisons.

use model::dice::Dice;

const SIGNALLING: u64 = 0x7ff0_0000_0000_0001;
const NEGATIVE: u64 = 1 << 63;

/// `length` entries of one kind: signalling NaNs that differ from entry to entry, any bits, or a constant.
pub fn filling(dice: &mut Dice, length: usize) -> Vec<f64> {
    let kind = dice.below(6);
    let salt = dice.word();
    let mut pattern = |at: usize| match kind {
        0 => SIGNALLING + at as u64,
        1 => NEGATIVE | (SIGNALLING + (salt >> 16) + at as u64),
        2 | 3 => dice.word(),
        4 => f64::INFINITY.to_bits(),
        _ => (-0.0f64).to_bits(),
    };
    (0..length).map(|at| f64::from_bits(pattern(at))).collect()
}

pub fn filling_bytes(dice: &mut Dice, length: usize) -> Vec<u8> {
    (0..length).map(|_| dice.word() as u8).collect()
}

/// Whether bytes that were `before` have these written at their start, and are past them as they were.
pub fn written_at_start(out: &[u8], written: &[u8], before: &[u8]) -> bool {
    out.starts_with(written) && out[written.len()..] == before[written.len()..]
}

pub fn same_bits(a: &[f64], b: &[f64]) -> bool {
    a.len() == b.len() && a.iter().zip(b).all(|(a, b)| a.to_bits() == b.to_bits())
}

/// Equal in bits, NaNs as one.
pub fn same_but_nan(a: &[f64], b: &[f64]) -> bool {
    let same = |a: &f64, b: &f64| a.to_bits() == b.to_bits() || a.is_nan() && b.is_nan();
    a.len() == b.len() && a.iter().zip(b).all(|(a, b)| same(a, b))
}

/// The scope's word for what demand 3 compares: bits equal, or both zeros.
pub fn same_number(a: f64, b: f64) -> bool {
    a.to_bits() == b.to_bits() || a == 0.0 && b == 0.0
}

pub fn all_finite(floats: &[f64]) -> bool {
    floats.iter().all(|float| float.is_finite())
}

pub fn hex(bytes: &[u8]) -> String {
    bytes.iter().map(|byte| format!("{byte:02x}")).collect()
}

pub fn hex_floats(floats: &[f64]) -> String {
    let words = floats
        .iter()
        .map(|float| format!("{:016x}", float.to_bits()));
    words.collect::<Vec<_>>().join(" ")
}
