//! The refusal table: the number of the row that refuses a call, 0 where none does. Several at a call: the
//! lowest number.

use crate::pauli::Pauli;

/// The lowest number whose test holds, 0 where none does.
pub fn lowest(tests: &[(bool, u8)]) -> u8 {
    let holding = tests.iter().filter(|test| test.0).map(|test| test.1);
    holding.min().unwrap_or(0)
}

/// Neither NaN nor beyond -1..1.
pub fn in_unit(value: f64) -> bool {
    (-1.0..=1.0).contains(&value)
}

/// Whether a buffer has 2^n entries.
pub fn has_room(length: usize, n: usize) -> bool {
    n < 64 && length >= 1 << n
}

pub fn short(re: usize, im: usize, n: usize) -> bool {
    !has_room(re, n) || !has_room(im, n)
}

/// The mask that the pivot is in: x, or z where x is 0.
pub fn pivot_mask(p: Pauli) -> u64 {
    if p.x != 0 { p.x } else { p.z }
}

fn rotation_tests(p: Pauli, c: f64, s: f64) -> [(bool, u8); 4] {
    [
        (!p.is_pauli(), 3),
        (p.n > 61, 6),
        (!p.is_hermitian(), 7),
        (!in_unit(c) || !in_unit(s), 8),
    ]
}

fn measurement_tests(p: Pauli, pivot: usize) -> [(bool, u8); 7] {
    let mask = pivot_mask(p);
    [
        (!p.is_pauli(), 3),
        (p.n > 61, 6),
        (!p.is_hermitian(), 7),
        (p.n == 0, 9),
        (pivot >= p.n, 10),
        (mask == 0, 11),
        (pivot >= 64 || mask >> pivot & 1 == 0, 12),
    ]
}

pub fn rotation_kernel(p: Pauli, c: f64, s: f64) -> u8 {
    lowest(&rotation_tests(p, c, s))
}

pub fn rotation(p: Pauli, c: f64, s: f64, re: usize, im: usize) -> u8 {
    let row = rotation_kernel(p, c, s);
    lowest(&[(row != 0, row), (short(re, im, p.n), 13)])
}

/// 1/sqrt 2, the c and the s of a quarter turn.
pub const H: f64 = f64::from_bits(0x3fe6_a09e_667f_3bcd);

/// A rotation's rows, c and s both being h: 3, 6 and 7 are left.
pub fn quarter_turn(p: Pauli) -> u8 {
    rotation_kernel(p, H, H)
}

pub fn measurement_kernel(p: Pauli, pivot: usize) -> u8 {
    lowest(&measurement_tests(p, pivot))
}

pub fn promotion(n: usize, c: f64, q: f64, re: usize, im: usize) -> u8 {
    lowest(&[
        (n > 256, 3),
        (n > 60, 6),
        (!in_unit(c) || !in_unit(q), 8),
        (short(re, im, n.saturating_add(1)), 13),
    ])
}

pub fn probability(p: Pauli, pivot: usize, re: usize, im: usize) -> u8 {
    let row = measurement_kernel(p, pivot);
    lowest(&[(row != 0, row), (short(re, im, p.n), 13)])
}

/// `scratch` are the lengths of the two scratch buffers, which a Pauli without an X part leaves alone.
pub fn projection(
    p: Pauli,
    pivot: usize,
    invnorm: f64,
    state: [usize; 2],
    scratch: [usize; 2],
) -> u8 {
    let row = measurement_kernel(p, pivot);
    let mixes = p.x != 0 && short(scratch[0], scratch[1], p.n.saturating_sub(1));
    lowest(&[
        (row != 0, row),
        (!invnorm.is_finite(), 8),
        (short(state[0], state[1], p.n) || mixes, 13),
    ])
}

/// 14 behind a call's own row: a sign, a branch or another bit that comes as a number, and is over 1.
pub fn flagged(row: u8, flag: u8) -> u8 {
    lowest(&[(row != 0, row), (flag > 1, 14)])
}

pub fn correction(p: Pauli, re: usize, im: usize) -> u8 {
    lowest(&[(!p.is_pauli(), 3), (p.n > 61, 6), (short(re, im, p.n), 13)])
}
