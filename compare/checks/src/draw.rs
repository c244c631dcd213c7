//! Random Paulis, steps, runs and states that no row refuses.

use crate::floats;
use model::dice::Dice;
use model::pauli::{Pauli, parity};
use model::run::{Run, Step};

/// The `n` lowest bits.
pub fn low_bits(n: usize) -> u64 {
    if n < 64 { (1 << n) - 1 } else { u64::MAX }
}

fn mask(dice: &mut Dice, n: usize) -> u64 {
    let bits = match dice.below(4) {
        0 => 0,
        1 => dice.word() & dice.word(),
        _ => dice.word(),
    };
    bits & low_bits(n)
}

/// Any Pauli on n qubits.
pub fn pauli(dice: &mut Dice, n: usize) -> Pauli {
    Pauli {
        n,
        k: dice.below(4) as u8,
        x: mask(dice, n),
        z: mask(dice, n),
    }
}

pub fn hermitian(dice: &mut Dice, n: usize) -> Pauli {
    let mut p = pauli(dice, n);
    p.k = (parity(p.x, p.z) + 2 * dice.below(2) as u8) % 4;
    p
}

/// A Hermitian Pauli that is not the identity, and a pivot for it. The width is not 0.
pub fn measured(dice: &mut Dice, n: usize) -> (Pauli, u8) {
    let mut p = hermitian(dice, n);
    if p.is_identity() {
        p.z = 1 << dice.below(n.min(64));
    }
    let mask = if p.x != 0 { p.x } else { p.z };
    let pivots: Vec<u8> = (0..64).filter(|q| mask >> q & 1 == 1).collect();
    (p, dice.pick(&pivots))
}

pub fn rotation(dice: &mut Dice, n: usize) -> Step {
    let (c, s) = floats::cosine_and_sine(dice);
    Step::Rotation {
        pauli: hermitian(dice, n),
        sign: dice.below(2) as u8,
        c: c.to_bits(),
        s: s.to_bits(),
    }
}

pub fn promotion(dice: &mut Dice) -> Step {
    let (c, q) = floats::cosine_and_sine(dice);
    Step::Promotion {
        c: c.to_bits(),
        q: q.to_bits(),
    }
}

pub fn projection(dice: &mut Dice, n: usize) -> Step {
    let (pauli, pivot) = measured(dice, n);
    Step::Projection {
        pauli,
        pivot,
        branch: dice.below(2) as u8,
        invnorm: floats::invnorm(dice).to_bits(),
    }
}

pub fn quarter_turn(dice: &mut Dice, n: usize) -> Step {
    let pauli = hermitian(dice, n);
    Step::QuarterTurn { pauli }
}

pub fn correction(dice: &mut Dice, n: usize) -> Step {
    let pauli = pauli(dice, n);
    Step::Correction { pauli }
}

/// A step at width n that leaves a width of `limit` or less.
pub fn step(dice: &mut Dice, n: usize, limit: usize) -> Step {
    match dice.below(10) {
        0 | 1 if n > 0 => projection(dice, n),
        2 | 3 if n < limit => promotion(dice),
        4 => correction(dice, n),
        5 | 6 => quarter_turn(dice, n),
        _ => rotation(dice, n),
    }
}

pub fn run(dice: &mut Dice, start: usize, count: usize, limit: usize) -> Run {
    let mut width = start;
    let mut steps = Vec::new();
    for _ in 0..count {
        let next = step(dice, width, limit);
        width = next.width_after(width);
        steps.push(next);
    }
    Run {
        width: start,
        steps,
    }
}

/// 2^n amplitudes: the parts re and im.
pub fn state(dice: &mut Dice, n: usize) -> [Vec<f64>; 2] {
    let length = 1 << n;
    let kind = dice.below(16);
    let part = |dice: &mut Dice| (0..length).map(|_| entry(dice, kind)).collect();
    let mut parts: [Vec<f64>; 2] = [part(dice), part(dice)];
    if kind == 0 {
        parts[0][dice.below(length)] = 1.0;
    }
    if kind == 1 {
        parts[dice.below(2)][dice.below(length)] = floats::not_finite(dice);
    }
    parts
}

/// No entry is a zero.
pub fn ordinary_state(dice: &mut Dice, n: usize) -> [Vec<f64>; 2] {
    [(); 2].map(|_| (0..1 << n).map(|_| 1.5 + dice.unit()).collect())
}

fn entry(dice: &mut Dice, kind: usize) -> f64 {
    match kind {
        0 => dice.pick(&[0.0, -0.0]),
        2 => floats::any(dice),
        3 => floats::denormal(dice),
        4 => floats::huge(dice),
        5 => floats::finite(dice),
        6 | 7 if dice.flip() => dice.pick(&[0.0, -0.0]),
        _ => floats::unit(dice),
    }
}
