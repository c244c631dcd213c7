//! Paulis, steps and runs for the tests: made by hand in few words, and drawn.

use crate::dice::Dice;
use crate::pauli::{Pauli, parity};
use crate::run::{Run, Step};

pub const X: Pauli = pauli(1, 0, 1, 0);
pub const Y: Pauli = pauli(1, 1, 1, 1);
pub const Z: Pauli = pauli(1, 0, 0, 1);

pub const PROMOTION: Step = Step::Promotion { c: 0, q: 0 };

pub const fn pauli(n: usize, k: u8, x: u64, z: u64) -> Pauli {
    Pauli { n, k, x, z }
}

/// Paulis, and which row refuses each that is to be carried through a run that starts on one qubit.
pub const TO_CARRY: [(Pauli, Option<u8>); 9] = [
    (pauli(1, 4, 0, 0), Some(3)),
    (pauli(1, 0, 2, 0), Some(3)),
    (pauli(1, 0, 0, 2), Some(3)),
    (pauli(257, 0, 0, 0), Some(3)),
    (pauli(2, 4, 0, 0), Some(3)),
    (pauli(2, 0, 0, 0), Some(4)),
    (pauli(0, 0, 0, 0), Some(4)),
    (pauli(256, 0, u64::MAX, 0), Some(4)),
    (X, None),
];

pub fn rotation(pauli: Pauli, sign: u8) -> Step {
    let (c, s) = (0, 0);
    Step::Rotation { pauli, sign, c, s }
}

pub fn projection(pauli: Pauli, pivot: u8, branch: u8) -> Step {
    Step::Projection {
        pauli,
        pivot,
        branch,
        invnorm: 0,
    }
}

pub fn correction(pauli: Pauli) -> Step {
    Step::Correction { pauli }
}

pub fn quarter_turn(pauli: Pauli) -> Step {
    Step::QuarterTurn { pauli }
}

pub fn run(width: usize, steps: &[Step]) -> Run {
    let steps = steps.to_vec();
    Run { width, steps }
}

// -------------------------------------------------------------------- drawn

pub fn any_pauli(dice: &mut Dice, n: usize) -> Pauli {
    let masks = 1 << n;
    let (x, z) = (dice.below(masks) as u64, dice.below(masks) as u64);
    pauli(n, dice.below(4) as u8, x, z)
}

fn hermitian(dice: &mut Dice, n: usize) -> Pauli {
    let p = any_pauli(dice, n);
    let k = (parity(p.x, p.z) + 2 * dice.below(2) as u8) % 4;
    Pauli { k, ..p }
}

/// Of a Pauli that is not the identity; the width is not 0.
fn any_projection(dice: &mut Dice, n: usize) -> Step {
    let mut p = hermitian(dice, n);
    if p.is_identity() {
        p.z = 1;
    }
    let mask = if p.x != 0 { p.x } else { p.z };
    let pivots: Vec<u8> = (0..n as u8).filter(|q| mask >> q & 1 == 1).collect();
    projection(p, dice.pick(&pivots), dice.below(2) as u8)
}

fn any_step(dice: &mut Dice, n: usize, limit: usize) -> Step {
    match dice.below(8) {
        0 | 1 if n > 0 => any_projection(dice, n),
        2 | 3 if n < limit => PROMOTION,
        4 => correction(any_pauli(dice, n)),
        5 => rotation(hermitian(dice, n), dice.below(2) as u8),
        _ => quarter_turn(hermitian(dice, n)),
    }
}

pub fn any_run(dice: &mut Dice, limit: usize) -> Run {
    let start = dice.below(limit + 1);
    let (mut width, mut steps) = (start, Vec::new());
    for _ in 0..dice.below(13) {
        let step = any_step(dice, width, limit);
        width = step.width_after(width);
        steps.push(step);
    }
    run(start, &steps)
}
