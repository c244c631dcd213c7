//! What demand 3 is tried on: random runs, and all single steps of few qubits.

use crate::two_ways::Trial;
use crate::{draw, floats};
use model::dice::Dice;
use model::pauli::paulis;
use model::run::{EMULATOR, LIMIT, Run, SERVICE, Step, step_row};

/// Most runs have few qubits, so that a million of them take minutes, and the emulator takes them too; once in a while up to 12.
pub fn random_trial(dice: &mut Dice) -> Trial {
    let (start, limit) = match dice.below(200) {
        0..=2 => (dice.below(LIMIT + 1), LIMIT),
        3..=12 => (6 + dice.below(4), 9),
        13..=22 => (EMULATOR.widest, EMULATOR.widest),
        _ => (dice.below(EMULATOR.widest), EMULATOR.widest),
    };
    let count = dice.below(25);
    Trial {
        run: draw::run(dice, start, count, limit),
        q: draw::pauli(dice, start),
        state: draw::state(dice, start),
    }
}

/// All steps at width n that no row refuses, but for their floats, which are drawn.
pub fn single_steps(dice: &mut Dice, n: usize) -> Vec<Step> {
    let mut steps = vec![draw::promotion(dice)];
    for pauli in paulis(n) {
        steps.push(Step::Correction { pauli });
        steps.push(Step::QuarterTurn { pauli });
        for flag in 0..2 {
            if let Step::Rotation { c, s, .. } = draw::rotation(dice, n) {
                steps.push(Step::Rotation {
                    pauli,
                    sign: flag,
                    c,
                    s,
                });
            }
            let invnorm = floats::invnorm(dice).to_bits();
            let of_pivot = |pivot| Step::Projection {
                pauli,
                pivot,
                branch: flag,
                invnorm,
            };
            steps.extend((0..n as u8).map(of_pivot));
        }
    }
    steps.retain(|&step| step_row(step, n, SERVICE) == 0);
    steps
}

/// Every Pauli on n qubits with every single step there, on an ordinary state and on one of any kind.
pub fn single_step_trials(dice: &mut Dice, n: usize) -> Vec<Trial> {
    let mut trials = Vec::new();
    for q in paulis(n) {
        for step in single_steps(dice, n) {
            for state in [draw::ordinary_state(dice, n), draw::state(dice, n)] {
                let steps = vec![step];
                let run = Run { width: n, steps };
                trials.push(Trial { run, q, state });
            }
        }
    }
    trials
}
