//! Runs with damage: in a step's numbers, in the order and shape of the fields, in single bytes.

use crate::{draw, floats};
use model::dice::Dice;
use model::pauli::Pauli;
use model::run::{self, EMULATOR, LIMIT, LONGEST, Run, Step};

/// Bytes to offer as a run: intact, damaged in one way or in several, or never a run at all.
pub fn offered(dice: &mut Dice) -> Vec<u8> {
    if dice.once_in(20) {
        return random_bytes(dice);
    }
    let mut run = random_run(dice);
    if dice.once_in(2) {
        damage_steps(dice, &mut run);
    }
    let mut fields = run.fields();
    if dice.once_in(4) {
        damage_fields(dice, &mut fields);
    }
    let mut bytes = fields.concat();
    if dice.once_in(4) {
        damage_bytes(dice, &mut bytes);
    }
    bytes
}

fn random_bytes(dice: &mut Dice) -> Vec<u8> {
    let length = dice.below(90);
    let mut bytes: Vec<u8> = (0..length).map(|_| random_byte(dice)).collect();
    if dice.flip() {
        bytes.splice(0..0, run::start_field(dice.below(LIMIT + 2)));
    }
    bytes
}

/// Small numbers, which tags and lengths are, more often than others.
fn random_byte(dice: &mut Dice) -> u8 {
    match dice.below(3) {
        0 => dice.below(10) as u8,
        1 => dice.pick(&[0, 1, 16, 17, 27, 34, 255]),
        _ => dice.word() as u8,
    }
}

/// Mostly of few qubits, some about the emulator's six. The wide ones are read under a higher limit than the service's.
fn random_run(dice: &mut Dice) -> Run {
    let (start, limit) = match dice.below(40) {
        0 => (dice.below(LIMIT + 1), LIMIT),
        1 | 2 => (LIMIT, 14),
        3 => (dice.pick(&[13, 19, 20, 21]), 25),
        4..=6 => (58 + dice.below(6), 64),
        7 => (dice.pick(&[64, 100, 254, 255]), 257),
        8..=12 => (dice.pick(&[4, 5, 5, 6, 6, 6, 6, 7]), EMULATOR.widest + 2),
        _ => (dice.below(5), 6),
    };
    let count = dice.below(9);
    draw::run(dice, start, count, limit)
}

// -------------------------------------------------------------- in a step

/// One to three faults in one step; now and then a fault in a second one too.
fn damage_steps(dice: &mut Dice, run: &mut Run) {
    if run.steps.is_empty() {
        return;
    }
    for _ in 0..1 + usize::from(dice.once_in(4)) {
        let at = dice.below(run.steps.len());
        for _ in 0..dice.pick(&[1, 1, 2, 2, 3]) {
            damage_step(dice, &mut run.steps[at]);
        }
    }
    if dice.once_in(4) {
        insert_projection_of_nothing(dice, run);
    }
}

fn damage_step(dice: &mut Dice, step: &mut Step) {
    match (step, dice.below(4)) {
        (Step::Rotation { sign, .. }, 0) => *sign = bad_flag(dice),
        (Step::Rotation { c, .. }, 1) => *c = bad_unit(dice),
        (Step::Rotation { s, .. }, 2) => *s = bad_unit(dice),
        (Step::Rotation { pauli, .. }, _) => *pauli = bad_pauli(dice, *pauli),
        (Step::Promotion { c, .. }, 0 | 1) => *c = bad_unit(dice),
        (Step::Promotion { q, .. }, _) => *q = bad_unit(dice),
        (Step::Projection { branch, .. }, 0) => *branch = bad_flag(dice),
        (Step::Projection { pauli, pivot, .. }, 1) => *pivot = any_pivot(dice, pauli.n),
        (Step::Projection { invnorm, .. }, 2) => *invnorm = floats::not_finite(dice).to_bits(),
        (Step::Projection { pauli, .. }, _) => *pauli = bad_pauli(dice, *pauli),
        (Step::Correction { pauli } | Step::QuarterTurn { pauli }, _) => {
            *pauli = bad_pauli(dice, *pauli);
        }
    }
}

/// At width 0 there is nothing to measure, whatever else is wrong with the field.
fn insert_projection_of_nothing(dice: &mut Dice, run: &mut Run) {
    let widths = run.widths();
    let Some(at) = widths.iter().position(|&width| width == 0) else {
        return;
    };
    let mut step = Step::Projection {
        pauli: draw::hermitian(dice, 0),
        pivot: random_byte(dice),
        branch: random_byte(dice) % 3,
        invnorm: floats::invnorm(dice).to_bits(),
    };
    if dice.flip() {
        damage_step(dice, &mut step);
    }
    run.steps.insert(at, step);
}

fn bad_flag(dice: &mut Dice) -> u8 {
    let any = 2 + dice.below(254) as u8;
    dice.pick(&[2, 3, 128, 255, any])
}

/// Beyond -1..1 or a NaN, most of the time.
fn bad_unit(dice: &mut Dice) -> u64 {
    let above_one = f64::from_bits(0x3ff0_0000_0000_0001);
    match dice.below(4) {
        0 => above_one.to_bits(),
        1 => (-above_one).to_bits(),
        2 => floats::not_finite(dice).to_bits(),
        _ => floats::any(dice).to_bits(),
    }
}

/// Mostly below the width, where the Pauli may have no part that is asked for.
fn any_pivot(dice: &mut Dice, n: usize) -> u8 {
    match dice.below(6) {
        0 => dice.word() as u8,
        1 => n as u8,
        _ => dice.below(n.clamp(1, 255)) as u8,
    }
}

/// A phase over 3, a phase that makes it not Hermitian, a bit at or above the width, the identity, no X part.
pub fn bad_pauli(dice: &mut Dice, p: Pauli) -> Pauli {
    let above = 1u64 << (p.n.min(63) + dice.below(64 - p.n.min(63)));
    match dice.below(7) {
        0 => Pauli {
            k: dice.pick(&[4, 5, 6, 7, 255]),
            ..p
        },
        1 => Pauli { k: p.k ^ 1, ..p },
        2 => Pauli {
            x: p.x | above,
            ..p
        },
        3 => Pauli {
            z: p.z | above,
            ..p
        },
        4 => Pauli {
            x: 0,
            z: 0,
            k: p.k & 2,
            ..p
        },
        5 => Pauli {
            x: 0,
            k: p.k & 2,
            ..p
        },
        _ => Pauli {
            x: dice.word(),
            z: dice.word(),
            ..p
        },
    }
}

// ------------------------------------------------------------- in the fields

fn damage_fields(dice: &mut Dice, fields: &mut Vec<Vec<u8>>) {
    for _ in 0..1 + usize::from(dice.once_in(3)) {
        let (at, other) = (dice.below(fields.len()), dice.below(fields.len()));
        match dice.below(8) {
            0 => fields.insert(at, fields[other].clone()),
            1 => fields.swap(at, other),
            2 if fields.len() > 1 => drop(fields.remove(at)),
            3 => fields.insert(at, run::start_field(dice.below(LIMIT + 2))),
            4 => fields.insert(at, run::end_field()),
            5 => fields[at][0] = random_byte(dice),
            6 => longer_or_shorter(dice, &mut fields[at]),
            _ => fields[at][1 + dice.below(2)] = random_byte(dice),
        }
    }
}

/// The body's length and the number that tells it, wrong together.
fn longer_or_shorter(dice: &mut Dice, field: &mut Vec<u8>) {
    if dice.flip() && field.len() > 3 {
        field.pop();
    } else {
        field.push(random_byte(dice));
    }
    let length = (field.len() - 3) as u16;
    field[1..3].copy_from_slice(&length.to_le_bytes());
}

// -------------------------------------------------------------- in the bytes

pub fn damage_bytes(dice: &mut Dice, bytes: &mut Vec<u8>) {
    for _ in 0..dice.pick(&[1, 1, 1, 2, 4]) {
        let at = dice.below(bytes.len().max(1));
        match dice.below(6) {
            0 if !bytes.is_empty() => bytes[at] ^= 1 << dice.below(8),
            1 if !bytes.is_empty() => bytes[at] = random_byte(dice),
            2 => bytes.truncate(at),
            3 => bytes.insert(at, random_byte(dice)),
            4 if !bytes.is_empty() => drop(bytes.remove(at)),
            _ => bytes.push(random_byte(dice)),
        }
    }
}

/// A run of exactly this many bytes, which no row refuses if it is not too long.
pub fn run_of_length(dice: &mut Dice, length: usize) -> Vec<u8> {
    let steps_length = length - run::start_field(0).len() - run::end_field().len();
    let width = dice.below(4);
    let correction = draw::correction(dice, width);
    let turn = draw::quarter_turn(dice, width);
    let short = correction.field().len();
    assert_eq!(short, turn.field().len());
    let long = draw::rotation(dice, width).field().len();
    // Rotations until what is left is a number of corrections and quarter turns, which have one length.
    let rotations = (0..).find(|count| (steps_length - count * long).is_multiple_of(short));
    let rotations = rotations.expect("lengths without a common divisor");
    let shorts = (steps_length - rotations * long) / short;
    let mut one = || dice.pick(&[correction, turn]);
    let mut steps: Vec<Step> = (0..shorts).map(|_| one()).collect();
    for _ in 0..rotations {
        steps.insert(dice.below(steps.len()), draw::rotation(dice, width));
    }
    Run { width, steps }.bytes()
}

/// Runs about the greatest length: intact, damaged near their end, and with bytes past it.
pub fn long_runs(dice: &mut Dice) -> Vec<Vec<u8>> {
    let mut all = Vec::new();
    for length in LONGEST - 2..=LONGEST + 2 {
        let whole = run_of_length(dice, length);
        let mut last = whole.clone();
        last[length - 1] ^= 1;
        let mut early = whole.clone();
        early[0] = dice.pick(&[7, 8]);
        let mut damaged = whole.clone();
        damage_bytes(dice, &mut damaged);
        all.extend([whole, last, early, damaged]);
    }
    for length in [LONGEST, LONGEST + 1, 2 * LONGEST] {
        all.push(vec![0; length]);
        let mut bytes = run_of_length(dice, 1000);
        bytes.resize(length, 6);
        all.push(bytes);
    }
    all
}
