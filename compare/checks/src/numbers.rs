//! Any numbers at all for the calls that take no run: mostly good ones, so that each later row is met too.

use crate::draw;
use crate::mutate::bad_pauli;
use crate::wide::{self, MOST_QUBITS};
use model::dice::Dice;
use model::pauli::Pauli;
use naribhush::PauliString;

pub fn any_size(dice: &mut Dice) -> usize {
    match dice.below(3) {
        0 => dice.pick(&[usize::MAX, 1 << 63, 1 << 32, 257, 64]),
        1 => dice.below(300),
        _ => dice.word() as usize,
    }
}

/// A width of few qubits, at a limit of some row, or any.
pub fn any_width(dice: &mut Dice) -> usize {
    match dice.below(12) {
        0 => dice.below(10),
        1 | 2 => dice.pick(&[59, 60, 61, 62, 63, 64, 65]),
        3 => dice.pick(&[100, 255, 256, 257]),
        4 => any_size(dice),
        _ => dice.below(6),
    }
}

/// A qubit below n, n itself, or any.
pub fn any_qubit(dice: &mut Dice, n: usize) -> usize {
    match dice.below(8) {
        0 => any_size(dice),
        1 => n,
        _ => dice.below(n.max(1)),
    }
}

/// A number for a bit: 0 or 1, most of the time.
pub fn any_flag(dice: &mut Dice) -> u8 {
    match dice.below(10) {
        0 => dice.pick(&[2, 3, 128, 255]),
        1 => dice.word() as u8,
        _ => dice.below(2) as u8,
    }
}

/// With one word a mask. Hermitian, most of the time.
pub fn any_active(dice: &mut Dice) -> Pauli {
    let width = any_width(dice);
    let mut p = draw::hermitian(dice, width);
    if dice.once_in(6) {
        p = bad_pauli(dice, p);
    }
    if dice.once_in(20) {
        p.k = dice.word() as u8;
    }
    p
}

/// To be measured, and a pivot for it.
pub fn any_measured(dice: &mut Dice) -> (Pauli, usize) {
    let p = any_active(dice);
    if p.n == 0 || dice.once_in(4) {
        let pivot = any_qubit(dice, p.n);
        return (p, pivot);
    }
    let (mut p, pivot) = draw::measured(dice, p.n);
    if dice.once_in(6) {
        p = bad_pauli(dice, p);
    }
    (p, pivot as usize)
}

/// A second Pauli for the first one, on as many qubits unless dice say otherwise.
pub fn any_partner(dice: &mut Dice, p: Pauli) -> Pauli {
    match dice.once_in(6) {
        true => any_active(dice),
        false => draw::pauli(dice, p.n),
    }
}

fn wide_mask(dice: &mut Dice, n: usize) -> [u64; 4] {
    let sparse = dice.flip();
    let mut words = [0; 4].map(|_: u64| match sparse {
        true => dice.word() & dice.word() & dice.word(),
        false => dice.word(),
    });
    for q in n.min(MOST_QUBITS)..MOST_QUBITS {
        wide::set_bit(&mut words, q, false);
    }
    words
}

pub fn any_wide(dice: &mut Dice) -> PauliString {
    let n = match dice.below(8) {
        0 => any_size(dice),
        1 => dice.pick(&[255, 256, 257]),
        2 | 3 => dice.pick(&[60, 61, 62, 63, 64, 65]),
        4 => dice.below(MOST_QUBITS + 1),
        _ => dice.below(8),
    };
    on_qubits(dice, n)
}

/// On n qubits, but for a fault now and then.
pub fn on_qubits(dice: &mut Dice, n: usize) -> PauliString {
    let mut p = PauliString {
        nqubits: n,
        x: wide_mask(dice, n),
        z: wide_mask(dice, n),
        phase: dice.below(4) as u8,
    };
    match dice.below(24) {
        0 => p.phase = dice.pick(&[4, 5, 128, 255]),
        1 => wide::set_bit(&mut p.x, n, true),
        2 => wide::set_bit(&mut p.z, n.saturating_add(1), true),
        3 => wide::set_bit(&mut p.x, MOST_QUBITS - 1, true),
        4 => (p.x, p.z) = ([0; 4], [0; 4]),
        _ => {}
    }
    p
}

const LETTERS: [u8; 9] = *b"IXYZixyz_";

/// A text of Pauli letters, once in a while with other bytes in it.
pub fn any_text(dice: &mut Dice) -> Vec<u8> {
    let length = match dice.below(6) {
        0 => dice.pick(&[255, 256, 257, 300, 1000]),
        1 => dice.below(300),
        _ => dice.below(8),
    };
    let mut text: Vec<u8> = (0..length).map(|_| dice.pick(&LETTERS)).collect();
    for _ in 0..dice.pick(&[0, 0, 0, 1, 2]) {
        if let Some(at) = length.checked_sub(1) {
            text[dice.below(at + 1)] = dice.word() as u8;
        }
    }
    text
}
