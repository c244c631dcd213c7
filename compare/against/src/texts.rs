//! Paulis as text: read and shown.

use model::dice::Dice;
use model::rows::lowest;
use naribhush::{self as here, PauliString, Refusal};
use ticit::pauli::pauli_string;

use crate::inputs;
use crate::paulis::{coefficient, every, id_of, is_pauli};
use crate::published::{Theirs, from_rust, of, to_rust, tried};
use crate::tally::{Call, Case, Lent, NO_ID, Tally, row};

const LONGEST: usize = 256;
const GOOD: &[u8] = b"IXYZ_ixyz";
/// Good bytes and bad ones: a control, a sign, a letter near the good ones, the edges of the cases, bytes of
/// no ASCII.
const MIXED: &[u8] = b"IxYz_\0-*Wj{\x80\xff";
/// What a buffer is filled with before a Pauli is shown in it.
const FILLED: u8 = 0xee;

// ----------------------------------------------------------------- reading

/// Rows 1 and 2.
fn refusal(text: &[u8]) -> Option<Refusal> {
    if text.len() > LONGEST {
        return row(1);
    }
    let place = text.iter().position(|byte| !GOOD.contains(byte))?;
    Some(Refusal {
        number: 2,
        place: Some(place),
    })
}

pub fn read(tally: &mut Tally, text: &[u8]) {
    // The Rust takes a `&str`, which other bytes cannot be.
    let theirs = match std::str::from_utf8(text) {
        Ok(text) => tried(|| Ok(from_rust(&pauli_string(text)?))),
        Err(_) => Theirs::NotAsked,
    };
    let case = Case {
        row: refusal(text),
        ours: here::pauli_string(text),
        theirs,
        lent: Lent::default(),
    };
    let input = || format!("{}", text.escape_ascii());
    let id = |row| if row == 1 { "text-over-256" } else { NO_ID };
    tally.judge(Call::PauliText, case, id, input);
}

// ----------------------------------------------------------------- showing

/// The prefix, then a letter a qubit, one for no qubits.
fn length_shown(p: &PauliString) -> usize {
    [0, 2, 1, 3][coefficient(p) as usize] + p.nqubits.max(1)
}

/// The Pauli shown in a buffer of so many bytes.
pub fn show(tally: &mut Tally, p: PauliString, length: usize) {
    let mut ours = vec![FILLED; length];
    let answer = here::display(p, &mut ours);
    let text = of(&to_rust(&p), |p| p.to_string());
    let row = row(match is_pauli(&p) {
        true => lowest(&[(length < length_shown(&p), 16)]),
        false => 3,
    });
    let mut lent = Lent {
        changed: ours.iter().any(|&byte| byte != FILLED),
        differ: false,
        entries: length,
    };
    if let (Ok(_), Theirs::Accepted(text)) = (&answer, &text) {
        let shown = ours.strip_prefix(text.as_bytes());
        lent.differ = !shown.is_some_and(|rest| rest.iter().all(|&byte| byte == FILLED));
    }
    let theirs = match text {
        Theirs::Accepted(text) => Theirs::Accepted(text.len()),
        Theirs::Error => Theirs::Error,
        Theirs::Panicked => Theirs::Panicked,
        Theirs::NotAsked => Theirs::NotAsked,
    };
    let id = |row| match row {
        16 => "no-room-for-text",
        _ => id_of(row, &p),
    };
    let input = || format!("{p:x?}, a buffer of {length}");
    let ours = answer;
    let case = Case {
        row,
        ours,
        theirs,
        lent,
    };
    tally.judge(Call::Display, case, id, input);
}

// ------------------------------------------------------------------- cases

/// All texts of 0 to 2 bytes, those of 3 and 4 of the mixed bytes; short Paulis in every buffer.
pub fn exhaustive(tally: &mut Tally) {
    read(tally, b"");
    for a in 0..=255 {
        read(tally, &[a]);
        (0..=255).for_each(|b| read(tally, &[a, b]));
    }
    for &a in MIXED {
        for &b in MIXED {
            for &c in MIXED {
                read(tally, &[a, b, c]);
                MIXED.iter().for_each(|&d| read(tally, &[a, b, c, d]));
            }
        }
    }
    for n in 0..=4 {
        let wider = usize::from(n < 3);
        for p in every(n, n + wider, 4 + wider as u8) {
            (0..9).for_each(|length| show(tally, p, length));
        }
    }
}

pub fn random(tally: &mut Tally, dice: &mut Dice, rounds: usize) {
    for _ in 0..rounds {
        let length = match dice.below(8) {
            0 => dice.pick(&[255, 256, 257, 258, 300]),
            1 => dice.below(300),
            _ => dice.below(70),
        };
        let mut text: Vec<u8> = (0..length).map(|_| dice.pick(GOOD)).collect();
        if length > 0 && dice.once_in(3) {
            for _ in 0..=dice.below(2) {
                text[dice.below(length)] = dice.word() as u8 & 0x7f;
            }
        }
        if length > 1 && dice.once_in(16) {
            let at = dice.below(length - 1);
            text[at..at + 2].copy_from_slice("é".as_bytes());
        }
        read(tally, &text);

        let n = inputs::width(dice);
        let mut p = inputs::pauli(dice, n);
        if dice.once_in(16) {
            p = inputs::spoiled(dice, p);
        }
        let length = match dice.below(4) {
            0 => dice.below(300),
            1 => (length_shown(&p) - 1).min(LONGEST + 4),
            2 => length_shown(&p).min(LONGEST + 4),
            _ => LONGEST + 4,
        };
        show(tally, p, length);
    }
}
