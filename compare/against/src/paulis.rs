//! Bits and Pauli strings.

use model::dice::Dice;
use model::rows::lowest;
use naribhush::{self as here, PauliString};
use ticit::pauli as rust;

use crate::inputs;
use crate::published::{Theirs, asked, from_rust, of, to_rust, try_of};
use crate::tally::{Call, NO_ID, Tally};

const LETTERS: [rust::Pauli; 4] = [
    rust::Pauli::I,
    rust::Pauli::X,
    rust::Pauli::Z,
    rust::Pauli::Y,
];

/// Bits past which the Rust is not asked to set one: it would make room for them all.
const MOST_BITS: usize = 4096;

// ------------------------------------------------------------- rows of 01

/// Row 3: phase over 3, width over 256, or a mask bit at or above the width.
pub fn is_pauli(p: &PauliString) -> bool {
    let outside = |mask: &[u64; 4]| {
        let bits = (0..256).rev().find(|&q| mask[q / 64] >> (q % 64) & 1 == 1);
        bits.is_some_and(|q| q >= p.nqubits)
    };
    p.phase <= 3 && p.nqubits <= 256 && !outside(&p.x) && !outside(&p.z)
}

/// The exponent of i in front of the letters.
pub fn coefficient(p: &PauliString) -> u8 {
    let ys: u32 =
        p.x.iter()
            .zip(&p.z)
            .map(|(x, z)| (x & z).count_ones())
            .sum();
    ((p.phase as u32 + 4 * 64 - ys % 4) % 4) as u8
}

/// The difference where the Rust takes a Pauli that this row refuses.
pub fn id_of(row: u8, p: &PauliString) -> &'static str {
    match () {
        _ if row != 3 => NO_ID,
        _ if p.nqubits > 256 => "width-over-256",
        _ if p.phase > 3 => "phase-over-3",
        _ => "mask-past-width",
    }
}

// ------------------------------------------------------------------- calls

pub fn is_odd_popcount(tally: &mut Tally, word: u64) {
    tally.plain(
        Call::IsOddPopcount,
        0,
        Ok(here::is_odd_popcount(word)),
        asked(|| ticit::is_odd_popcount(word)),
        |_| NO_ID,
        || format!("{word:#x}"),
    );
}

pub fn insert_zero_bit(tally: &mut Tally, packed: usize, bit: usize) {
    tally.plain(
        Call::InsertZeroBit,
        lowest(&[(bit > 63, 5)]),
        here::insert_zero_bit(packed, bit),
        asked(|| ticit::active::insert_zero_bit(packed, bit)),
        |_| "bit-over-63",
        || format!("{packed:#x}, bit {bit}"),
    );
}

pub fn packed_bits(tally: &mut Tally, words: [u64; 4], bit: usize, value: bool) {
    let input = || format!("{words:x?}, bit {bit}, {value}");
    tally.plain(
        Call::PackedBit,
        0,
        Ok(here::packed_bit(&words, bit)),
        asked(|| ticit::packed_bit(&words, bit)),
        |_| NO_ID,
        input,
    );

    set_packed_bit(tally, words, bit, value);
}

/// Past the mask the Rust's vector grows, and here nothing happens.
fn set_packed_bit(tally: &mut Tally, words: [u64; 4], bit: usize, value: bool) {
    let call = Call::SetPackedBit;
    let input = || format!("{words:x?}, bit {bit}, {value}");
    let mut ours = words;
    if let Err(refusal) = here::set_packed_bit(&mut ours, bit, value.into()) {
        return tally.report(call, &format!("{refusal:?}"), &input());
    }
    if bit > 255 && ours != words {
        return tally.report(call, "a bit past the mask was set", &input());
    }
    if bit > MOST_BITS {
        return tally.row_alone(call);
    }
    let theirs = asked(|| {
        let mut theirs = words.to_vec();
        ticit::set_packed_bit(&mut theirs, bit, value);
        theirs
    });
    match theirs {
        Theirs::Accepted(grown) if bit > 255 && grown.len() > 4 && grown[..4] == words => {
            tally.differs(call, "set-past-the-mask");
        }
        Theirs::Accepted(four) if four == ours => tally.equal(call, 4),
        theirs => tally.report(
            call,
            &format!("here {ours:x?}, the Rust {theirs:x?}"),
            &input(),
        ),
    }
}

pub fn identity(tally: &mut Tally, n: usize) {
    let of_width = PauliString {
        nqubits: n,
        ..PauliString::default()
    };
    tally.plain(
        Call::PauliIdentity,
        lowest(&[(n > 256, 3)]),
        here::pauli_identity(n),
        of(&to_rust(&of_width), |_| from_rust(&rust::pauli_identity(n))),
        |_| "width-over-256",
        || n.to_string(),
    );
}

/// The calls on one Pauli and one of its qubits; `code` is the letter to set.
pub fn at_qubit(tally: &mut Tally, p: PauliString, q: usize, code: usize) {
    let theirs = to_rust(&p);
    let row = lowest(&[(!is_pauli(&p), 3), (q >= p.nqubits, 5)]);
    let id = |row| id_of(row, &p);
    let input = || format!("{p:x?}, qubit {q}, letter {code}");
    tally.plain(
        Call::XBit,
        row,
        here::x_bit(p, q),
        of(&theirs, |t| t.xbit(q)),
        id,
        input,
    );
    tally.plain(
        Call::ZBit,
        row,
        here::z_bit(p, q),
        of(&theirs, |t| t.zbit(q)),
        id,
        input,
    );
    tally.plain(
        Call::Get,
        row,
        here::get(p, q),
        of(&theirs, |t| t.get(q) as usize),
        id,
        input,
    );
    let letter_set = |t: &rust::PauliString| {
        let mut t = t.clone();
        t.set(q, LETTERS[code]);
        from_rust(&t)
    };
    tally.plain(
        Call::Set,
        row,
        here::set(p, q, (code & 1) as u8, (code >> 1) as u8),
        of(&theirs, letter_set),
        id,
        input,
    );
}

/// The calls on one Pauli.
pub fn whole(tally: &mut Tally, p: PauliString) {
    let theirs = to_rust(&p);
    let row = lowest(&[(!is_pauli(&p), 3)]);
    let id = |row| id_of(row, &p);
    let input = || format!("{p:x?}");
    tally.plain(
        Call::MaxSupport,
        row,
        here::max_support(p),
        of(&theirs, |t| t.max_support()),
        id,
        input,
    );
    let exponent = |t: &rust::PauliString| {
        let phase = t.phase_exponent() - rust::pauli_body_y_count(t);
        (phase & 3) as usize
    };
    tally.plain(
        Call::CoefficientPhase,
        row,
        here::coefficient_phase(p),
        of(&theirs, exponent),
        id,
        input,
    );
    tally.plain(
        Call::SquaresToIdentity,
        row,
        here::pauli_squares_to_identity(p),
        of(&theirs, rust::pauli_squares_to_identity),
        id,
        input,
    );
    tally.plain(
        Call::MeasurementPhaseSign,
        lowest(&[(row != 0, row), (coefficient(&p) % 2 == 1, 7)]),
        here::measurement_phase_sign(p),
        try_of(&theirs, rust::measurement_phase_sign),
        id,
        input,
    );
}

pub fn pair(tally: &mut Tally, a: PauliString, b: PauliString) {
    let both = to_rust(&a).zip(to_rust(&b));
    let row = lowest(&[
        (!is_pauli(&a) || !is_pauli(&b), 3),
        (a.nqubits != b.nqubits, 4),
    ]);
    let id = |row| id_of(row, if is_pauli(&a) { &b } else { &a });
    let input = || format!("{a:x?}, {b:x?}");
    let (product, anticommute) = match &both {
        None => (Theirs::NotAsked, Theirs::NotAsked),
        Some((a, b)) => (
            asked(|| from_rust(&(a * b))),
            asked(|| rust::pauli_anticommutes(a, b)),
        ),
    };
    tally.plain(Call::Mul, row, here::mul(a, b), product, id, input);
    tally.plain(
        Call::Anticommutes,
        row,
        here::pauli_anticommutes(a, b),
        anticommute,
        id,
        input,
    );
}

// ------------------------------------------------------------------- cases

/// Every Pauli of width `n` with masks of `bits` bits and phases below `phases`.
pub fn every(n: usize, bits: usize, phases: u8) -> impl Iterator<Item = PauliString> {
    let size = 1u64 << bits;
    let masks = (0..size).flat_map(move |x| (0..size).map(move |z| (x, z)));
    masks.flat_map(move |(x, z)| {
        (0..phases).map(move |phase| PauliString {
            nqubits: n,
            x: [x, 0, 0, 0],
            z: [z, 0, 0, 0],
            phase,
        })
    })
}

/// Short ones, all of them: widths 0 to 4; below 3 with a mask bit past the width and a phase of 4 too.
pub fn exhaustive(tally: &mut Tally) {
    for word in 0..1 << 16 {
        is_odd_popcount(tally, word);
        is_odd_popcount(tally, word << 48 | word);
    }
    for bit in 0..130 {
        for packed in 0..1024 {
            insert_zero_bit(tally, packed, bit);
            insert_zero_bit(tally, packed << 54 | packed, bit);
        }
        insert_zero_bit(tally, usize::MAX, bit);
    }
    for bit in 0..320 {
        for words in [[0; 4], [u64::MAX; 4], [1, 1 << 63, u64::MAX, 0]] {
            packed_bits(tally, words, bit, false);
            packed_bits(tally, words, bit, true);
        }
    }
    for n in (0..=300).chain([1000, 4096, 1 << 20, usize::MAX]) {
        identity(tally, n);
    }
    for n in 0..=4 {
        let wider = usize::from(n < 3);
        let all: Vec<_> = every(n, n + wider, 4 + wider as u8).collect();
        for &p in &all {
            whole(tally, p);
            for q in 0..n + 2 {
                (0..4).for_each(|code| at_qubit(tally, p, q, code));
            }
        }
        let pairs: Vec<_> = every(n, n, 4).collect();
        for &a in &pairs {
            pairs.iter().for_each(|&b| pair(tally, a, b));
        }
    }
    // Widths that differ, and operands past the width.
    for a in (0..=2).flat_map(|n| every(n, n + 1, 5)) {
        for b in (0..=2).flat_map(|n| every(n, n, 1)) {
            pair(tally, a, b);
            pair(tally, b, a);
        }
    }
}

pub fn random(tally: &mut Tally, dice: &mut Dice, rounds: usize) {
    for _ in 0..rounds {
        let n = inputs::width(dice);
        let mut p = inputs::pauli(dice, n);
        if dice.once_in(8) {
            p = inputs::spoiled(dice, p);
        }
        whole(tally, p);
        let q = inputs::qubit(dice, n);
        at_qubit(tally, p, q, dice.below(4));

        let other_n = if dice.once_in(16) {
            inputs::width(dice)
        } else {
            n
        };
        let mut other = inputs::pauli(dice, other_n);
        if dice.once_in(16) {
            other = inputs::spoiled(dice, other);
        }
        pair(tally, p, other);
        pair(tally, other, p);

        is_odd_popcount(tally, dice.word());
        insert_zero_bit(tally, dice.word() as usize, dice.below(66));
        packed_bits(tally, p.x, inputs::qubit(dice, 256), dice.flip());
    }
}
