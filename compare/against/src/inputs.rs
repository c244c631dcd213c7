//! Random inputs: Paulis, good and spoiled, and floats.

use model::dice::Dice;
use naribhush::{ActivePauli, PauliString};

/// The widest Pauli, and the widths where a mask reaches a word's last bit or the next word.
const WIDEST: usize = 256;
const BORDERS: [usize; 14] = [0, 1, 2, 62, 63, 64, 65, 127, 128, 129, 191, 192, 193, 255];

/// A width of a Pauli of four words: a border, a small one, or any.
pub fn width(dice: &mut Dice) -> usize {
    match dice.below(8) {
        0..=3 => dice.pick(&BORDERS),
        4 => WIDEST,
        5 => dice.below(8),
        _ => dice.below(WIDEST + 1),
    }
}

/// The bits of word `word` that a mask of width `n` may have.
fn within(n: usize, word: usize) -> u64 {
    match n.saturating_sub(64 * word) {
        0 => 0,
        bits => u64::MAX >> (64 - bits.min(64)),
    }
}

/// A word: dense, a few bits, one, none or all.
fn word(dice: &mut Dice) -> u64 {
    match dice.below(8) {
        0 => 0,
        1 => u64::MAX,
        2 => 1 << dice.below(64),
        3 => dice.word() & dice.word() & dice.word(),
        _ => dice.word(),
    }
}

fn mask(dice: &mut Dice, n: usize) -> [u64; 4] {
    let mut words = [0, 1, 2, 3].map(|w| word(dice) & within(n, w));
    // The highest bit of the width is where mistakes would show.
    if n > 0 && dice.once_in(4) {
        words[(n - 1) / 64] |= 1 << ((n - 1) % 64);
    }
    words
}

pub fn pauli(dice: &mut Dice, n: usize) -> PauliString {
    PauliString {
        nqubits: n,
        x: mask(dice, n),
        z: mask(dice, n),
        phase: dice.below(4) as u8,
    }
}

/// One that row 3 refuses, or a width near the greatest.
pub fn spoiled(dice: &mut Dice, mut p: PauliString) -> PauliString {
    let past = p.nqubits + [0, 0, 1, dice.below(256)][dice.below(4)];
    match dice.below(4) {
        0 => p.phase = dice.pick(&[4, 5, 6, 7, 128, 252, 255]),
        1 => p.nqubits = dice.pick(&[255, 256, 257, 300, 4096, 4097, usize::MAX]),
        2 if past < 256 => p.x[past / 64] |= 1 << (past % 64),
        _ if past < 256 => p.z[past / 64] |= 1 << (past % 64),
        _ => p.phase = 4,
    }
    p
}

/// A qubit of a Pauli of width `n`, or one past it.
pub fn qubit(dice: &mut Dice, n: usize) -> usize {
    match dice.below(16) {
        0 => n,
        1 => n.saturating_add(dice.below(300)),
        2 => dice.pick(&[255, 256, 257, usize::MAX]),
        3 => n.saturating_sub(1),
        _ => dice.below(n.clamp(1, WIDEST)),
    }
}

// --------------------------------------------------------- one-word Paulis

/// The bits that a one-word mask of width `n` may have.
pub fn low(n: usize) -> u64 {
    within(n, 0)
}

fn active_mask(dice: &mut Dice, n: usize) -> u64 {
    match dice.below(8) {
        0 => 0,
        1 => low(n),
        2 if n > 0 => 1 << dice.below(n.min(64)),
        _ => dice.word() & low(n),
    }
}

pub fn active(dice: &mut Dice, n: usize) -> ActivePauli {
    ActivePauli {
        nqubits: n,
        x: active_mask(dice, n),
        z: active_mask(dice, n),
        phase: dice.below(4) as u8,
    }
}

/// One with a real coefficient.
pub fn hermitian(dice: &mut Dice, n: usize) -> ActivePauli {
    let mut p = active(dice, n);
    match dice.below(8) {
        0 | 1 => p.x = 0,
        2 | 3 => p.z = 0,
        _ => {}
    }
    // The identity has its own cases; here it is one in many.
    if p.x == 0 && p.z == 0 && n > 0 && !dice.once_in(16) {
        p.z = 1 << dice.below(n.min(64));
    }
    p.phase = ((p.x & p.z).count_ones() % 2) as u8 + 2 * dice.below(2) as u8;
    p
}

/// A pivot that a measurement may have, 0 where there is none.
pub fn pivot(dice: &mut Dice, p: ActivePauli) -> usize {
    let mask = if p.x != 0 { p.x } else { p.z };
    let mut skip = dice.below(mask.count_ones().max(1) as usize);
    for q in 0..64 {
        if mask >> q & 1 == 1 {
            if skip == 0 {
                return q;
            }
            skip -= 1;
        }
    }
    0
}

/// One that a row refuses: not a Pauli, not Hermitian, or the identity.
pub fn spoiled_active(dice: &mut Dice, mut p: ActivePauli) -> ActivePauli {
    let past = p.nqubits + dice.below(2) * dice.below(64);
    match dice.below(6) {
        0 => p.phase = dice.pick(&[4, 5, 6, 7, 255]),
        1 => p.nqubits = dice.pick(&[61, 62, 63, 64, 255, 256, 257, usize::MAX]),
        2 if past < 64 => p.x |= 1 << past,
        3 if past < 64 => p.z |= 1 << past,
        4 => (p.x, p.z) = (0, 0),
        _ => p.phase ^= 1,
    }
    p
}

// ------------------------------------------------------------------ floats

/// Coefficients in -1..1.
pub const UNITS: [f64; 12] = [
    0.0,
    -0.0,
    1.0,
    -1.0,
    5e-324,
    -5e-324,
    1e-160,
    std::f64::consts::FRAC_1_SQRT_2,
    -0.6,
    0.8,
    2.2250738585072014e-308,
    0.9999999999999999,
];

/// Coefficients that row 8 refuses.
pub const NO_UNITS: [f64; 8] = [
    f64::NAN,
    -f64::NAN,
    f64::INFINITY,
    f64::NEG_INFINITY,
    1.0000000000000002,
    -1.0000000000000002,
    2.0,
    -1e308,
];

pub const INVNORMS: [f64; 10] = [
    1.0,
    0.0,
    -0.0,
    1.25,
    -0.75,
    5e-324,
    -2e-310,
    1e308,
    f64::MAX,
    std::f64::consts::SQRT_2,
];

pub const NO_INVNORMS: [f64; 4] = [f64::NAN, -f64::NAN, f64::INFINITY, f64::NEG_INFINITY];

pub const ANGLES: [f64; 10] = [
    0.0,
    -0.0,
    std::f64::consts::FRAC_PI_2,
    -std::f64::consts::FRAC_PI_4,
    std::f64::consts::PI,
    1e-160,
    5e-324,
    -2.5,
    1e22,
    0.3,
];

pub fn unit(dice: &mut Dice) -> f64 {
    match dice.below(4) {
        0 => dice.pick(&UNITS),
        _ => dice.unit(),
    }
}

pub fn invnorm(dice: &mut Dice) -> f64 {
    match dice.below(4) {
        0 => dice.pick(&INVNORMS),
        1 => 4.0 * dice.unit(),
        _ => 1.0 + dice.unit().abs(),
    }
}

/// A stock of amplitude parts to take pieces of: drawing each anew would cost more than the calls.
pub struct Stock {
    mixes: Vec<Vec<f64>>,
}

const STOCK: usize = 1 << 15;
/// Plain numbers come first, so that half of the states have nothing else.
const MIXES: [Mix; 8] = [
    Mix::Plain,
    Mix::Plain,
    Mix::Plain,
    Mix::Plain,
    Mix::Zeros,
    Mix::Finite,
    Mix::Every,
    Mix::Bits,
];

#[derive(Clone, Copy)]
enum Mix {
    Plain,
    /// Half of them zeros of both signs.
    Zeros,
    /// Zeros, denormals, huge ones.
    Finite,
    /// Infinities and NaNs too.
    Every,
    /// Any 64 bits.
    Bits,
}

fn part(dice: &mut Dice, mix: Mix) -> f64 {
    let sign = if dice.flip() { -1.0 } else { 1.0 };
    match (mix, dice.below(8)) {
        (Mix::Bits, _) => f64::from_bits(dice.word()),
        (Mix::Zeros, 0..=3) | (Mix::Finite | Mix::Every, 0) => sign * 0.0,
        (Mix::Finite | Mix::Every, 1) => sign * f64::from_bits(1 + dice.word() % (1 << 52)),
        (Mix::Finite | Mix::Every, 2) => sign * (1e308 + 7e307 * dice.unit().abs()),
        (Mix::Every, 3) => sign * f64::INFINITY,
        (Mix::Every, 4) => nan(dice),
        _ => dice.unit(),
    }
}

/// A NaN of either sign, quiet or signalling.
fn nan(dice: &mut Dice) -> f64 {
    let sign = dice.word() << 63;
    let digits = match dice.below(4) {
        0 => 1 << 51,
        1 => 1,
        2 => (1 << 52) - 1,
        _ => 1 + dice.word() % ((1 << 52) - 1),
    };
    f64::from_bits(sign | 0x7ff << 52 | digits)
}

impl Stock {
    pub fn new(dice: &mut Dice) -> Self {
        let mut of = |mix| (0..STOCK).map(|_| part(dice, mix)).collect();
        Self {
            mixes: MIXES.into_iter().map(&mut of).collect(),
        }
    }

    /// A piece of `length` parts of one mix; `mix` is below 8.
    fn piece(&self, dice: &mut Dice, mix: usize, length: usize) -> &[f64] {
        let from = dice.below(STOCK - length + 1);
        &self.mixes[mix][from..from + length]
    }

    /// Fills two buffers with parts of the same mix.
    pub fn fill(&self, dice: &mut Dice, buffers: [&mut Vec<f64>; 2], lengths: [usize; 2]) {
        let mix = dice.below(MIXES.len());
        for (buffer, length) in buffers.into_iter().zip(lengths) {
            buffer.clear();
            buffer.extend_from_slice(self.piece(dice, mix, length));
        }
    }
}
