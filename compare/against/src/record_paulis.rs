//! Records answers of the published Pauli layer: a question a line to `stdin`,
//! the answer at the same line of `stdout`, both in the folder that is named.
//!
//! The crate ticit has the files of inmzhang/ticit ea5d480457 (Apache-2.0) as
//! published. The output is the same each time.
//!
//! A word is a space and 16 hex digits. A Pauli is ten words: the width, four
//! words of x, four of z, the phase. The first byte of a question says what is
//! asked:
//!
//!   m a b           product
//!   a a b           pauli_anticommutes
//!   h a             pauli_squares_to_identity
//!   s a             measurement_phase_sign
//!   g a q           get, a letter is 0 I, 1 X, 2 Z, 3 Y
//!   S a q letter    set
//!   t a             max_support
//!   i packed bit    insert_zero_bit
//!   n n             pauli_identity
//!   b a q           xbit and zbit
//!   d a len         Display, in a buffer of so many bytes
//!   p text          pauli_string
//!
//! An answer is a number in decimal, 1 and 0 for true and false; `none`; `done`
//! and a Pauli; the length of a text and, in brackets, the text with dots up to
//! the length of the buffer. The Rust's errors have no number: that of
//! measurement_phase_sign is written as `refused 7`, that of pauli_string as
//! `refused 2 at` an index, followed by a Pauli of zeros.

mod record;

use model::dice::Dice;
use record::Record;
use ticit::active::insert_zero_bit;
use ticit::pauli::{
    Pauli, PauliString, measurement_phase_sign, pauli_anticommutes, pauli_identity,
    pauli_squares_to_identity, pauli_string,
};

const WIDTHS: [usize; 16] = [
    0, 1, 2, 3, 5, 63, 64, 65, 127, 128, 129, 191, 192, 193, 255, 256,
];
const LETTERS: [Pauli; 4] = [Pauli::I, Pauli::X, Pauli::Z, Pauli::Y];
const GOOD: &[u8] = b"IXYZ_ixyz";
const BAD: &[u8] = b"-* 07+W9jA";
/// The length of the buffer that a Pauli is shown in.
const BUFFER: usize = 300;

// ----------------------------------------------------------- one question

fn word(word: u64) -> String {
    format!(" {word:016x}")
}

fn words(p: &PauliString) -> String {
    let mut out = word(p.nqubits as u64);
    for words in [&p.x, &p.z] {
        assert!(words.len() <= 4);
        for i in 0..4 {
            out += &word(words.get(i).copied().unwrap_or(0));
        }
    }
    out + &word(p.phase_exponent() as u64)
}

fn done(p: &PauliString) -> String {
    format!("done{}", words(p))
}

fn bit(value: bool) -> String {
    u8::from(value).to_string()
}

fn support(record: &mut Record, p: &PauliString) {
    let top = p.max_support().map_or("none".into(), |q| q.to_string());
    record.ask(format!("t{}", words(p)), top);
}

/// The index of the byte that an error of `pauli_string` is about. The Rust does
/// not tell it: it is the first byte that by itself is an error.
fn first_bad(text: &str) -> usize {
    let is_bad = |&i: &usize| pauli_string(&text[i..=i]).is_err();
    (0..text.len()).find(is_bad).unwrap()
}

// ------------------------------------------------------------------- cases

/// The Pauli of width `n` with these letters and this stored phase.
fn build(n: usize, phase: usize, mut letter: impl FnMut(usize) -> usize) -> PauliString {
    let mut p = pauli_identity(n);
    for q in 0..n {
        let code = letter(q);
        p.set_xbit(q, code & 1 != 0);
        p.set_zbit(q, code & 2 != 0);
    }
    p.set_phase(phase as i32);
    p
}

/// Qubits worth asking for: the first, the last, and both sides of each word border.
fn places(n: usize) -> Vec<usize> {
    let mut all = vec![0, 63, 64, 127, 128, 191, 192, n.wrapping_sub(1)];
    all.retain(|&q| q < n);
    all.sort();
    all.dedup();
    all
}

/// All widths, each with its places.
fn spots() -> Vec<(usize, usize)> {
    let each = |&n: &usize| places(n).into_iter().map(move |q| (n, q));
    WIDTHS.iter().flat_map(each).collect()
}

/// A Pauli with `letter` on qubit `q`; the others are random, all I or all Y.
fn with_letter(dice: &mut Dice, n: usize, q: usize, letter: usize, kind: usize) -> PauliString {
    let phase = dice.below(4);
    build(n, phase, |at| match kind % 3 {
        _ if at == q => letter,
        0 => dice.below(4),
        1 => 0,
        _ => 3,
    })
}

/// One qubit in each word that `words` names, for width 256.
fn one_in_each(dice: &mut Dice, words: usize) -> Vec<usize> {
    let named = (0..4).filter(|w| words >> w & 1 != 0);
    named.map(|w| 64 * w + dice.below(64)).collect()
}

fn singles(dice: &mut Dice) -> Vec<PauliString> {
    let mut all = Vec::new();
    // Each width with each phase and each kind: random, one letter, all Y, all I.
    // Then all X or all Z. Width 1 comes in full below.
    for (i, n) in WIDTHS.into_iter().enumerate().filter(|&(_, n)| n != 1) {
        let marked = places(n);
        for phase in 0..4 {
            let only = marked.get(dice.below(marked.len().max(1))).copied();
            let letter = 1 + dice.below(3);
            all.push(build(n, phase, |q| match (i + phase) % 4 {
                0 => dice.below(4),
                1 if Some(q) == only => letter,
                2 => 3,
                _ => 0,
            }));
        }
        if n > 0 {
            all.push(build(n, dice.below(4), |_| 1 + i % 2));
        }
    }
    // Each letter with each phase.
    for i in 0..16 {
        all.push(build(1, i / 4, |_| i % 4));
    }
    // A Y in every choice of the four words.
    for words in 1..16 {
        let ys = one_in_each(dice, words);
        all.push(build(
            256,
            words % 4,
            |q| if ys.contains(&q) { 3 } else { 0 },
        ));
    }
    all
}

fn pairs(dice: &mut Dice) -> Vec<(PauliString, PauliString)> {
    let mut all = Vec::new();
    // Each width with each kind: random; Z on the places times X on them; all of one
    // letter; one Z times an X or Y there; identity. The phases run through all pairs.
    for (i, n) in WIDTHS.into_iter().enumerate() {
        let marked = places(n);
        for kind in 0..5 {
            let t = 5 * i + kind;
            let only = marked.get(dice.below(marked.len().max(1))).copied();
            let a = build(n, t % 4, |q| match kind {
                0 | 4 => dice.below(4),
                1 if marked.contains(&q) => 2,
                2 => 3 - i % 3,
                3 if Some(q) == only => 2,
                _ => 0,
            });
            let b = build(n, t / 4 % 4, |q| match kind {
                0 => dice.below(4),
                1 if marked.contains(&q) => 1,
                2 => 3 - i / 3 % 3,
                3 if Some(q) == only => 1 + 2 * (i % 2),
                3 => dice.below(4),
                _ => 0,
            });
            all.push(if kind == 4 && i % 2 == 1 {
                (b, a)
            } else {
                (a, b)
            });
        }
    }
    // Each letter times each letter.
    for i in 0..16 {
        let one = |code: usize| PauliString::single(1, 0, LETTERS[code]);
        all.push((one(i / 4), one(i % 4)));
    }
    // Z meets X once in every choice of the four words, elsewhere X meets X; both ways round.
    for words in 1..16 {
        let met = one_in_each(dice, words);
        let a = build(256, dice.below(4), |q| {
            if met.contains(&q) { 2 } else { dice.below(2) }
        });
        let b = build(256, dice.below(4), |q| {
            if met.contains(&q) { 1 } else { dice.below(2) }
        });
        all.push((a.clone(), b.clone()));
        all.push((b, a));
    }
    all
}

fn texts(dice: &mut Dice) -> Vec<String> {
    let mut all = Vec::new();
    for (i, n) in WIDTHS.into_iter().enumerate() {
        let good: Vec<u8> = (0..n).map(|_| GOOD[dice.below(9)]).collect();
        let same = GOOD[(i + 5) % 9];
        all.push(good.clone());
        if n > 0 {
            all.push(vec![same; n]);
        }
        // One bad byte: first, middle, last. Then several.
        for (k, q) in [0, n / 2, n.saturating_sub(1)].into_iter().enumerate() {
            let mut text = good.clone();
            if q < n && (n > 2 || k == 0) {
                text[q] = BAD[(3 * i + k) % BAD.len()];
                all.push(text);
            }
        }
        if n > 1 {
            let bad = |(q, &byte): (usize, &u8)| if q % 3 == 1 { BAD[q % 10] } else { byte };
            all.push(good.iter().enumerate().map(bad).collect());
        }
    }
    // Every printable byte, in turn first, middle and last.
    for byte in b' '..=b'~' {
        let mut text = b"XyZ".to_vec();
        text[byte as usize % 3] = byte;
        all.push(text);
    }
    // Signs are no part of the text: "iY" is I and Y, but "-X" and "i*Y" are refused.
    for text in ["xI_", "-X", "+X", "iY", "i*Y", "-i*Y", " ", "X ", " X"] {
        all.push(text.into());
    }
    all.into_iter()
        .map(|text| String::from_utf8(text).unwrap())
        .collect()
}

fn main() {
    let dice = &mut Dice(20260816);
    let mut record = Record::default();

    for (a, b) in pairs(dice) {
        let both = words(&a) + &words(&b);
        record.ask(format!("m{both}"), done(&(&a * &b)));
        record.ask(format!("a{both}"), bit(pauli_anticommutes(&a, &b)));
    }

    for p in singles(dice) {
        let asked = words(&p);
        let sign = measurement_phase_sign(&p).map_or("refused 7".into(), bit);
        let text = p.to_string();
        let shown = format!("{} [{text:.<BUFFER$}]", text.len());
        record.ask(format!("h{asked}"), bit(pauli_squares_to_identity(&p)));
        record.ask(format!("s{asked}"), sign);
        support(&mut record, &p);
        record.ask(format!("d{asked}{}", word(BUFFER as u64)), shown);
    }

    // The highest letter at each place, nothing or random letters under it.
    for (i, (n, q)) in spots().into_iter().enumerate() {
        let p = build(n, dice.below(4), |at| match () {
            _ if at == q => 1 + i % 3,
            _ if at < q && i % 2 == 0 => dice.below(4),
            _ => 0,
        });
        support(&mut record, &p);
    }

    // Letters asked for: at every place, and every letter at the places of 256.
    let mut asked: Vec<_> = spots().into_iter().enumerate().collect();
    for letter in 0..4 {
        asked.extend(places(256).into_iter().map(|q| (letter, (256, q))));
    }
    for (i, (n, q)) in asked {
        let p = with_letter(dice, n, q, i % 4, i / 4);
        let at = words(&p) + &word(q as u64);
        let bits = format!("{} {}", bit(p.xbit(q)), bit(p.zbit(q)));
        record.ask(format!("g{at}"), (p.get(q) as u8).to_string());
        record.ask(format!("b{at}"), bits);
    }

    // Letters set: every old one to every new one at phases 0 and 3, then at every place.
    let mut set = |n: usize, q: usize, pair: usize, phase: Option<i32>| {
        let mut p = with_letter(dice, n, q, pair % 4, pair / 4 + pair);
        if let Some(phase) = phase {
            p.set_phase(phase);
        }
        let code = pair / 4 % 4;
        let question = format!("S{}{}{}", words(&p), word(q as u64), word(code as u64));
        p.set(q, LETTERS[code]);
        record.ask(question, done(&p));
    };
    for pair in 0..16 {
        let (n, q) = [(1, 0), (65, 64), (128, 63), (256, 255)][(pair + pair / 4) % 4];
        set(n, q, pair, Some(0));
        set(n, q, pair, Some(3));
    }
    for (i, (n, q)) in spots().into_iter().enumerate() {
        set(n, q, 5 * i, None);
    }

    // A zero bit opened at each bit; past bit 63 is lost.
    for bit in 0..64 {
        let top = 1 << 63;
        let (any, other) = (dice.word() as usize, dice.word() as usize);
        for packed in [bit % 8, usize::MAX, top, top | any, other & !top] {
            let question = format!("i{}{}", word(packed as u64), word(bit as u64));
            record.ask(question, insert_zero_bit(packed, bit).to_string());
        }
    }

    for n in (0..=256).filter(|n| n % 5 == 0 || WIDTHS.contains(n)) {
        record.ask(format!("n{}", word(n as u64)), done(&pauli_identity(n)));
    }

    for text in texts(dice) {
        let answer = match pauli_string(&text) {
            Ok(p) => done(&p),
            Err(_) => {
                let zeros = words(&pauli_identity(0));
                format!("refused 2 at {}{zeros}", first_bad(&text))
            }
        };
        record.ask(format!("p {text}"), answer);
    }

    record.write();
}
