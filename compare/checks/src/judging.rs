//! E10, through the calls of one caller alone: what is said of the right log, of the log with each of its bytes damaged, of other
//! lengths, and of logs that were made otherwise. What is known of an answer without the model is held against that, and now and then
//! the model too; the others against the model.

use crate::convert::{active, answer, refusal};
use crate::draw;
use crate::lent::Lender;
use crate::logging::{Asked, Met, Names, flags, met, pauli_bytes};
use crate::patterns::{filling_bytes, hex};
use crate::seeking::no_pauli;
use crate::two_ways::{Check, ensure};
use model::dice::Dice;
use model::log::judging;
use model::pauli::Pauli;
use model::run::{Refusal, pauli_of};
use naribhush::Answer;

/// What is named of each caller: each has to be seen.
pub const WANTED: [&str; 46] = [
    "right log, yes",
    "flag's byte damaged, no",
    "k's byte damaged, no",
    "x's byte damaged, no",
    "z's byte damaged, no",
    "two bytes damaged alike, no",
    "flag over 1, no",
    "every flag over 1, no",
    "every flag the other way, no",
    "phase over 3, no",
    "x past the last width, no",
    "z past the last width, no",
    "no Pauli of the last width, no",
    "another phase, no",
    "another Pauli of the last width, no",
    "any bytes, no",
    "run's own flags, yes",
    "run's own flags, no",
    "flags exchanged, yes",
    "flags exchanged, no",
    "masks exchanged, yes",
    "masks exchanged, no",
    "start Pauli for the end, yes",
    "start Pauli for the end, no",
    "end Pauli before the flags, yes",
    "end Pauli before the flags, no",
    "zeros, yes",
    "zeros, no",
    "log of another Pauli, yes",
    "log of another Pauli, no",
    "log of no bytes (24)",
    "log one byte too short (24)",
    "log one byte too long (24)",
    "flags alone (24)",
    "end Pauli alone (24)",
    "log of any other length (24)",
    "log 256 bytes too long (24)",
    "log 65,536 bytes too long (24)",
    "judged, refused run, no log",
    "judged, refused run, some log",
    "judged, no Pauli (3), log that suits",
    "judged, no Pauli (3), no log",
    "judged, no Pauli (3), log too long",
    "judged, on other qubits (4), log that suits",
    "judged, on other qubits (4), no log",
    "judged, on other qubits (4), log too long",
];

const YES: Answer<bool> = Ok(true);
const NO: Answer<bool> = Ok(false);
const OTHER_LENGTH: Answer<bool> = Err(naribhush::Refusal {
    number: 24,
    place: None,
});

macro_rules! yes_or_no {
    ($what:literal) => {
        [concat!($what, ", yes"), concat!($what, ", no")]
    };
}

/// The call, the log being lent for it.
fn judged(lender: &Lender, dice: &mut Dice, asked: &Asked, log: &[u8]) -> Check<Answer<bool>> {
    let lent = lender.lend(dice, log);
    let answered = asked.who.judge(asked.run, active(asked.q), &lent);
    ensure(lent[..] == *log, "the lent log was written")?;
    Ok(answered)
}

fn by_model(asked: &Asked, log: &[u8]) -> Answer<bool> {
    let told = judging(asked.run, asked.who.caller(), asked.q, log);
    answer(told, |right| right)
}

fn as_known(name: &str, log: &[u8], answered: Answer<bool>, known: Answer<bool>) -> Check<()> {
    match answered == known {
        true => Ok(()),
        false => Err(format!(
            "{name}: {answered:?}, not {known:?}; log {}",
            hex(log)
        )),
    }
}

/// The right log of what is asked about, and what is named of other logs.
pub struct Judge<'a> {
    lender: &'a Lender,
    asked: &'a Asked<'a>,
    flags: &'a [u8],
    end: Pauli,
    /// Whether the model is asked too where it is not needed, which takes as long as the calls do.
    model_too: bool,
    names: Names,
}

impl<'a> Judge<'a> {
    pub fn of(lender: &'a Lender, asked: &'a Asked<'a>, log: &'a [u8], last: usize) -> Self {
        let (flags, end) = log.split_at(log.len() - 17);
        Self {
            lender,
            asked,
            flags,
            end: pauli_of(end, last),
            model_too: false,
            names: Names::new(),
        }
    }

    pub fn judge(mut self, dice: &mut Dice) -> Check<Names> {
        self.model_too = dice.once_in(8);
        self.is(dice, "right log, yes", &self.right(), YES)?;
        self.each_byte(dice)?;
        self.two_bytes(dice)?;
        self.other_flags(dice)?;
        self.other_ends(dice)?;
        self.other_lengths(dice)?;
        self.made_otherwise(dice)?;
        self.made_for_another(dice)?;
        Ok(self.names)
    }

    fn right(&self) -> Vec<u8> {
        log(self.flags, self.end)
    }

    fn with_flags(&self, flags: &[u8]) -> Vec<u8> {
        log(flags, self.end)
    }

    fn with_end(&self, end: Pauli) -> Vec<u8> {
        log(self.flags, end)
    }

    /// A log of which this is known without the model.
    fn is(
        &mut self,
        dice: &mut Dice,
        name: &'static str,
        log: &[u8],
        known: Answer<bool>,
    ) -> Check<()> {
        let answered = judged(self.lender, dice, self.asked, log)?;
        self.names.push(name);
        as_known(name, log, answered, known)?;
        self.known_to_the_model(log, known)
    }

    fn known_to_the_model(&self, log: &[u8], known: Answer<bool>) -> Check<()> {
        match self.model_too {
            true => as_known("the model", log, by_model(self.asked, log), known),
            false => Ok(()),
        }
    }

    /// A log that is right or not, as the model says; named by that.
    fn as_told(&mut self, dice: &mut Dice, names: [&'static str; 2], log: &[u8]) -> Check<()> {
        let told = by_model(self.asked, log);
        let name = names[usize::from(told != YES)];
        self.is(dice, name, log, told)
    }

    // ---------------------------------------------------------- single bytes

    fn each_byte(&mut self, dice: &mut Dice) -> Check<()> {
        let right = self.right();
        let mut lent = self.lender.lend(dice, &right);
        let Asked { who, run, q } = *self.asked;
        for at in 0..right.len() {
            let name = self.part(at);
            for xor in xors(dice, right.len()) {
                lent[at] = right[at] ^ xor;
                as_known(name, &lent, who.judge(run, active(q), &lent), NO)?;
                self.known_to_the_model(&lent, NO)?;
            }
            lent[at] = right[at];
            self.names.push(name);
        }
        ensure(lent[..] == right, "the lent log was written")
    }

    fn part(&self, at: usize) -> &'static str {
        match at.checked_sub(self.flags.len()) {
            None => "flag's byte damaged, no",
            Some(0) => "k's byte damaged, no",
            Some(1..=8) => "x's byte damaged, no",
            Some(_) => "z's byte damaged, no",
        }
    }

    fn two_bytes(&mut self, dice: &mut Dice) -> Check<()> {
        let mut log = self.right();
        let first = dice.below(log.len());
        let second = (first + 1 + dice.below(log.len() - 1)) % log.len();
        let xor = any_xor(dice);
        log[first] ^= xor;
        log[second] ^= xor;
        self.is(dice, "two bytes damaged alike, no", &log, NO)
    }

    // --------------------------------------------------------- other entries

    /// Nothing where the run has no flags.
    fn other_flags(&mut self, dice: &mut Dice) -> Check<()> {
        if self.flags.is_empty() {
            return Ok(());
        }
        // Over 1, and the same in the lowest bit or the other.
        let over = |dice: &mut Dice, flag: u8| flag ^ (2 + dice.below(254) as u8);
        let mut one = self.flags.to_vec();
        let at = dice.below(one.len());
        one[at] = over(dice, one[at]);
        self.is(dice, "flag over 1, no", &self.with_flags(&one), NO)?;
        let all: Vec<u8> = self.flags.iter().map(|flag| over(dice, *flag)).collect();
        self.is(dice, "every flag over 1, no", &self.with_flags(&all), NO)?;
        let other: Vec<u8> = self.flags.iter().map(|flag| flag ^ 1).collect();
        let other = self.with_flags(&other);
        self.is(dice, "every flag the other way, no", &other, NO)
    }

    /// The first ones are the end Pauli but for what makes them none.
    fn other_ends(&mut self, dice: &mut Dice) -> Check<()> {
        let end @ Pauli { n, k, x, z } = self.end;
        let [in_x, in_z] = [(); 2].map(|_| 1 << (n + dice.below(64 - n)));
        let [in_x, in_z] = [x | in_x, z | in_z];
        let k = k + 4 * (1 + dice.below(63) as u8);
        let ends = [
            ("phase over 3, no", Pauli { k, ..end }),
            ("x past the last width, no", Pauli { x: in_x, ..end }),
            ("z past the last width, no", Pauli { z: in_z, ..end }),
            ("no Pauli of the last width, no", no_pauli(dice, n)),
            ("another phase, no", end.raised(1 + dice.below(3) as u8)),
        ];
        for (name, end) in ends {
            self.is(dice, name, &self.with_end(end), NO)?;
        }
        self.another_end(dice)
    }

    fn another_end(&mut self, dice: &mut Dice) -> Check<()> {
        let other = draw::pauli(dice, self.end.n);
        if other == self.end {
            return Ok(());
        }
        let log = self.with_end(other);
        self.is(dice, "another Pauli of the last width, no", &log, NO)
    }

    // --------------------------------------------------------- other lengths

    fn other_lengths(&mut self, dice: &mut Dice) -> Check<()> {
        let right = self.right();
        let length = right.len();
        let short = &right[..length - 1];
        let long = [&right[..], &[dice.pick(&[0, 0, 1, 255])]].concat();
        let logs = [
            ("log of no bytes (24)", &[][..]),
            ("log one byte too short (24)", short),
            ("log one byte too long (24)", &long),
            ("flags alone (24)", self.flags),
        ];
        for (name, log) in logs {
            self.is(dice, name, log, OTHER_LENGTH)?;
        }
        if !self.flags.is_empty() {
            let end = &right[self.flags.len()..];
            self.is(dice, "end Pauli alone (24)", end, OTHER_LENGTH)?;
        }
        let any = (length + 1 + dice.below(2 * length)) % (2 * length + 1);
        self.longer(dice, "log of any other length (24)", any)?;
        // Where a length is compared in too few bits.
        match dice.below(256) {
            0 => self.longer(dice, "log 65,536 bytes too long (24)", length + 65_536),
            1..32 => self.longer(dice, "log 256 bytes too long (24)", length + 256),
            _ => Ok(()),
        }
    }

    /// Or shorter: the right log as far as it goes, zeros behind it.
    fn longer(&mut self, dice: &mut Dice, name: &'static str, length: usize) -> Check<()> {
        let mut log = self.right();
        log.resize(length, 0);
        self.is(dice, name, &log, OTHER_LENGTH)
    }

    // -------------------------------------------------------- made otherwise

    fn made_otherwise(&mut self, dice: &mut Dice) -> Check<()> {
        let right = self.right();
        let own = self.with_flags(&flags(self.asked.run));
        let mut turned = right.clone();
        turned.rotate_left(self.flags.len());
        let Pauli { x, z, .. } = self.end;
        let masks = Pauli {
            x: z,
            z: x,
            ..self.end
        };
        let start = self.with_end(self.asked.q);
        let logs = [
            (yes_or_no!("run's own flags"), own),
            (yes_or_no!("flags exchanged"), self.exchanged(dice)),
            (yes_or_no!("masks exchanged"), self.with_end(masks)),
            (yes_or_no!("start Pauli for the end"), start),
            (yes_or_no!("end Pauli before the flags"), turned),
            (yes_or_no!("zeros"), vec![0; right.len()]),
        ];
        for (names, log) in logs {
            self.as_told(dice, names, &log)?;
        }
        let any = filling_bytes(dice, right.len());
        self.is(dice, "any bytes, no", &any, NO)
    }

    /// Two of the flags, where there are any.
    fn exchanged(&self, dice: &mut Dice) -> Vec<u8> {
        let mut flags = self.flags.to_vec();
        if let Some(last) = flags.len().checked_sub(1) {
            let [one, other] = [(); 2].map(|_| dice.below(last + 1));
            flags.swap(one, other);
        }
        self.with_flags(&flags)
    }

    /// As the call itself writes it. Two Paulis may have one log, where a projection takes what they differ in.
    fn made_for_another(&mut self, dice: &mut Dice) -> Check<()> {
        let Asked { who, run, q } = *self.asked;
        let other = draw::pauli(dice, q.n);
        if other == q {
            return Ok(());
        }
        let length = self.right().len();
        let before = filling_bytes(dice, length);
        let mut out = self.lender.lend(dice, &before);
        let answered = who.log(run, active(other), &mut out);
        ensure(answered == Ok(length), "the log of another Pauli")?;
        self.as_told(dice, yes_or_no!("log of another Pauli"), &out)
    }
}

fn log(flags: &[u8], end: Pauli) -> Vec<u8> {
    [flags.to_vec(), pauli_bytes(active(end))].concat()
}

fn any_xor(dice: &mut Dice) -> u8 {
    1 + dice.below(255) as u8
}

/// What a byte is damaged by: each bit and any bits in a short log, any in a long one.
fn xors(dice: &mut Dice, length: usize) -> Vec<u8> {
    let mut xors = vec![any_xor(dice)];
    if length <= 18 {
        xors.extend((0..8).map(|bit| 1 << bit));
    }
    xors
}

// ------------------------------------------------------------- what is refused

/// By a row of the run, or by 3 or 4: whatever the log.
pub fn refused(lender: &Lender, dice: &mut Dice, asked: &Asked, refused: Refusal) -> Check<Names> {
    let suits = flags(asked.run).len() + 17;
    let mut names = Names::new();
    for length in [0, suits, suits + 1] {
        let log = vec![0; length];
        let answered = judged(lender, dice, asked, &log)?;
        let known = Err(refusal(refused));
        as_known("refused", &log, answered, known)?;
        as_known("the model", &log, by_model(asked, &log), known)?;
        names.extend(met(of_refused(refused, length, suits)));
    }
    Ok(names)
}

fn of_refused(refused: Refusal, length: usize, suits: usize) -> [Met; 8] {
    let own = refused.place.is_some();
    let (none, others) = (!own && refused.number == 3, refused.number == 4);
    let (nothing, long) = (length == 0, length > suits);
    let right = length == suits;
    [
        (own && nothing, "judged, refused run, no log"),
        (own && !nothing, "judged, refused run, some log"),
        (none && right, "judged, no Pauli (3), log that suits"),
        (none && nothing, "judged, no Pauli (3), no log"),
        (none && long, "judged, no Pauli (3), log too long"),
        (
            others && right,
            "judged, on other qubits (4), log that suits",
        ),
        (others && nothing, "judged, on other qubits (4), no log"),
        (others && long, "judged, on other qubits (4), log too long"),
    ]
}

#[cfg(test)]
mod tests {
    use super::*;
    use crate::callers::BOTH;
    use crate::letters::{X, Z};
    use model::run::{Run, Step};

    /// What is named of the right log of a run on one qubit, by each caller.
    fn named(steps: Vec<Step>, q: Pauli, flags: &[u8], end: Pauli, dice: u64) -> [Names; 2] {
        let run = Run { width: 1, steps }.bytes();
        let right = log(flags, end);
        BOTH.map(|who| {
            let (lender, run) = (Lender::new(false), &run[..]);
            let asked = Asked { who, run, q };
            let judge = Judge::of(&lender, &asked, &right, end.n);
            judge.judge(&mut Dice(dice)).expect("E10")
        })
    }

    fn rotation(pauli: Pauli) -> Step {
        let (c, s, sign) = (0, 0, 0);
        Step::Rotation { pauli, sign, c, s }
    }

    fn count(names: &Names, name: &str) -> usize {
        names.iter().filter(|seen| **seen == name).count()
    }

    /// X past a rotation by Z: nothing but the right log is right, and what the run has no other of is right.
    #[test]
    fn one_flag() {
        let told = [
            ("right log, yes", 1),
            ("flag's byte damaged, no", 1),
            ("k's byte damaged, no", 1),
            ("x's byte damaged, no", 8),
            ("z's byte damaged, no", 8),
            ("flag over 1, no", 1),
            ("every flag the other way, no", 1),
            ("run's own flags, no", 1),
            ("flags exchanged, yes", 1),
            ("masks exchanged, no", 1),
            ("start Pauli for the end, yes", 1),
            ("end Pauli before the flags, no", 1),
            ("zeros, no", 1),
            ("end Pauli alone (24)", 1),
        ];
        for seed in 0..200 {
            for names in named(vec![rotation(Z)], X, &[1], X, seed) {
                for (name, times) in told {
                    assert_eq!(count(&names, name), times, "{name}");
                }
            }
        }
    }

    /// Without flags the Pauli is the log, and zeros are right for the identity.
    #[test]
    fn no_flags() {
        let identity = Pauli::identity(1);
        for names in named(vec![], identity, &[], identity, 1) {
            for name in [
                "run's own flags, yes",
                "flags exchanged, yes",
                "masks exchanged, yes",
                "end Pauli before the flags, yes",
                "zeros, yes",
            ] {
                assert_eq!(count(&names, name), 1, "{name}");
            }
            for name in [
                "flag's byte damaged, no",
                "flag over 1, no",
                "end Pauli alone (24)",
            ] {
                assert_eq!(count(&names, name), 0, "{name}");
            }
        }
    }

    /// A wrong log for the right one is noticed at once.
    #[test]
    #[should_panic(expected = "right log, yes")]
    fn not_the_right_log() {
        named(vec![rotation(Z)], X, &[0], X, 1);
    }
}
