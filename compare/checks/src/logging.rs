//! E10, through the calls of one caller alone: the frame log of a run and a Pauli, into an output that holds it and into one that
//! does not. Every answer and every byte of the output is held against the model, and the log, without the model, against what
//! carrying leaves and what a report says. Then it is judged.

use crate::callers::Who;
use crate::convert::{active, answer};
use crate::given::Given;
use crate::judging::{self, Judge};
use crate::lent::{Lender, Lent};
use crate::offers::places;
use crate::passed;
use crate::patterns::{filling_bytes, written_at_start};
use crate::reporting::rooms;
use crate::two_ways::{Check, ensure};
use model::dice::Dice;
use model::log::logging;
use model::pauli::Pauli;
use model::run::{Caller, Refusal, Run, read};
use naribhush::{ActivePauli, Answer, Report};

/// What `compare` names beside `passed::STEPS` and `judging::WANTED`: each has to be seen.
pub const WANTED: [&str; 24] = [
    "log written",
    "log without flags",
    "log of more than a thousand flags",
    "correction, phase kept",
    "correction, phase raised",
    "end Pauli with phase 0",
    "end Pauli with phase 1",
    "end Pauli with phase 2",
    "end Pauli with phase 3",
    "end Pauli on no qubits",
    "end Pauli on the widest state",
    "flag changed, and so reported",
    "flag kept, and so reported",
    "output as long as the log",
    "output longer than the log",
    "output one byte short (16)",
    "output shorter by more (16)",
    "output of no bytes (16)",
    "log of a refused run",
    "log of a refused run, and no Pauli",
    "log of no Pauli (3)",
    "log of no Pauli, and on other qubits (3)",
    "log of a Pauli on other qubits (4)",
    "log refused, and output of no bytes",
];

/// What was seen, each as often as it was.
pub type Names = Vec<&'static str>;

pub type Met = (bool, &'static str);

/// The names of what was met.
pub fn met<const COUNT: usize>(cases: [Met; COUNT]) -> Names {
    let met = cases.into_iter().filter(|case| case.0);
    met.map(|case| case.1).collect()
}

pub fn compare(lender: &Lender, dice: &mut Dice, who: Who, given: &Given) -> Check<Names> {
    let run = &*lender.lend(dice, &given.bytes);
    let q = given.q;
    let asked = Asked { who, run, q };
    let names = match logging(run, who.caller(), q, usize::MAX) {
        Ok(log) => logged(lender, dice, &asked, &log)?,
        Err(refusal) => refused(lender, dice, &asked, given, refusal)?,
    };
    ensure(run[..] == given.bytes, "the lent run was written")?;
    Ok(names)
}

/// Who is asked, and about what.
pub struct Asked<'a> {
    pub who: Who,
    pub run: &'a [u8],
    pub q: Pauli,
}

// ------------------------------------------------------------------ logging

/// What the call is to answer by the model, and what it is to write at the start of the output: nothing where it refuses.
pub fn told(bytes: &[u8], caller: Caller, q: Pauli, room: usize) -> (Answer<usize>, Vec<u8>) {
    let model = logging(bytes, caller, q, room);
    let written = model.clone().unwrap_or_default();
    (answer(model, |log| log.len()), written)
}

/// The call with an output of this length, as the model tells it.
fn called<'a>(
    lender: &'a Lender,
    dice: &mut Dice,
    asked: &Asked,
    room: usize,
) -> Check<Lent<'a, u8>> {
    let Asked { who, run, q } = *asked;
    let before = filling_bytes(dice, room);
    let mut out = lender.lend(dice, &before);
    let answered = who.log(run, active(q), &mut out);
    let (told, written) = told(run, who.caller(), q, room);
    if answered != told {
        return Err(format!("log, room {room}: {answered:?}, not {told:?}"));
    }
    match written_at_start(&out, &written, &before) {
        true => Ok(out),
        false => Err(format!("log, room {room}: the output")),
    }
}

/// A run and a Pauli of which this is the log.
fn logged(lender: &Lender, dice: &mut Dice, asked: &Asked, log: &[u8]) -> Check<Names> {
    let [enough, short] = rooms(dice, log.len());
    called(lender, dice, asked, short)?;
    let out = called(lender, dice, asked, enough)?;
    let log = &out[..log.len()];
    as_carried(lender, dice, asked, log)?;
    let reported = as_reported(dice, asked, log)?;
    let run = read(asked.run, asked.who.caller()).map_err(|refusal| format!("{refusal:?}"))?;
    let judged = Judge::of(lender, asked, log, run.survey().width).judge(dice)?;
    let names = [
        vec!["log written", phase(log)],
        passed::along(&run, asked.q),
        met(of_log(asked.who, &run, log.len())),
        met(of_rooms(enough, short, log.len())),
        reported,
        judged,
    ];
    Ok(names.concat())
}

/// The flags of a carried run and the end Pauli that is answered with it, without the model.
fn as_carried(lender: &Lender, dice: &mut Dice, asked: &Asked, log: &[u8]) -> Check<()> {
    let Asked { who, run, q } = *asked;
    let before = filling_bytes(dice, run.len());
    let mut out = lender.lend(dice, &before);
    let end = who.carry(run, active(q), &mut out);
    let end = end.map_err(|refusal| format!("logged, and not carried: {refusal:?}"))?;
    let carried = [flags(&out), pauli_bytes(end)].concat();
    ensure(log == carried, "the log is not what carrying leaves")
}

/// A flag of the log is another than the run's own where the report on its step says so, without the model. One of them is asked
/// for, if there are any.
fn as_reported(dice: &mut Dice, asked: &Asked, log: &[u8]) -> Check<Names> {
    let Asked { who, run, q } = *asked;
    let Some(at) = log.len().checked_sub(18) else {
        return Ok(Names::new());
    };
    let at = dice.below(at + 1);
    let (number, own) = flagged(run)[at];
    let changed = log[at] != own;
    match who.report(run, active(q), number) {
        Ok(Report::Flagged { changed: told, .. }) if told == changed => {}
        told => return Err(format!("step {number} is logged {}, and {told:?}", log[at])),
    }
    Ok(met([
        (changed, "flag changed, and so reported"),
        (!changed, "flag kept, and so reported"),
    ]))
}

/// The numbers of the steps that have a sign or a branch, and these, where the scope's table has them: behind tag, length and
/// Pauli, and of a projection behind the pivot too.
fn flagged(run: &[u8]) -> Vec<(usize, u8)> {
    let flag = |at: usize| match run.get(at)? {
        2 => run.get(at + 20),
        4 => run.get(at + 21),
        _ => None,
    };
    let steps = places(run).into_iter().skip(1).enumerate();
    let flagged = steps.filter_map(|(number, at)| Some((number, *flag(at)?)));
    flagged.collect()
}

pub fn flags(run: &[u8]) -> Vec<u8> {
    flagged(run).into_iter().map(|(_, flag)| flag).collect()
}

pub fn pauli_bytes(p: ActivePauli) -> Vec<u8> {
    [&[p.phase][..], &p.x.to_le_bytes(), &p.z.to_le_bytes()].concat()
}

fn phase(log: &[u8]) -> &'static str {
    match log[log.len() - 17] {
        0 => "end Pauli with phase 0",
        1 => "end Pauli with phase 1",
        2 => "end Pauli with phase 2",
        _ => "end Pauli with phase 3",
    }
}

fn of_log(who: Who, run: &Run, length: usize) -> [Met; 4] {
    let (flags, last) = (length - 17, run.survey().width);
    [
        (flags == 0, "log without flags"),
        (flags > 1000, "log of more than a thousand flags"),
        (last == 0, "end Pauli on no qubits"),
        (last == who.caller().widest, "end Pauli on the widest state"),
    ]
}

fn of_rooms(enough: usize, short: usize, length: usize) -> [Met; 5] {
    [
        (enough == length, "output as long as the log"),
        (enough > length, "output longer than the log"),
        (short + 1 == length, "output one byte short (16)"),
        (
            short + 1 < length && short > 0,
            "output shorter by more (16)",
        ),
        (short == 0, "output of no bytes (16)"),
    ]
}

// ------------------------------------------------------------- what is refused

/// By a row of the run, or by 3 or 4: whatever the output and whatever the log.
fn refused(
    lender: &Lender,
    dice: &mut Dice,
    asked: &Asked,
    given: &Given,
    refusal: Refusal,
) -> Check<Names> {
    for room in [0, dice.below(64), asked.run.len()] {
        called(lender, dice, asked, room)?;
    }
    let judged = judging::refused(lender, dice, asked, refusal)?;
    Ok([met(of_refused(given, refusal)), judged].concat())
}

fn of_refused(given: &Given, refusal: Refusal) -> [Met; 6] {
    let (own, none) = (refusal.place.is_some(), refusal.number == 3);
    [
        (own, "log of a refused run"),
        (
            own && !given.q.is_pauli(),
            "log of a refused run, and no Pauli",
        ),
        (!own && none, "log of no Pauli (3)"),
        (
            !own && none && given.on_others(),
            "log of no Pauli, and on other qubits (3)",
        ),
        (!own && !none, "log of a Pauli on other qubits (4)"),
        (true, "log refused, and output of no bytes"),
    ]
}

#[cfg(test)]
mod tests {
    use super::*;
    use crate::callers::BOTH;
    use crate::largest;
    use crate::letters::{X, Y, Z};
    use model::run::{EMULATOR, Step};

    fn rotation(pauli: Pauli) -> Step {
        let (c, s, sign) = (0, 0, 0);
        Step::Rotation { pauli, sign, c, s }
    }

    /// Asks both callers about a run on one qubit, and counts these beside what dice choose and what is judged.
    fn saw(steps: Vec<Step>, q: Pauli, names: &[&'static str]) {
        let given = Given::of(&Run { width: 1, steps }, q);
        for who in BOTH {
            let lender = Lender::new(false);
            let seen = compare(&lender, &mut Dice(1), who, &given).expect("E10");
            let own = WANTED.into_iter().chain(passed::STEPS);
            let by_dice = |name: &&str| name.starts_with("output") || name.ends_with("reported");
            for name in own.filter(|name| !by_dice(name)) {
                let count = |all: &[&str]| all.iter().filter(|seen| **seen == name).count();
                assert_eq!(count(&seen), count(names), "{name}");
            }
        }
    }

    /// X past a rotation by Z, a quarter turn of Z, and a rotation by Y, which it is then.
    #[test]
    fn logs() {
        let steps = vec![rotation(Z), Step::QuarterTurn { pauli: Z }, rotation(Y)];
        let names = [
            "log written",
            "rotation, sign flipped",
            "quarter turn, frame turned",
            "rotation, sign kept",
            "end Pauli with phase 1",
        ];
        saw(steps, X, &names);
        let names = ["log written", "log without flags", "end Pauli with phase 0"];
        saw(vec![], X, &names);
    }

    #[test]
    fn refused_paulis() {
        let zero = "log refused, and output of no bytes";
        let none = [zero, "log of no Pauli (3)"];
        saw(vec![], Pauli { k: 4, ..X }, &none);
        let others = [zero, "log of a Pauli on other qubits (4)"];
        saw(vec![], Pauli::identity(2), &others);
    }

    /// By hand: a rotation, a promotion and a projection on one qubit, whose flags are 7 and 9.
    #[test]
    fn flags_of_fields() {
        let field = |tag: u8, length: usize, at: usize, flag: u8| {
            let mut field = vec![0; 3 + length];
            (field[0], field[1]) = (tag, length as u8);
            field[3 + at] = flag;
            field
        };
        let fields = [
            field(1, 1, 0, 1),
            field(2, 34, 17, 7),
            field(3, 16, 0, 3),
            field(4, 27, 18, 9),
            vec![6, 0, 0],
        ];
        assert_eq!(flagged(&fields.concat()), [(0, 7), (2, 9)]);
        assert_eq!(flags(&[]), []);
    }

    /// No run has more flags than these: 1,773 by the service, 1,772 by the emulator.
    #[test]
    fn longest_logs() {
        for (who, length) in BOTH.into_iter().zip([1790, 1789]) {
            let run = largest::flags(&mut Dice(1), who.caller().widest);
            let q = Pauli::identity(run.width);
            let (answered, log) = told(&run.bytes(), who.caller(), q, length);
            assert_eq!((answered, log.len()), (Ok(length), length));
        }
        assert_eq!(EMULATOR.widest, 6);
    }
}
