//! E12, through the calls of one caller alone: an end Pauli is named, and a start is sought that the run carries to it, phase
//! included. Any that does so is right, so an answer is judged by carrying it, by the proved call and by the model. That there is
//! none is held against the model.

use crate::callers::Who;
use crate::convert::{active, pauli};
use crate::draw;
use crate::lent::Lender;
use crate::mutate::bad_pauli;
use crate::patterns::filling_bytes;
use crate::tally::Tally;
use crate::two_ways::{Check, ensure};
use model::carry::{carry_step, takes_product};
use model::dice::Dice;
use model::pauli::Pauli;
use model::run::{Run, Step};
use model::seek::{Ends, end_of, row, serves};
use naribhush::Refusal;

/// What `count` counts: each has to be seen.
pub const WANTED: [&str; 27] = [
    "start found",
    "no start (25)",
    "end that is no Pauli (3)",
    "no Pauli, and not on the last qubits (3)",
    "end not on the last qubits (4)",
    "end by carrying, that start found",
    "end by carrying, another start found",
    "four phases, a start for each",
    "four phases, a start for none",
    "start found, on no qubits",
    "start found, end on no qubits",
    "start found, both on no qubits",
    "start found, on the widest state",
    "start found, end on the widest state",
    "start found, both on the widest state",
    "no start on no qubits",
    "no start on the widest state",
    "no start past a projection",
    "no start past a quarter turn",
    "start past a promotion",
    "start past a projection, pivot met",
    "start past a projection, pivot not met",
    "start past a correction, phase kept",
    "start past a correction, phase raised",
    "start past a quarter turn, kept",
    "start past a quarter turn, turned",
    "start past a rotation",
];

/// Ends of one run to name.
pub enum Named {
    /// Where the model carries this start, so that one is to be found.
    Carried {
        start: Pauli,
        end: Pauli,
    },
    /// Of the same masks: a start is to be found for each of them, or for none.
    FourPhases([Pauli; 4]),
    Any(Pauli),
}

impl Named {
    /// Half of them by carrying a start, a quarter on the last qubits, and a quarter refused by 3 or 4.
    pub fn draw(dice: &mut Dice, run: &Run) -> Self {
        let last = run.survey().width;
        match dice.below(8) {
            0..=3 => {
                let start = draw::pauli(dice, run.width);
                let end = end_of(run, start);
                Self::Carried { start, end }
            }
            4 | 5 => Self::four_phases(draw::pauli(dice, last)),
            6 => {
                let n = dice.pick(&[last, last, last + 1, 257]);
                Self::Any(no_pauli(dice, n))
            }
            _ => Self::Any(on_others(dice, last)),
        }
    }

    /// The masks of this one, with each phase.
    pub fn four_phases(p: Pauli) -> Self {
        Self::FourPhases([0, 1, 2, 3].map(|k| Pauli { k, ..p }))
    }

    fn ends(&self) -> &[Pauli] {
        match self {
            Self::Carried { end, .. } | Self::Any(end) => std::slice::from_ref(end),
            Self::FourPhases(ends) => ends,
        }
    }
}

/// What is no Pauli, its number of qubits being this.
pub fn no_pauli(dice: &mut Dice, n: usize) -> Pauli {
    loop {
        let p = draw::pauli(dice, n);
        let p = bad_pauli(dice, p);
        if !p.is_pauli() {
            return p;
        }
    }
}

/// A Pauli, but not on n qubits.
pub fn on_others(dice: &mut Dice, n: usize) -> Pauli {
    let others = [0, n.saturating_sub(1), n + 1, n + 2, 12, 64, 256];
    let other = dice.pick(&others.map(|other| if other == n { n + 1 } else { other }));
    draw::pauli(dice, other)
}

/// A run, the ends that it has, and the caller that is asked for starts.
pub struct Asked<'a> {
    pub who: Who,
    pub run: &'a Run,
    pub ends: &'a Ends,
}

/// A start that serves, or the row.
pub type Answered = Result<Pauli, u8>;

/// What is answered for each of the ends, where nothing is wrong with it.
pub fn compare(
    lender: &Lender,
    dice: &mut Dice,
    asked: &Asked,
    named: &Named,
) -> Check<Vec<Answered>> {
    let bytes = asked.run.bytes();
    let lent_run = lender.lend(dice, &bytes);
    let mut answers = Vec::new();
    for &end in named.ends() {
        let answered = sought(asked, &lent_run, end)?;
        if let Ok(start) = answered {
            carried_there(lender, dice, asked, &lent_run, start, end)?;
        }
        answers.push(answered);
    }
    ensure(lent_run[..] == bytes, "the lent run was written")?;
    as_named(named, &answers)?;
    Ok(answers)
}

/// What is known of the answers without the model's list of ends.
fn as_named(named: &Named, answers: &[Answered]) -> Check<()> {
    let found = answers.iter().filter(|answered| answered.is_ok()).count();
    match named {
        Named::Carried { .. } => ensure(found == 1, "no start for an end by carrying"),
        Named::FourPhases(_) => ensure(found % 4 == 0, "a start for some phases alone"),
        Named::Any(_) => Ok(()),
    }
}

/// The row, or that there is none, is the model's.
fn sought(asked: &Asked, lent_run: &[u8], end: Pauli) -> Check<Answered> {
    let answered = asked.who.seek(lent_run, active(end));
    let told = row(asked.run, asked.ends, end);
    let right = match answered {
        Ok(_) => told.is_none(),
        Err(Refusal { number, place }) => told == Some(number) && place.is_none(),
    };
    match right {
        true => Ok(answered.map(pauli).map_err(|refusal| refusal.number)),
        false => Err(format!(
            "seek of {end:?}: {answered:?}; the model's row: {told:?}"
        )),
    }
}

/// The model carries the start to the end, and so does the proved call.
fn carried_there(
    lender: &Lender,
    dice: &mut Dice,
    asked: &Asked,
    lent_run: &[u8],
    start: Pauli,
    end: Pauli,
) -> Check<()> {
    let past = dice.pick(&[0, 0, 1, 100]);
    let before = filling_bytes(dice, lent_run.len() + past);
    let mut out = lender.lend(dice, &before);
    let carried = asked.who.carry(lent_run, active(start), &mut out);
    match (serves(asked.run, start, end), carried == Ok(active(end))) {
        (true, true) => Ok(()),
        (model, call) => Err(format!(
            "seek of {end:?}: {start:?}, which serves by the model: {model}, by the call: {call}"
        )),
    }
}

// --------------------------------------------------------------- what was seen

/// Counts the answers, and what the starts that were found meet at each step.
pub fn count(seen: &mut Tally, asked: &Asked, named: &Named, answers: &[Answered]) {
    seen.count_met(&of_all(named, answers));
    for (&end, &answered) in named.ends().iter().zip(answers) {
        match answered {
            Ok(start) => count_found(seen, asked, start),
            Err(25) => seen.count_met(&of_none(asked)),
            Err(_) => seen.count_met(&of_refused(asked, end)),
        }
    }
}

type Met = (bool, &'static str);

fn of_all(named: &Named, answers: &[Answered]) -> [Met; 4] {
    let carried = matches!(named, Named::Carried { .. });
    let same = matches!(named, Named::Carried { start, .. } if answers == [Ok(*start)]);
    let four = matches!(named, Named::FourPhases(_));
    let each = answers.iter().all(|answered| answered.is_ok());
    let none = answers.iter().all(|answered| answered.is_err());
    [
        (same, "end by carrying, that start found"),
        (carried && !same, "end by carrying, another start found"),
        (four && each, "four phases, a start for each"),
        (four && none, "four phases, a start for none"),
    ]
}

fn of_none(asked: &Asked) -> [Met; 5] {
    let Asked { who, run, .. } = asked;
    let has = |wanted: fn(&Step) -> bool| run.steps.iter().any(wanted);
    let projection = has(|step| matches!(step, Step::Projection { .. }));
    let turn = has(|step| matches!(step, Step::QuarterTurn { .. }));
    let widest = who.caller().widest;
    [
        (true, "no start (25)"),
        (run.width == 0, "no start on no qubits"),
        (run.width == widest, "no start on the widest state"),
        (projection, "no start past a projection"),
        (turn, "no start past a quarter turn"),
    ]
}

fn of_refused(asked: &Asked, end: Pauli) -> [Met; 3] {
    let on_others = end.n != asked.run.survey().width;
    let none = "no Pauli, and not on the last qubits (3)";
    [
        (!end.is_pauli(), "end that is no Pauli (3)"),
        (!end.is_pauli() && on_others, none),
        (end.is_pauli(), "end not on the last qubits (4)"),
    ]
}

fn of_found(asked: &Asked) -> [Met; 7] {
    let widths = [asked.run.width, asked.run.survey().width];
    let [start_none, end_none] = widths.map(|width| width == 0);
    let widest = asked.who.caller().widest;
    let [start_widest, end_widest] = widths.map(|width| width == widest);
    let both_widest = start_widest && end_widest;
    [
        (true, "start found"),
        (start_none, "start found, on no qubits"),
        (end_none, "start found, end on no qubits"),
        (start_none && end_none, "start found, both on no qubits"),
        (start_widest, "start found, on the widest state"),
        (end_widest, "start found, end on the widest state"),
        (both_widest, "start found, both on the widest state"),
    ]
}

fn count_found(seen: &mut Tally, asked: &Asked, start: Pauli) {
    seen.count_met(&of_found(asked));
    let mut frame = start;
    for &step in &asked.run.steps {
        seen.add(at_step(frame, step), 1);
        frame = carry_step(frame, step).1;
    }
}

fn at_step(frame: Pauli, step: Step) -> &'static str {
    match step {
        Step::Rotation { .. } => "start past a rotation",
        Step::Promotion { .. } => "start past a promotion",
        Step::Projection { pauli, pivot, .. } => match takes_product(frame, pauli, pivot) {
            true => "start past a projection, pivot met",
            false => "start past a projection, pivot not met",
        },
        Step::Correction { pauli } => match frame.anticommutes(pauli) {
            true => "start past a correction, phase raised",
            false => "start past a correction, phase kept",
        },
        Step::QuarterTurn { pauli } => match frame.anticommutes(pauli) {
            true => "start past a quarter turn, turned",
            false => "start past a quarter turn, kept",
        },
    }
}

#[cfg(test)]
mod tests {
    use super::*;
    use crate::callers::BOTH;
    use crate::letters::{X, Y, Z};

    /// Names ends of a run that starts on one qubit to both callers: what each answers and counts.
    fn sought(steps: Vec<Step>, named: &Named, names: &[(&'static str, u64)]) -> Vec<Answered> {
        let run = Run { width: 1, steps };
        let ends = Ends::of(&run);
        let [service, emulator] = BOTH.map(|who| {
            let (run, ends, lender) = (&run, &ends, Lender::new(false));
            let asked = Asked { who, run, ends };
            let answers = compare(&lender, &mut Dice(1), &asked, named).expect("E12");
            let mut seen = Tally::default();
            count(&mut seen, &asked, named, &answers);
            for name in WANTED {
                let told = names.iter().find(|(wanted, _)| *wanted == name);
                assert_eq!(seen.count(name), told.map_or(0, |told| told.1), "{name}");
            }
            answers
        });
        // There is one start at most in these.
        assert_eq!(service, emulator);
        service
    }

    /// Past a quarter turn of Z, X becomes Y: no other start does.
    #[test]
    fn turned() {
        let (start, end) = (X, Y);
        let names = [
            ("start found", 1),
            ("end by carrying, that start found", 1),
            ("start past a quarter turn, turned", 1),
        ];
        let turn = Step::QuarterTurn { pauli: Z };
        let answers = sought(vec![turn], &Named::Carried { start, end }, &names);
        assert_eq!(answers, [Ok(X)]);
    }

    /// X on the qubit that a promotion appends; and I there.
    #[test]
    fn promoted() {
        let promotion = Step::Promotion { c: 0, q: 0 };
        let on_two = |x| {
            Named::four_phases(Pauli {
                n: 2,
                k: 0,
                x,
                z: 0,
            })
        };
        let none = [("no start (25)", 4), ("four phases, a start for none", 1)];
        let answers = sought(vec![promotion], &on_two(2), &none);
        assert_eq!(answers, [Err(25); 4]);
        let each = [
            ("start found", 4),
            ("four phases, a start for each", 1),
            ("start past a promotion", 4),
        ];
        let answers = sought(vec![promotion], &on_two(1), &each);
        assert_eq!(answers, [0, 1, 2, 3].map(|k| Ok(X.raised(k))));
    }

    /// What is drawn to be refused by 3 or by 4 is.
    #[test]
    fn refused() {
        let mut dice = Dice(3);
        for _ in 0..1000 {
            let end = no_pauli(&mut dice, 1);
            let names = [("end that is no Pauli (3)", 1)];
            assert_eq!(sought(vec![], &Named::Any(end), &names), [Err(3)]);
            let end = on_others(&mut dice, 1);
            let names = [("end not on the last qubits (4)", 1)];
            assert_eq!(sought(vec![], &Named::Any(end), &names), [Err(4)]);
        }
    }
}
