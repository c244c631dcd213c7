//! E7, through both callers' calls: what is reported of a few steps of a run, and the service's list of all of them, into an output
//! that holds it and into one that does not. Every answer and every byte of the output is held against the model.

use crate::callers::{BOTH, Who};
use crate::convert::{active, answer, report};
use crate::given::Given;
use crate::lent::Lender;
use crate::listings::told;
use crate::patterns::{filling_bytes, written_at_start};
use crate::tally::Tally;
use crate::two_files::first_difference;
use crate::two_ways::{Check, ensure};
use model::dice::Dice;
use model::pauli::Pauli;
use model::report::{Flag, Passage, Told, passing, shown, text};
use model::run::{LIMIT, LONGEST, Refusal, Run, Step};
use naribhush::Report;

/// What `count` counts of each caller: each has to be seen.
pub const WANTED: [&str; 26] = [
    "rotation, sign changed",
    "rotation, sign kept, on some qubits",
    "rotation, sign kept, on no qubit",
    "projection, branch changed",
    "projection, branch kept, on some qubits",
    "projection, branch kept, on no qubit",
    "promotion, no flag",
    "correction, no flag",
    "quarter turn, no flag",
    "flag changed on three qubits or more",
    "flag kept on four qubits or more",
    "flag on the widest state",
    "first step",
    "last step, not the first",
    "step between",
    "no such step (20)",
    "number of the steps (20)",
    "number of the steps, which is 0 (20)",
    "number in no run (20)",
    "no Pauli (3)",
    "no Pauli, and on other qubits (3)",
    "no Pauli, and number in no run (3)",
    "Pauli on other qubits (4)",
    "on other qubits, and number in no run (4)",
    "refused run",
    "refused run, and no Pauli",
];

/// What `count_list` counts of the service's lists: each has to be seen.
pub const LISTS: [&str; 16] = [
    "list of steps",
    "list without steps",
    "list refused for the run, with a place",
    "list refused for the Pauli, without one",
    "frame without a coefficient",
    "frame with i*",
    "frame with -",
    "frame with -i*",
    "frame on no qubits",
    "frame on twelve qubits",
    "qubits of two digits",
    "steps of four digits",
    "output as long as the list",
    "output longer than the list",
    "output shorter than the list (16)",
    "output of no bytes (16)",
];

// ------------------------------------------------------------- what is asked

/// What is carried through what, and numbers of steps.
pub struct Questions {
    pub given: Given,
    pub numbers: Vec<usize>,
}

impl Questions {
    /// Of a run and a Pauli on its start qubits.
    pub fn of(dice: &mut Dice, run: &Run, q: Pauli) -> Self {
        let numbers = numbers(dice, run.steps.len());
        let given = Given::of(run, q);
        Self { given, numbers }
    }

    /// Mostly of these; now and then of what is refused.
    pub fn draw(dice: &mut Dice, run: &Run, q: Pauli) -> Self {
        let numbers = numbers(dice, run.steps.len());
        let given = Given::draw(dice, run, q);
        Self { given, numbers }
    }
}

/// The first step, the last, one more than there are, some step, and now and then a number that no run has, whose low bits may be a
/// step's.
fn numbers(dice: &mut Dice, steps: usize) -> Vec<usize> {
    let some = dice.below(steps.max(1));
    let mut numbers = vec![0, steps.saturating_sub(1), steps, some];
    if dice.once_in(4) {
        numbers.push(dice.pick(&[usize::MAX, usize::MAX, (1 << 63) + some, (1 << 32) + some]));
    }
    numbers
}

fn in_no_run(number: usize) -> bool {
    number > LONGEST
}

/// Lengths of an output that holds a list of that many bytes, and of one that does not.
pub fn rooms(dice: &mut Dice, list: usize) -> [usize; 2] {
    let short = match dice.below(4) {
        0 => 0,
        1 => dice.below(list),
        _ => list - 1,
    };
    [list + dice.below(4), short]
}

// ----------------------------------------------------------------- the checks

type Passed = Result<Passage, Refusal>;

/// What was seen where nothing was wrong: what the model passes for each of `BOTH`.
pub struct Reported {
    pub passed: [Passed; 2],
    pub rooms: [usize; 2],
    pub length: usize,
}

pub fn compare(lender: &Lender, dice: &mut Dice, asked: &Questions) -> Check<Reported> {
    let Given { bytes, q } = &asked.given;
    let lent_run = lender.lend(dice, bytes);
    let passed = BOTH.map(|who| passing(bytes, who.caller(), *q));
    for (who, passed) in BOTH.into_iter().zip(&passed) {
        for &number in &asked.numbers {
            reported(who, &lent_run, *q, passed, number)?;
        }
    }
    let text = text(&passed[0]);
    let rooms = rooms(dice, text.len());
    for room in rooms {
        listed(lender, dice, &lent_run, *q, &text, room)?;
    }
    ensure(lent_run[..] == bytes[..], "the lent run was written")?;
    let length = text.len();
    Ok(Reported {
        passed,
        rooms,
        length,
    })
}

/// What the model tells of a step.
fn step_of(passed: &Passed, number: usize) -> Result<Told, Refusal> {
    passed.as_ref().map_err(|refusal| *refusal)?.step(number)
}

/// As the model tells it; and, whatever that is, changed on an odd number of qubits and kept on an even one.
fn reported(who: Who, run: &[u8], q: Pauli, passed: &Passed, number: usize) -> Check<()> {
    let answered = who.report(run, active(q), number);
    let told = answer(step_of(passed, number), |told| report(told.flag));
    if answered != told {
        let name = who.name();
        return Err(format!("{name}: step {number}: {answered:?}, not {told:?}"));
    }
    match answered {
        Ok(Report::Flagged { changed, mask }) => {
            let odd = mask.count_ones() % 2 == 1;
            ensure(changed == odd, "changed, and not on an odd number")
        }
        _ => Ok(()),
    }
}

fn listed(
    lender: &Lender,
    dice: &mut Dice,
    run: &[u8],
    q: Pauli,
    text: &str,
    room: usize,
) -> Check<()> {
    let before = filling_bytes(dice, room);
    let mut out = lender.lend(dice, &before);
    let answered = naribhush::list_steps(run, active(q), &mut out);
    let (told, written) = told(text, room);
    if answered != told {
        let what = format!("list of steps, room {room}: {answered:?}, not {told:?}");
        return Err(what);
    }
    match written_at_start(&out, written, &before) {
        true => Ok(()),
        false if answered.is_err() => Err("an output that is too short was written".to_string()),
        false => Err(first_difference(&out, text)),
    }
}

// --------------------------------------------------------------- what was seen

type Met = (bool, &'static str);

/// Counts each of the numbers that was asked for, by what the caller answered.
pub fn count(seen: &mut Tally, who: Who, asked: &Questions, passed: &Passed) {
    for &number in &asked.numbers {
        match passed {
            Ok(passage) => match passage.step(number) {
                Ok(told) => count_told(seen, who, passage, number, &told),
                Err(_) => seen.count_met(&of_no_step(passage, number)),
            },
            Err(refusal) => seen.count_met(&of_refused(&asked.given, *refusal, number)),
        }
    }
}

fn count_told(seen: &mut Tally, who: Who, passage: &Passage, number: usize, told: &Told) {
    let last = passage.steps.len() - 1;
    seen.add(of_step(told), 1);
    seen.count_met(&[
        (number == 0, "first step"),
        (number == last && number > 0, "last step, not the first"),
        (0 < number && number < last, "step between"),
    ]);
    if let Some(flag) = told.flag {
        seen.count_met(&of_flag(who, told.frame, flag));
    }
}

fn of_step(told: &Told) -> &'static str {
    let [changed, some, none] = match told.step {
        Step::Rotation { .. } => [
            "rotation, sign changed",
            "rotation, sign kept, on some qubits",
            "rotation, sign kept, on no qubit",
        ],
        Step::Projection { .. } => [
            "projection, branch changed",
            "projection, branch kept, on some qubits",
            "projection, branch kept, on no qubit",
        ],
        Step::Promotion { .. } => return "promotion, no flag",
        Step::Correction { .. } => return "correction, no flag",
        Step::QuarterTurn { .. } => return "quarter turn, no flag",
    };
    match told.flag {
        Some(flag) if flag.changed => changed,
        Some(flag) if flag.mask != 0 => some,
        _ => none,
    }
}

fn of_flag(who: Who, frame: Pauli, flag: Flag) -> [Met; 3] {
    let ones = flag.mask.count_ones();
    [
        (
            flag.changed && ones > 2,
            "flag changed on three qubits or more",
        ),
        (
            !flag.changed && ones > 3,
            "flag kept on four qubits or more",
        ),
        (frame.n == who.caller().widest, "flag on the widest state"),
    ]
}

fn of_no_step(passage: &Passage, number: usize) -> [Met; 4] {
    let count = passage.steps.len();
    [
        (true, "no such step (20)"),
        (number == count, "number of the steps (20)"),
        (
            number == count && count == 0,
            "number of the steps, which is 0 (20)",
        ),
        (in_no_run(number), "number in no run (20)"),
    ]
}

/// By 3 or 4, the run being accepted, or by a row of the run.
fn of_refused(given: &Given, refusal: Refusal, number: usize) -> [Met; 7] {
    let (own, none) = (refusal.place.is_some(), refusal.number == 3);
    let far = in_no_run(number);
    [
        (!own && none, "no Pauli (3)"),
        (
            !own && none && given.on_others(),
            "no Pauli, and on other qubits (3)",
        ),
        (!own && none && far, "no Pauli, and number in no run (3)"),
        (!own && !none, "Pauli on other qubits (4)"),
        (
            !own && !none && far,
            "on other qubits, and number in no run (4)",
        ),
        (own, "refused run"),
        (own && !given.q.is_pauli(), "refused run, and no Pauli"),
    ]
}

/// Counts the service's list, and the two outputs.
pub fn count_list(seen: &mut Tally, reported: &Reported) {
    let passed = &reported.passed[0];
    let own = |refusal: &Refusal| refusal.place.is_some();
    let refused = passed.as_ref().err();
    let [enough, short] = reported.rooms;
    seen.count_met(&[
        (passed.is_ok(), "list of steps"),
        (
            refused.is_some_and(own),
            "list refused for the run, with a place",
        ),
        (
            refused.is_some_and(|refusal| !own(refusal)),
            "list refused for the Pauli, without one",
        ),
        (enough == reported.length, "output as long as the list"),
        (enough > reported.length, "output longer than the list"),
        (short > 0, "output shorter than the list (16)"),
        (short == 0, "output of no bytes (16)"),
    ]);
    if let Ok(passage) = passed {
        count_lines(seen, passage);
    }
}

fn count_lines(seen: &mut Tally, passage: &Passage) {
    let two_digits = |told: &Told| told.flag.is_some_and(|flag| flag.mask >> 10 != 0);
    seen.count_met(&[
        (passage.steps.is_empty(), "list without steps"),
        (passage.steps.iter().any(two_digits), "qubits of two digits"),
        (passage.steps.len() > 1000, "steps of four digits"),
    ]);
    let frames = passage.steps.iter().map(|told| told.frame);
    for frame in frames.chain([passage.end]) {
        seen.add(coefficient(frame), 1);
        seen.count_met(&[
            (frame.n == 0, "frame on no qubits"),
            (frame.n == LIMIT, "frame on twelve qubits"),
        ]);
    }
}

fn coefficient(frame: Pauli) -> &'static str {
    let text = shown(frame);
    match text.trim_end_matches(['I', 'X', 'Y', 'Z']) {
        "" => "frame without a coefficient",
        "i*" => "frame with i*",
        "-" => "frame with -",
        _ => "frame with -i*",
    }
}

#[cfg(test)]
mod tests {
    use super::*;
    use crate::letters::{X, Y, Z};

    fn rotation(pauli: Pauli) -> Step {
        let (c, s, sign) = (0, 0, 0);
        Step::Rotation { pauli, sign, c, s }
    }

    /// Asks both callers for these steps of a run that starts on one qubit: what is counted of each, and of the list.
    fn saw(steps: Vec<Step>, q: Pauli, numbers: &[usize], names: &[(&'static str, u64)]) {
        let run = Run { width: 1, steps };
        let asked = Questions {
            numbers: numbers.to_vec(),
            ..Questions::of(&mut Dice(1), &run, q)
        };
        let lender = Lender::new(false);
        let reported = compare(&lender, &mut Dice(1), &asked).expect("E7");
        for (who, passed) in BOTH.into_iter().zip(&reported.passed) {
            let mut seen = Tally::default();
            count(&mut seen, who, &asked, passed);
            for name in WANTED {
                let told = names.iter().find(|(wanted, _)| *wanted == name);
                assert_eq!(seen.count(name), told.map_or(0, |told| told.1), "{name}");
            }
        }
    }

    /// X past a rotation by Z, a quarter turn of Z, and a rotation by Y, which it is then.
    #[test]
    fn reports() {
        let steps = vec![rotation(Z), Step::QuarterTurn { pauli: Z }, rotation(Y)];
        let names = [
            ("rotation, sign changed", 1),
            ("quarter turn, no flag", 1),
            ("rotation, sign kept, on no qubit", 1),
            ("first step", 1),
            ("step between", 1),
            ("last step, not the first", 1),
            ("no such step (20)", 2),
            ("number of the steps (20)", 1),
            ("number in no run (20)", 1),
        ];
        saw(steps, X, &[0, 1, 2, 3, usize::MAX], &names);
    }

    #[test]
    fn refused() {
        let none = [
            ("no Pauli (3)", 2),
            ("no Pauli, and number in no run (3)", 1),
        ];
        saw(vec![], Pauli { k: 4, ..X }, &[0, usize::MAX], &none);
        let others = [
            ("Pauli on other qubits (4)", 2),
            ("on other qubits, and number in no run (4)", 1),
        ];
        saw(vec![], Pauli::identity(2), &[0, usize::MAX], &others);
        let no_steps = [
            ("no such step (20)", 1),
            ("number of the steps (20)", 1),
            ("number of the steps, which is 0 (20)", 1),
        ];
        saw(vec![], X, &[0], &no_steps);
    }

    /// A list has ten bytes at least, so that a shorter output can always be had.
    #[test]
    fn rooms_about_the_list() {
        let mut dice = Dice(3);
        for list in [10, 12, 300].repeat(1000) {
            let [enough, short] = rooms(&mut dice, list);
            assert!(enough >= list && short < list);
        }
    }
}
