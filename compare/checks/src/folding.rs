//! E2, through the calls of one caller alone. Way A: the run is run. Way B: it is folded, the folded run is run from the same start
//! state, then the end Pauli is applied. Both end in the same numbers where the folded run stays finite. The call's answer and its
//! whole output are held against the model; folded again, the folded run is given back.

use crate::callers::Who;
use crate::convert::{active, answer, row_of};
use crate::draw;
use crate::lent::{Lender, Lent};
use crate::passed;
use crate::patterns::{filling_bytes, written_at_start};
use crate::state::{Buffers, with_state};
use crate::tally::Tally;
use crate::two_ways::{
    Check, Outcome, Trial, WayB, checked, described, differs_in_flags_alone, ensure, lengths, ran,
};
use model::dice::Dice;
use model::fold::{fold, fold_step, folding};
use model::pauli::Pauli;
use model::run::{Caller, Run, Step};
use naribhush::{Answer, Folding};

/// What `count` counts beside `passed::STEPS`: each has to be seen.
pub const WANTED: [&str; 25] = [
    "run folded",
    "folded run folded again",
    "run without steps",
    "run without corrections",
    "run of nothing but corrections",
    "correction first",
    "correction last",
    "corrections next to each other",
    "correction on no qubits",
    "correction on the widest state",
    "correction, nothing held",
    "correction that commutes with what is held",
    "correction that anticommutes with what is held",
    "step passed with nothing held",
    "corrections that come to nothing",
    "end Pauli with phase 0",
    "end Pauli with phase 1",
    "end Pauli with phase 2",
    "end Pauli with phase 3",
    "output as long as the folded run",
    "output longer than the folded run",
    "output long enough, and shorter than the run",
    "output one byte short (16)",
    "output shorter by more (16)",
    "output of no bytes (16)",
];

// ------------------------------------------------------------ what is folded

/// A run to fold, which the caller takes, and the start state.
pub struct Original<'a> {
    pub run: Run,
    pub state: &'a [Vec<f64>; 2],
}

impl<'a> Original<'a> {
    /// Most are the trial's run with about as many corrections put in as it has steps; some the run as it is, some with the trial's
    /// Pauli fired first, and some nothing but corrections.
    pub fn draw(dice: &mut Dice, trial: &'a Trial) -> Self {
        let width = trial.run.width;
        let run = match dice.below(8) {
            0 => trial.run.clone(),
            1 => return Self::fired_first(trial),
            2 => {
                let count = 1 + dice.below(8);
                let steps = corrections(dice, width, count);
                Run { width, steps }
            }
            _ => with_corrections(dice, &trial.run),
        };
        let state = &trial.state;
        Self { run, state }
    }

    /// The trial's run with its Pauli as a correction right after the start.
    pub fn fired_first(trial: &'a Trial) -> Self {
        let first = Step::Correction { pauli: trial.q };
        let steps = [&[first], &trial.run.steps[..]].concat();
        let width = trial.run.width;
        let (run, state) = (Run { width, steps }, &trial.state);
        Self { run, state }
    }

    pub fn description(&self) -> String {
        described(&self.run, self.state)
    }
}

fn is_correction(step: &Step) -> bool {
    matches!(step, Step::Correction { .. })
}

fn corrections(dice: &mut Dice, n: usize, count: usize) -> Vec<Step> {
    (0..count).map(|_| draw::correction(dice, n)).collect()
}

/// Before the first step, between the steps and behind the last: none, one, or several next to each other.
fn with_corrections(dice: &mut Dice, run: &Run) -> Run {
    let mut put_in = |n| {
        let count = dice.pick(&[0, 0, 1, 1, 3]);
        corrections(dice, n, count)
    };
    let width = run.width;
    let mut steps = put_in(width);
    for (&step, n) in run.steps.iter().zip(run.widths()) {
        steps.push(step);
        steps.extend(put_in(step.width_after(n)));
    }
    Run { width, steps }
}

/// Lengths of an output that holds the folded run, and of one that does not.
fn rooms(dice: &mut Dice, folded: usize, run: usize) -> [usize; 2] {
    let enough = match dice.below(4) {
        0 => run,
        1 => folded + 1 + dice.below(8),
        _ => folded,
    };
    let short = match dice.below(4) {
        0 => 0,
        1 => dice.below(folded),
        _ => folded - 1,
    };
    [enough, short]
}

// ----------------------------------------------------------------- the checks

/// What was seen where nothing was wrong with the calls.
pub struct Folded {
    pub run: Run,
    pub end: Pauli,
    pub rooms: [usize; 2],
    pub outcome: Outcome,
}

pub fn compare(lender: &Lender, dice: &mut Dice, who: Who, original: &Original) -> Check<Folded> {
    let bytes = original.run.bytes();
    let lent_run = lender.lend(dice, &bytes);
    let (run, end) = fold(&original.run);
    let length = run.bytes().len();
    let rooms @ [enough, short] = rooms(dice, length, bytes.len());
    let (refused, _) = called(lender, dice, who, &lent_run, short)?;
    ensure(row_of(&refused) == 16, "a short output is not 16")?;
    let (answered, out) = called(lender, dice, who, &lent_run, enough)?;
    ensure(answered.is_ok(), "an output that is long enough is refused")?;
    let folded = &out[..length];
    closed_up(&original.run, folded)?;

    let a = way_a(lender, dice, who, original, &lent_run)?;
    ensure(lent_run[..] == bytes, "the lent run was written")?;
    let b = WayB {
        name: "folded run",
        run: &run,
        bytes: folded,
        end: active(end),
    };
    let outcome = b.against(lender, dice, who, &a, original.state)?;
    given_back(lender, dice, who, folded, end.n)?;
    Ok(Folded {
        run,
        end,
        rooms,
        outcome,
    })
}

/// What the call is to answer by the model, and what it is to write at the start of the output: nothing where it refuses.
pub fn told(bytes: &[u8], caller: Caller, room: usize) -> (Answer<Folding>, Vec<u8>) {
    let model = folding(bytes, caller, room);
    let written = model.as_ref().map_or(Vec::new(), |(left, _)| left.clone());
    let value = |(left, end): (Vec<u8>, Pauli)| Folding {
        end: active(end),
        size: left.len(),
    };
    (answer(model, value), written)
}

/// The call with an output of this length, as the model tells it.
fn called<'a>(
    lender: &'a Lender,
    dice: &mut Dice,
    who: Who,
    run: &[u8],
    room: usize,
) -> Check<(Answer<Folding>, Lent<'a, u8>)> {
    let before = filling_bytes(dice, room);
    let mut out = lender.lend(dice, &before);
    let answered = who.fold(run, &mut out);
    let (told, written) = told(run, who.caller(), room);
    let what = || format!("fold, room {room}: {answered:?}, not {told:?}");
    ensure(answered == told, &what())?;
    let right = written_at_start(&out, &written, &before);
    ensure(right, &format!("fold, room {room}: the output"))?;
    Ok((answered, out))
}

/// The fields but the corrections', in their order, altered in signs and branches alone.
fn closed_up(run: &Run, folded: &[u8]) -> Check<()> {
    let stays = |step: &Step| !is_correction(step);
    let rest = Run {
        width: run.width,
        steps: run.steps.iter().copied().filter(stays).collect(),
    };
    let right = differs_in_flags_alone(&rest, &rest.bytes(), folded);
    ensure(right, "the folded run is not the other fields of the run")
}

/// The run as it was, from the start state.
fn way_a<'a>(
    lender: &'a Lender,
    dice: &mut Dice,
    who: Who,
    original: &Original,
    lent_run: &[u8],
) -> Check<Buffers<'a>> {
    let seen = checked(who, &original.run, lent_run)?;
    let lengths = lengths(dice, seen);
    let contents = with_state(dice, original.state, lengths);
    let mut a = Buffers::lend(lender, dice, &contents);
    ran(&mut a, who, lent_run, seen, &contents, "run")?;
    Ok(a)
}

/// A folded run has nothing to fold: it comes back whole, with the identity on its last qubits.
fn given_back(lender: &Lender, dice: &mut Dice, who: Who, folded: &[u8], last: usize) -> Check<()> {
    let (answered, out) = called(lender, dice, who, folded, folded.len())?;
    let expected = Ok(Folding {
        end: active(Pauli::identity(last)),
        size: folded.len(),
    });
    let right = answered == expected && out[..] == *folded;
    ensure(right, "folded again: something else")
}

// --------------------------------------------------------------- what was seen

/// Counts the run, the outputs, and what is held at each step.
pub fn count(seen: &mut Tally, who: Who, original: &Original, folded: &Folded) {
    seen.add_each(&["run folded", phase(folded.end)]);
    seen.count_met(&of_run(original, folded));
    seen.count_met(&of_rooms(original, folded));
    let mut held = Pauli::identity(original.run.width);
    for &step in &original.run.steps {
        seen.add_each(&at_step(held, step));
        if is_correction(&step) {
            seen.count_met(&on_qubits(who, held.n));
        }
        held = fold_step(held, step).1;
    }
}

type Met = (bool, &'static str);

fn phase(end: Pauli) -> &'static str {
    match end.k {
        0 => "end Pauli with phase 0",
        1 => "end Pauli with phase 1",
        2 => "end Pauli with phase 2",
        _ => "end Pauli with phase 3",
    }
}

fn of_run(original: &Original, folded: &Folded) -> [Met; 8] {
    let fired: Vec<bool> = original.run.steps.iter().map(is_correction).collect();
    let (some, none) = (fired.contains(&true), fired.is_empty());
    let nothing_left = folded.end == Pauli::identity(folded.end.n);
    [
        (none, "run without steps"),
        (!some && !none, "run without corrections"),
        (
            some && folded.run.steps.is_empty(),
            "run of nothing but corrections",
        ),
        (fired.first() == Some(&true), "correction first"),
        (fired.last() == Some(&true), "correction last"),
        (
            fired.windows(2).any(|two| two == [true; 2]),
            "corrections next to each other",
        ),
        (some && nothing_left, "corrections that come to nothing"),
        (some, "folded run folded again"),
    ]
}

fn of_rooms(original: &Original, folded: &Folded) -> [Met; 6] {
    let [run, length] = [&original.run, &folded.run].map(|run| run.bytes().len());
    let [enough, short] = folded.rooms;
    [
        (enough == length, "output as long as the folded run"),
        (enough > length, "output longer than the folded run"),
        (enough < run, "output long enough, and shorter than the run"),
        (short + 1 == length, "output one byte short (16)"),
        (
            short + 1 < length && short > 0,
            "output shorter by more (16)",
        ),
        (short == 0, "output of no bytes (16)"),
    ]
}

fn on_qubits(who: Who, n: usize) -> [Met; 2] {
    [
        (n == 0, "correction on no qubits"),
        (n == who.caller().widest, "correction on the widest state"),
    ]
}

/// A Pauli is held where the masks are not both 0: a phase alone does nothing to a step.
fn at_step(held: Pauli, step: Step) -> Vec<&'static str> {
    match step {
        Step::Correction { .. } if held.is_identity() => vec!["correction, nothing held"],
        Step::Correction { pauli } => vec![match pauli.anticommutes(held) {
            false => "correction that commutes with what is held",
            true => "correction that anticommutes with what is held",
        }],
        _ if held.is_identity() => vec!["step passed with nothing held"],
        _ => passed::names(held, step),
    }
}

#[cfg(test)]
mod tests {
    use super::*;
    use crate::callers::BOTH;
    use crate::letters::{X, Y, Z};
    use crate::trials::random_trial;
    use model::run::{SERVICE, read};

    fn fired(pauli: Pauli) -> Step {
        Step::Correction { pauli }
    }

    fn rotation(pauli: Pauli) -> Step {
        let (c, s) = (0.6f64.to_bits(), 0.8f64.to_bits());
        let sign = 0;
        Step::Rotation { pauli, sign, c, s }
    }

    /// Folds a run on one qubit by both callers, and counts these beside what each run and its outputs are counted by.
    fn saw(steps: Vec<Step>, end: Pauli, names: &[(&'static str, u64)]) {
        let run = Run { width: 1, steps };
        let state = &[vec![0.1, 0.2], vec![0.3, 0.4]];
        let original = Original { run, state };
        for who in BOTH {
            let lender = Lender::new(false);
            let folded = compare(&lender, &mut Dice(1), who, &original).expect("E2");
            assert!(folded.outcome.finite && !folded.outcome.is_wrong());
            assert_eq!(folded.end, end);
            let mut seen = Tally::default();
            count(&mut seen, who, &original, &folded);
            let cases = passed::STEPS.into_iter().chain(WANTED);
            for name in cases.filter(|name| !name.starts_with("output")) {
                let told = names.iter().find(|(wanted, _)| *wanted == name);
                assert_eq!(seen.count(name), told.map_or(0, |told| told.1), "{name}");
            }
        }
    }

    /// X, then Z is Z·X; Z, then X is X·Z.
    #[test]
    fn both_orders() {
        let orders = [
            (X, Z, "end Pauli with phase 2", 2),
            (Z, X, "end Pauli with phase 0", 0),
        ];
        for (first, second, phase, k) in orders {
            let names = [
                ("run folded", 1),
                ("folded run folded again", 1),
                ("run of nothing but corrections", 1),
                ("correction first", 1),
                ("correction last", 1),
                ("corrections next to each other", 1),
                ("correction, nothing held", 1),
                ("correction that anticommutes with what is held", 1),
                (phase, 1),
            ];
            let end = Pauli { k, ..Y };
            saw(vec![fired(first), fired(second)], end, &names);
        }
    }

    /// A rotation before the first correction, one with X held, and one with nothing held again.
    #[test]
    fn held_for_a_while() {
        let steps = vec![rotation(Z), fired(X), rotation(Z), fired(X), rotation(Z)];
        let names = [
            ("run folded", 1),
            ("folded run folded again", 1),
            ("correction, nothing held", 1),
            ("correction that commutes with what is held", 1),
            ("step passed with nothing held", 2),
            ("rotation, sign flipped", 1),
            ("corrections that come to nothing", 1),
            ("end Pauli with phase 0", 1),
        ];
        saw(steps, Pauli::identity(1), &names);
    }

    /// X past a quarter turn of Z is Y.
    #[test]
    fn turned() {
        let names = [
            ("run folded", 1),
            ("folded run folded again", 1),
            ("correction first", 1),
            ("correction, nothing held", 1),
            ("quarter turn, frame turned", 1),
            ("end Pauli with phase 1", 1),
        ];
        saw(vec![fired(X), Step::QuarterTurn { pauli: Z }], Y, &names);
    }

    #[test]
    fn nothing_to_fold() {
        let phase = ("end Pauli with phase 0", 1);
        let none = [("run folded", 1), ("run without steps", 1), phase];
        saw(vec![], Pauli::identity(1), &none);
        let names = [
            ("run folded", 1),
            ("run without corrections", 1),
            ("step passed with nothing held", 1),
            phase,
        ];
        saw(vec![rotation(X)], Pauli::identity(1), &names);
    }

    /// The trial's steps and corrections at their widths, so that no row refuses them.
    #[test]
    fn corrections_put_in() {
        let mut dice = Dice(2);
        let (mut steps, mut put_in) = (0, 0);
        for _ in 0..1000 {
            let trial = random_trial(&mut dice);
            let run = with_corrections(&mut dice, &trial.run);
            assert_eq!(read(&run.bytes(), SERVICE).as_ref(), Ok(&run));
            let [rest, own] = [&run, &trial.run].map(|run| {
                let stays = |step: &&Step| !is_correction(step);
                run.steps.iter().filter(stays).copied().collect::<Vec<_>>()
            });
            assert_eq!(rest, own);
            steps += trial.run.steps.len();
            put_in += run.steps.len() - trial.run.steps.len();
        }
        assert!((steps * 9 / 10..steps * 12 / 10).contains(&put_in));
    }

    /// The folded run has seven bytes at least, so that a shorter output can always be had.
    #[test]
    fn rooms_about_the_folded_run() {
        let mut dice = Dice(3);
        for (folded, run) in [(7, 7), (7, 27), (44, 84)].repeat(1000) {
            let [enough, short] = rooms(&mut dice, folded, run);
            assert!(enough >= folded && short < folded);
        }
    }
}
