//! Demand 3, through the calls of one caller alone. Way A: the Pauli is applied to the start state, then the run is run.
//! Way B: the Pauli is carried, the carried run is run, then the end Pauli is applied. The two ways have
//! different entries past the start state and in the scratch.

use crate::callers::Who;
use crate::convert::{active, answer, ending, survey};
use crate::lent::{Lender, Lent};
use crate::patterns::{all_finite, filling_bytes, hex, hex_floats, same_number};
use crate::state::{Buffers, Contents, with_state};
use model::carry::carry;
use model::dice::Dice;
use model::pauli::Pauli;
use model::run::{Run, Survey};
use naribhush::{ActivePauli, Ending};

/// An accepted run, a Pauli on its start qubits, and the start state.
pub struct Trial {
    pub run: Run,
    pub q: Pauli,
    pub state: [Vec<f64>; 2],
}

impl Trial {
    pub fn description(&self) -> String {
        let Pauli { n, k, x, z } = self.q;
        let rest = described(&self.run, &self.state);
        format!("Q: n {n} k {k} x {x:#x} z {z:#x}, {rest}")
    }
}

/// A run and its start state.
pub fn described(run: &Run, [re, im]: &[Vec<f64>; 2]) -> String {
    let (run, re, im) = (hex(&run.bytes()), hex_floats(re), hex_floats(im));
    format!("run {run}, re {re}, im {im}")
}

/// What was seen where nothing was wrong.
pub struct Outcome {
    pub finite_start: bool,
    /// The theorem's premise: each amplitude of way B's run is finite, at the start and after each step.
    pub finite: bool,
    pub parts: Parts,
}

impl Outcome {
    /// Against the theorem: the premise holds, and some numbers are not the same.
    pub fn is_wrong(&self) -> bool {
        self.finite && self.parts.differing + self.parts.both_nan > 0
    }
}

/// The parts re and im of the amplitudes at the last width, way A against way B.
#[derive(Default)]
pub struct Parts {
    pub compared: usize,
    pub zeros_of_two_signs: usize,
    pub both_nan: usize,
    pub differing: usize,
}

pub type Check<T> = Result<T, String>;

pub fn ensure(holds: bool, what: &str) -> Check<()> {
    if holds { Ok(()) } else { Err(what.to_string()) }
}

pub fn compare(lender: &Lender, dice: &mut Dice, who: Who, trial: &Trial) -> Check<Outcome> {
    let bytes = trial.run.bytes();
    let lent_run = lender.lend(dice, &bytes);
    let seen = checked(who, &trial.run, &lent_run)?;
    let (carried, end, out) = carried(lender, dice, who, trial, &lent_run)?;
    let lengths = lengths(dice, seen);

    let contents = with_state(dice, &trial.state, lengths);
    let a = way_a(lender, dice, who, trial, &lent_run, seen, &contents)?;
    ensure(lent_run[..] == bytes, "the lent run was written")?;

    let b = WayB {
        name: "carried run",
        run: &carried,
        bytes: &out[..bytes.len()],
        end,
    };
    b.against(lender, dice, who, &a, &trial.state)
}

/// A run that is run instead of another, and the Pauli that is applied behind it.
pub struct WayB<'a> {
    pub name: &'static str,
    pub run: &'a Run,
    pub bytes: &'a [u8],
    pub end: ActivePauli,
}

impl WayB<'_> {
    /// From the start state, against what way A left, in buffers of the same lengths.
    pub fn against(
        &self,
        lender: &Lender,
        dice: &mut Dice,
        who: Who,
        a: &Buffers,
        state: &[Vec<f64>; 2],
    ) -> Check<Outcome> {
        let (run, seen) = (self.run, self.run.survey());
        let lengths = a.0.each_ref().map(|buffer| buffer.len());
        let contents = with_state(dice, state, lengths);
        let mut b = Buffers::lend(lender, dice, &contents);
        ran(&mut b, who, self.bytes, seen, &contents, self.name)?;
        let finite_start = state.iter().all(|part| all_finite(part));
        let finite_steps = step_by_step(lender, dice, who, run, &contents, &b)?;
        spelled_out(lender, dice, who, run, &contents, &b)?;
        corrected(&mut b, self.end, seen.width)?;
        Ok(Outcome {
            finite_start,
            finite: finite_start && finite_steps,
            parts: compare_parts(a, &b, seen.width),
        })
    }
}

/// Buffers as long as the run needs them, or a little longer.
pub fn lengths(dice: &mut Dice, seen: Survey) -> [usize; 4] {
    let mut some = |needed: usize| needed + dice.pick(&[0, 0, 1, 5]);
    let state = 1 << seen.greatest;
    [state, state, seen.scratch, seen.scratch].map(&mut some)
}

pub fn checked(who: Who, run: &Run, lent_run: &[u8]) -> Check<Survey> {
    let seen = run.survey();
    let checked = who.check(lent_run);
    let right = checked == Ok(survey(seen)) && seen.steps == run.steps.len();
    ensure(right, &format!("check: {checked:?}, not {seen:?}"))?;
    Ok(seen)
}

/// The carried run and the end Pauli, held against the model and against the run itself.
fn carried<'a>(
    lender: &'a Lender,
    dice: &mut Dice,
    who: Who,
    trial: &Trial,
    lent_run: &[u8],
) -> Check<(Run, ActivePauli, Lent<'a, u8>)> {
    let room = lent_run.len() + dice.below(4);
    let before = filling_bytes(dice, room);
    let mut out = lender.lend(dice, &before);
    let answered = who.carry(lent_run, active(trial.q), &mut out);

    let (carried, end) = carry(&trial.run, trial.q);
    ensure(
        answered == Ok(active(end)),
        &format!("carry: {answered:?}, not {end:?}"),
    )?;
    let (written, past) = out.split_at(lent_run.len());
    ensure(written == carried.bytes(), "carried bytes not the model's")?;
    ensure(past == &before[written.len()..], "out written past the run")?;
    ensure(
        differs_in_flags_alone(&trial.run, lent_run, written),
        "carrying altered more than signs and branches",
    )?;
    ensure(
        who.check(lent_run) == who.check(written),
        "the check of the carried run answers otherwise",
    )?;
    Ok((carried, active(end), out))
}

pub fn differs_in_flags_alone(run: &Run, bytes: &[u8], carried: &[u8]) -> bool {
    let mut rest = carried.to_vec();
    for at in run.flags_at() {
        if rest[at] > 1 {
            return false;
        }
        rest[at] = bytes[at];
    }
    rest == bytes
}

fn way_a<'a>(
    lender: &'a Lender,
    dice: &mut Dice,
    who: Who,
    trial: &Trial,
    lent_run: &[u8],
    seen: Survey,
    contents: &Contents,
) -> Check<Buffers<'a>> {
    let mut a = Buffers::lend(lender, dice, contents);
    corrected(&mut a, active(trial.q), trial.run.width)?;
    ran(&mut a, who, lent_run, seen, contents, "run")?;
    Ok(a)
}

/// The correction, and nothing written past the state.
fn corrected(buffers: &mut Buffers, pauli: ActivePauli, width: usize) -> Check<()> {
    let before = buffers.contents();
    let [re, im, ..] = &mut buffers.0;
    let answered = naribhush::correct(re, im, pauli);
    ensure(answered == Ok(()), &format!("correct: {answered:?}"))?;
    let kept = buffers.kept_past(&before, [1 << width, 1 << width, 0, 0]);
    ensure(kept, "correct wrote past the state")
}

/// The run, its answer, and nothing written past what the check says that it needs.
pub fn ran(
    buffers: &mut Buffers,
    who: Who,
    bytes: &[u8],
    seen: Survey,
    before: &Contents,
    name: &str,
) -> Check<()> {
    let answered = who.run(bytes, buffers);
    let right = answered == answer(Ok(seen), ending);
    ensure(right, &format!("{name}: {answered:?}, not {seen:?}"))?;
    let state = 1 << seen.greatest;
    let kept = buffers.kept_past(before, [state, state, seen.scratch, seen.scratch]);
    ensure(kept, &format!("{name}: wrote past what it needs"))
}

/// Runs the list one step at a time on buffers of the same contents: whether each step leaves finite
/// amplitudes alone. In the end the buffers are those of the whole run.
pub fn step_by_step(
    lender: &Lender,
    dice: &mut Dice,
    who: Who,
    run: &Run,
    contents: &Contents,
    whole: &Buffers,
) -> Check<bool> {
    let mut buffers = Buffers::lend(lender, dice, contents);
    let (mut width, mut finite) = (run.width, true);
    for &step in &run.steps {
        let one = Run {
            width,
            steps: vec![step],
        };
        width = step.width_after(width);
        let answered = who.run(&lender.lend(dice, &one.bytes()), &mut buffers);
        let expected = Ok(Ending { width, steps: 1 });
        ensure(answered == expected, &format!("one step: {answered:?}"))?;
        finite &= (0..2).all(|part| all_finite(&buffers.0[part][..1 << width]));
    }
    let same = buffers.same_but_nan(&whole.contents());
    ensure(same, "one step at a time ends otherwise than the whole run")?;
    Ok(finite)
}

/// A quarter turn leaves what the rotation leaves that it is: the list with these in place of those ends in the same buffers.
fn spelled_out(
    lender: &Lender,
    dice: &mut Dice,
    who: Who,
    run: &Run,
    contents: &Contents,
    whole: &Buffers,
) -> Check<()> {
    let steps: Vec<_> = run.steps.iter().map(|step| step.spelled_out()).collect();
    if steps == run.steps {
        return Ok(());
    }
    let width = run.width;
    let rotations = Run { width, steps };
    let mut buffers = Buffers::lend(lender, dice, contents);
    let answered = who.run(&lender.lend(dice, &rotations.bytes()), &mut buffers);
    let expected = answer(Ok(run.survey()), ending);
    let right = answered == expected && buffers.same_but_nan(&whole.contents());
    ensure(right, "rotations for quarter turns end otherwise")
}

fn compare_parts(a: &Buffers, b: &Buffers, width: usize) -> Parts {
    let mut parts = Parts::default();
    for part in 0..2 {
        let pairs = a.0[part].iter().zip(b.0[part].iter());
        for (&a, &b) in pairs.take(1 << width) {
            parts.compared += 1;
            let same = same_number(a, b);
            let nan = !same && a.is_nan() && b.is_nan();
            parts.zeros_of_two_signs += usize::from(same && a.to_bits() != b.to_bits());
            parts.both_nan += usize::from(nan);
            parts.differing += usize::from(!same && !nan);
        }
    }
    parts
}
