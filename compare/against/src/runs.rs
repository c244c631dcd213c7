//! Whole runs: the proved call against the Rust's kernels called step by step.

use model::dice::Dice;
use model::pauli::Pauli;
use model::rows::H;
use model::run::{self, Run, Step};
use naribhush::{self as here, ActivePauli, Ending, Refusal};
use ticit::contiguous as rust;
use ticit::errors::TicitError;

use crate::amplitudes::{Comparison, Measured, published_projection};
use crate::buffers::{Buffers, Sides};
use crate::inputs;
use crate::kernels::{id_of, modelled, turn};
use crate::published::{Turn, rotation_kernel, to_rust, tried, widened};
use crate::tally::{Call, Case, Lent, NO_ID};

/// The steps that a run has at most.
const MOST_STEPS: usize = 24;

fn active(p: Pauli) -> ActivePauli {
    ActivePauli {
        nqubits: p.n,
        x: p.x,
        z: p.z,
        phase: p.k,
    }
}

// ------------------------------------------------------------- by the Rust

/// The run's steps, each by the Rust's kernel: a quarter turn, which it does not have as a step, by its rotation's; a
/// correction, for which it has none, by the model.
fn step_by_step(lent: &mut Buffers, run: &Run) -> Result<Ending, TicitError> {
    for (&step, width) in run.steps.iter().zip(run.widths()) {
        stepped(lent, step, width)?;
    }
    let seen = run.survey();
    Ok(Ending {
        width: seen.width,
        steps: seen.steps,
    })
}

fn stepped(lent: &mut Buffers, step: Step, width: usize) -> Result<(), TicitError> {
    let float = f64::from_bits;
    let dim = 1 << width;
    match step {
        Step::Rotation { pauli, sign, c, s } => {
            let turn = Turn::Pair(float(c), float(s));
            rotated(lent, dim, pauli, turn, sign == 1)?;
        }
        Step::QuarterTurn { pauli } => {
            let turn = Turn::Pair(H, H);
            rotated(lent, dim, pauli, turn, false)?;
        }
        Step::Promotion { c, q } => {
            let (re, im) = (&mut lent.re, &mut lent.im);
            rust::promote_contiguous_active(re, im, dim, float(c), float(q));
        }
        Step::Projection {
            pauli,
            pivot,
            branch,
            invnorm,
        } => {
            let measured = Measured {
                pauli: active(pauli),
                pivot: pivot.into(),
                branch: branch == 1,
            };
            let t = to_rust(&widened(active(pauli))).expect("a short Pauli");
            published_projection(lent, &t, measured, float(invnorm))?;
        }
        Step::Correction { pauli } => pauli.correct(&mut lent.re, &mut lent.im),
    }
    Ok(())
}

fn rotated(
    lent: &mut Buffers,
    dim: usize,
    p: Pauli,
    turn: Turn,
    sign: bool,
) -> Result<(), TicitError> {
    let t = to_rust(&widened(active(p))).expect("a short Pauli");
    let kernel = rotation_kernel(&t, turn)?;
    let (re, im) = (&mut lent.re, &mut lent.im);
    rust::rotate_contiguous_active(re, im, dim, &kernel, sign);
    Ok(())
}

// ------------------------------------------------------------- comparison

impl Comparison<'_> {
    fn run(&mut self, run: &Run) {
        let bytes = run.bytes();
        self.sides.lend();
        let Sides {
            before,
            ours,
            theirs,
        } = &mut self.sides;
        let [re, im, sre, sim] = before.all().map(<[f64]>::len);
        let refusal = run::running(&bytes, run::SERVICE, [re, im], [sre, sim]).err();
        let answer = here::run_contiguous(
            &bytes,
            &mut ours.re,
            &mut ours.im,
            &mut ours.scratch_re,
            &mut ours.scratch_im,
        );
        let rust = tried(|| step_by_step(theirs, run));
        let case = Case {
            row: refusal.map(|r| Refusal {
                number: r.number,
                place: r.place,
            }),
            ours: answer,
            theirs: rust,
            lent: self.left_by(run),
        };
        let place = refusal.and_then(|r| r.place);
        let id = |row| id_of_run(row, run, place);
        let input = || format!("{run:x?}, {bytes:02x?}, {}", self.sides.before.shown());
        self.tally.judge(Call::Run, case, id, input);
    }

    /// A run writes the amplitudes of its greatest width and the scratch that it asks for.
    fn left_by(&self, run: &Run) -> Lent {
        let seen = run.survey();
        let state = 1 << seen.greatest;
        self.sides.left([state, state, seen.scratch, seen.scratch])
    }
}

/// The difference where the Rust takes a run that this row refuses, at the place of one of its steps or for
/// the lent buffers.
fn id_of_run(row: u8, run: &Run, place: Option<usize>) -> &'static str {
    let Some(place) = place else {
        return if row == 13 {
            "short-state-taken"
        } else {
            NO_ID
        };
    };
    let mut at = run::start_field(run.width).len();
    for &step in &run.steps {
        if at == place {
            return id_of_step(row, step);
        }
        at += step.field().len();
    }
    NO_ID
}

fn id_of_step(row: u8, step: Step) -> &'static str {
    match step {
        Step::Projection { .. } if row == 8 => "invnorm-not-finite",
        Step::Promotion { .. } => id_of(row, ActivePauli::default()),
        Step::Projection { pauli, .. }
        | Step::Rotation { pauli, .. }
        | Step::QuarterTurn { pauli }
        | Step::Correction { pauli } => id_of(row, active(pauli)),
    }
}

// ------------------------------------------------------------------- cases

fn step(dice: &mut Dice, width: usize, most: usize) -> Step {
    let p = inputs::hermitian(dice, width);
    let (c, s) = turn(dice).cosine_and_sine();
    // A step that a row refuses is rare here: turn() picks one now and then, and these are clamped.
    let [c, s] = [c, s].map(|x| if x.is_nan() { 0.6 } else { x.clamp(-1.0, 1.0) });
    match dice.below(8) {
        0 | 1 if width < most => Step::Promotion {
            c: c.to_bits(),
            q: s.to_bits(),
        },
        2 | 3 if p.x != 0 || p.z != 0 => Step::Projection {
            pauli: modelled(p),
            pivot: inputs::pivot(dice, p) as u8,
            branch: dice.below(2) as u8,
            invnorm: inputs::invnorm(dice).to_bits(),
        },
        4 => Step::Correction {
            pauli: modelled(inputs::active(dice, width)),
        },
        5 => Step::QuarterTurn { pauli: modelled(p) },
        _ => Step::Rotation {
            pauli: modelled(p),
            sign: dice.below(2) as u8,
            c: c.to_bits(),
            s: s.to_bits(),
        },
    }
}

/// A step that a row refuses, or that is fine after all.
fn spoil(dice: &mut Dice, step: &mut Step) {
    match step {
        Step::Rotation { c, .. } if dice.flip() => *c = dice.pick(&inputs::NO_UNITS).to_bits(),
        Step::Promotion { q, .. } => *q = dice.pick(&inputs::NO_UNITS).to_bits(),
        Step::Projection { invnorm, .. } if dice.flip() => {
            *invnorm = dice.pick(&inputs::NO_INVNORMS).to_bits();
        }
        // The Rust has none that could take it.
        Step::Correction { .. } => {}
        Step::Projection { pauli, .. }
        | Step::Rotation { pauli, .. }
        | Step::QuarterTurn { pauli } => match dice.below(4) {
            0 => pauli.k ^= 1,
            1 => pauli.k += 4,
            2 => pauli.x |= 1 << pauli.n,
            _ => pauli.z |= 1 << pauli.n,
        },
    }
}

impl Comparison<'_> {
    pub fn runs(&mut self, rounds: usize) {
        for _ in 0..rounds {
            let run = self.any_run();
            let lengths = self.lengths_for(&run);
            self.sides.fill(self.stock, &mut self.dice, lengths);
            self.run(&run);
        }
    }

    fn any_run(&mut self) -> Run {
        let dice = &mut self.dice;
        let most = if dice.once_in(64) { 12 } else { 6 };
        let start = dice.below(most + 1);
        let (mut width, mut steps) = (start, Vec::new());
        for _ in 0..dice.below(MOST_STEPS + 1) {
            let step = step(dice, width, most);
            width = step.width_after(width);
            steps.push(step);
        }
        if !steps.is_empty() && dice.once_in(8) {
            let at = dice.below(steps.len());
            spoil(dice, &mut steps[at]);
        }
        Run {
            width: start,
            steps,
        }
    }

    /// Room enough, and in some of the cases not.
    fn lengths_for(&mut self, run: &Run) -> [usize; 4] {
        let seen = run.survey();
        let state = 1usize << seen.greatest;
        let mut lengths = [state, state, seen.scratch, seen.scratch];
        for length in &mut lengths {
            *length += self.dice.below(4);
            if self.dice.once_in(32) {
                *length = length.saturating_sub(1 + self.dice.below(4));
            }
        }
        lengths
    }
}
