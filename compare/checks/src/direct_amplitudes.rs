//! The kernels and the calls on amplitudes, with any numbers: the row is the model's, a refused call writes
//! nothing, an accepted one only the entries that are its to write.

use crate::convert::{active, row_of};
use crate::floats;
use crate::lent::Lender;
use crate::numbers::{any_active, any_flag, any_measured, any_wide, any_width};
use crate::outcomes::Outcomes;
use crate::patterns::same_but_nan;
use crate::state::{Buffers, Contents, patterns};
use crate::wide::{self, unless};
use model::dice::Dice;
use model::pauli::Pauli;
use model::rows::{self, lowest};
use naribhush::{Answer, Complex64};

pub fn call_all(lender: &Lender, dice: &mut Dice, seen: &mut Outcomes) {
    phase_factor(dice, seen);
    action(dice, seen);
    kernels(dice, seen);
    rotate(lender, dice, seen);
    promote(lender, dice, seen);
    project(lender, dice, seen);
    probability(lender, dice, seen);
    correct(lender, dice, seen);
}

// ------------------------------------------------------------------- kernels

fn phase_factor(dice: &mut Dice, seen: &mut Outcomes) {
    let k = dice.below(4) as u8;
    let (re, im) = [(1.0, 0.0), (0.0, 1.0), (-1.0, 0.0), (0.0, -1.0)][k as usize];
    let factor = naribhush::phase_factor(k);
    let bits = |value: Complex64| (value.re.to_bits(), value.im.to_bits());
    let right = bits(factor) == bits(Complex64 { re, im });
    seen.holds("phase_factor", "i^k", right, || format!("{k}"));
    // Of any other k there is no promise in the scope, but there is an answer.
    naribhush::phase_factor(dice.word() as u8);
}

/// Counts the call and holds its row against the expected one; a value is not looked at.
fn row_alone<T>(
    seen: &mut Outcomes,
    call: &'static str,
    answered: &Answer<T>,
    row: u8,
    input: impl FnOnce() -> String,
) {
    let answered = answered.as_ref().map(|_| ()).map_err(|refusal| *refusal);
    seen.answered(call, &answered, &unless(row, || ()), input);
}

fn action(dice: &mut Dice, seen: &mut Outcomes) {
    let p = any_wide(dice);
    let row = lowest(&[
        (!wide::is_pauli(p), 3),
        (p.nqubits > 62, 6),
        (!wide::is_hermitian(p), 7),
    ]);
    row_alone(seen, "action", &naribhush::action(p), row, || {
        format!("{p:?}")
    });
}

fn kernels(dice: &mut Dice, seen: &mut Outcomes) {
    let (p, c, s) = (any_active(dice), any_unit(dice), any_unit(dice));
    let answered = naribhush::rotation_kernel(active(p), c, s);
    let row = rows::rotation_kernel(p, c, s);
    row_alone(seen, "rotation kernel", &answered, row, || {
        format!("{p:?}, {c:e} {s:e}")
    });

    let (p, pivot) = any_measured(dice);
    let answered = naribhush::with_pivot(active(p), pivot);
    let row = rows::measurement_kernel(p, pivot);
    let input = || format!("{p:?}, pivot {pivot}");
    row_alone(seen, "with_pivot", &answered, row, input);

    // The pivot, if not given, is the highest bit of the mask that it is in; there is none for the identity.
    let highest = rows::pivot_mask(p).checked_ilog2();
    let row = rows::measurement_kernel(p, highest.unwrap_or(0) as usize);
    let answered = naribhush::from_pauli(active(p));
    row_alone(seen, "from_pauli", &answered, row, input);
    if let (Ok(kernel), Some(highest)) = (answered, highest) {
        let right = kernel.pivot == highest as usize;
        seen.holds("from_pauli", "the pivot is the highest bit", right, input);
    }
}

// ---------------------------------------------------------------- amplitudes

/// In -1..1, most of the time.
fn any_unit(dice: &mut Dice) -> f64 {
    match dice.once_in(8) {
        true => floats::any(dice),
        false => floats::unit(dice),
    }
}

/// Entries for 2^n amplitudes and the scratch for 2^(n-1), or one fewer, none, more. Beyond what this
/// program lends there is no room, whatever the length.
fn lengths_for(dice: &mut Dice, n: usize) -> [usize; 4] {
    let state = 1usize << n.min(10);
    let right = [state, state, state / 2, state / 2];
    if dice.flip() {
        return right;
    }
    right.map(|length| match dice.below(8) {
        0 => 0,
        1 | 2 => length.saturating_sub(1),
        3 => length + 1 + dice.below(8),
        _ => length,
    })
}

/// What a call is lent, and the buffers as they were.
struct Loan<'a> {
    lengths: [usize; 4],
    before: Contents,
    buffers: Buffers<'a>,
}

impl<'a> Loan<'a> {
    fn of(lender: &'a Lender, dice: &mut Dice, n: usize) -> Self {
        let lengths = lengths_for(dice, n);
        let before = patterns(dice, lengths);
        let buffers = Buffers::lend(lender, dice, &before);
        Self {
            lengths,
            before,
            buffers,
        }
    }

    /// The row, and what was written: nothing if refused, else no entry from `written` on.
    fn check(
        &self,
        seen: &mut Outcomes,
        call: &'static str,
        answered: &Answer<()>,
        row: u8,
        written: [usize; 4],
        input: &str,
    ) {
        let input = || format!("{input}, lengths {:?}", self.lengths);
        row_alone(seen, call, answered, row, input);
        let kept = match row_of(answered) {
            0 => self.buffers.kept_past(&self.before, written),
            _ => self.buffers.kept(&self.before),
        };
        seen.holds(call, "what is not its to write is kept", kept, input);
    }
}

/// 2^n where a row did not refuse the width; it is not used otherwise.
fn size(n: usize) -> usize {
    1usize.checked_shl(n as u32).unwrap_or(0)
}

fn rotate(lender: &Lender, dice: &mut Dice, seen: &mut Outcomes) {
    let (p, c, s) = (any_active(dice), any_unit(dice), any_unit(dice));
    let sign = any_flag(dice);
    let mut loan = Loan::of(lender, dice, p.n);
    let [re, im, ..] = &mut loan.buffers.0;
    let answered = naribhush::rotate(re, im, active(p), sign, c, s);
    let row = rows::rotation(p, c, s, loan.lengths[0], loan.lengths[1]);
    let row = rows::flagged(row, sign);
    let input = format!("{p:?}, sign {sign}, {c:e} {s:e}");
    let written = [size(p.n), size(p.n), 0, 0];
    loan.check(seen, "rotate", &answered, row, written, &input);
}

fn promote(lender: &Lender, dice: &mut Dice, seen: &mut Outcomes) {
    let (n, c, q) = (any_width(dice), any_unit(dice), any_unit(dice));
    let mut loan = Loan::of(lender, dice, n.saturating_add(1));
    let [re, im, ..] = &mut loan.buffers.0;
    let answered = naribhush::promote(re, im, n, c, q);
    let row = rows::promotion(n, c, q, loan.lengths[0], loan.lengths[1]);
    let input = format!("width {n}, {c:e} {q:e}");
    let written = size(n.saturating_add(1));
    loan.check(
        seen,
        "promote",
        &answered,
        row,
        [written, written, 0, 0],
        &input,
    );
}

fn project(lender: &Lender, dice: &mut Dice, seen: &mut Outcomes) {
    let ((p, pivot), branch) = (any_measured(dice), any_flag(dice));
    let invnorm = match dice.once_in(8) {
        true => floats::any(dice),
        false => floats::invnorm(dice),
    };
    let mut loan = Loan::of(lender, dice, p.n);
    let [re, im, scratch_re, scratch_im] = &mut loan.buffers.0;
    let pauli = active(p);
    let answered = naribhush::project(
        re, im, scratch_re, scratch_im, pauli, pivot, branch, invnorm,
    );
    let [re, im, scratch_re, scratch_im] = loan.lengths;
    let row = rows::projection(p, pivot, invnorm, [re, im], [scratch_re, scratch_im]);
    let row = rows::flagged(row, branch);
    let input = format!("{p:?}, pivot {pivot}, branch {branch}, invnorm {invnorm:e}");
    // The upper half stays, and the scratch of a Pauli without an X part.
    let half = size(p.n.saturating_sub(1));
    let scratch = if p.x != 0 { half } else { 0 };
    let written = [half, half, scratch, scratch];
    loan.check(seen, "project", &answered, row, written, &input);
}

fn probability(lender: &Lender, dice: &mut Dice, seen: &mut Outcomes) {
    let ((p, pivot), branch) = (any_measured(dice), any_flag(dice));
    let loan = Loan::of(lender, dice, p.n);
    let [re, im, ..] = &loan.buffers.0;
    let answered = naribhush::probability(re, im, active(p), pivot, branch);
    let row = rows::probability(p, pivot, loan.lengths[0], loan.lengths[1]);
    let row = rows::flagged(row, branch);
    let input = format!("{p:?}, pivot {pivot}, branch {branch}");
    let verdict = answered.map(|_| ());
    loan.check(seen, "probability", &verdict, row, [0; 4], &input);
    let in_range = answered.map_or(true, |value| value.is_nan() || (0.0..=1.0).contains(&value));
    seen.holds("probability", "0 to 1, or a NaN", in_range, || input);
}

fn correct(lender: &Lender, dice: &mut Dice, seen: &mut Outcomes) {
    let mut p = any_active(dice);
    if dice.flip() {
        p.k ^= dice.below(4) as u8;
    }
    let mut loan = Loan::of(lender, dice, p.n);
    let [re, im, ..] = &mut loan.buffers.0;
    let answered = naribhush::correct(re, im, active(p));
    let row = rows::correction(p, loan.lengths[0], loan.lengths[1]);
    let input = format!("{p:?}");
    let written = [size(p.n), size(p.n), 0, 0];
    loan.check(seen, "correct", &answered, row, written, &input);
    if row == 0 {
        let right = corrected(p, &loan);
        seen.holds("correct", "the model's state", right, || input);
    }
}

fn corrected(p: Pauli, loan: &Loan) -> bool {
    let mut expected = loan.before.clone();
    let [re, im, ..] = &mut expected;
    p.correct(re, im);
    let [re, im, ..] = &loan.buffers.0;
    same_but_nan(re, &expected[0]) && same_but_nan(im, &expected[1])
}
