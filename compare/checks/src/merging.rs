//! E11, through the calls of one caller alone: B is carried through a run and A through what that leaves, and B·A through the run.
//! Both come to the same run and, with B's end Pauli times A's, to the same Pauli. Each output has a length and old bytes of its own.

use crate::callers::Who;
use crate::convert::active;
use crate::lent::{Lender, Lent};
use crate::patterns::filling_bytes;
use crate::tally::Tally;
use crate::two_ways::{Check, Trial, ensure};
use model::carry::{carry, carry_step, takes_product};
use model::dice::Dice;
use model::pauli::Pauli;
use model::run::Step;
use naribhush::ActivePauli;

/// What `count` counts: each has to be seen.
pub const WANTED: [&str; 20] = [
    "merged carry",
    "B and A commute",
    "B and A anticommute",
    "B·A with phase 0",
    "B·A with phase 1",
    "B·A with phase 2",
    "B·A with phase 3",
    "run that B changed and A changed back",
    "diagonal projection, pivot met by neither",
    "diagonal projection, pivot met by A alone",
    "diagonal projection, pivot met by B alone",
    "diagonal projection, pivot met by both",
    "nondiagonal projection, pivot met by neither",
    "nondiagonal projection, pivot met by A alone",
    "nondiagonal projection, pivot met by B alone",
    "nondiagonal projection, pivot met by both",
    "quarter turn that turned neither",
    "quarter turn that turned A alone",
    "quarter turn that turned B alone",
    "quarter turn that turned both",
];

/// What was seen where nothing was wrong.
pub struct Merged {
    pub product: Pauli,
    pub changed_back: bool,
}

/// An output as a carry left it, which begins with the carried run, and the end Pauli.
struct Carried<'a> {
    out: Lent<'a, u8>,
    length: usize,
    end: ActivePauli,
}

impl Carried<'_> {
    fn run(&self) -> &[u8] {
        &self.out[..self.length]
    }
}

/// The trial's own Pauli is B.
pub fn compare(
    lender: &Lender,
    dice: &mut Dice,
    who: Who,
    trial: &Trial,
    a: Pauli,
) -> Check<Merged> {
    let (b, bytes) = (trial.q, trial.run.bytes());
    let lent_run = lender.lend(dice, &bytes);
    let product = multiplied(active(b), active(a))?;
    ensure(product == active(b.times(a)), "B·A is not the model's")?;

    let mut carried = |run: &[u8], q: ActivePauli| carried(lender, dice, who, run, q);
    let first = carried(&lent_run, active(b))?;
    let second = carried(first.run(), active(a))?;
    let merged = carried(&lent_run, product)?;
    same_as_merged(trial, &first, &second, &merged, b.times(a))?;

    let last = Pauli::identity(trial.run.survey().width);
    let kept = carried(&lent_run, active(Pauli::identity(b.n)))?;
    let right = kept.run() == bytes && kept.end == active(last);
    ensure(right, "carrying the identity leaves something else")?;

    let again = carried(first.run(), active(b))?;
    ensure(again.run() == bytes, "B and B again: another run")?;
    let left = active(last.raised(b.times(b).k));
    let ends = multiplied(first.end, again.end)?;
    ensure(ends == left, "B and B again: more than a phase is left")?;

    Ok(Merged {
        product: b.times(a),
        changed_back: first.run() != bytes && second.run() == bytes,
    })
}

/// The product by the library's own call.
fn multiplied(lhs: ActivePauli, rhs: ActivePauli) -> Check<ActivePauli> {
    let refused = |refusal| format!("product of {lhs:?} and {rhs:?}: {refusal:?}");
    naribhush::active_mul(lhs, rhs).map_err(refused)
}

/// Nothing is written but the first bytes of the output.
fn carried<'a>(
    lender: &'a Lender,
    dice: &mut Dice,
    who: Who,
    run: &[u8],
    q: ActivePauli,
) -> Check<Carried<'a>> {
    let (lent, length) = (run.to_vec(), run.len());
    let room = length + dice.below(4);
    let before = filling_bytes(dice, room);
    let mut out = lender.lend(dice, &before);
    let answered = who.carry(run, q, &mut out);
    let end = answered.map_err(|refusal| format!("carrying {q:?}: {refusal:?}"))?;
    ensure(run == lent, "the run that was carried through was written")?;
    let kept = out[length..] == before[length..];
    ensure(kept, "an output was written past the run")?;
    Ok(Carried { out, length, end })
}

/// The claim, and both sides of it against the model's carry of B·A.
fn same_as_merged(
    trial: &Trial,
    first: &Carried,
    second: &Carried,
    merged: &Carried,
    product: Pauli,
) -> Check<()> {
    let ends = multiplied(first.end, second.end)?;
    ensure(second.run() == merged.run(), "B, then A: not B·A's run")?;
    let what = || format!("the ends' product: {ends:?}, not {:?}", merged.end);
    ensure(ends == merged.end, &what())?;
    let (run, end) = carry(&trial.run, product);
    ensure(merged.run() == run.bytes(), "B·A's run not the model's")?;
    ensure(merged.end == active(end), "B·A's end Pauli not the model's")
}

// --------------------------------------------------------------- what was seen

/// Counts the pair, and what the two do at each step, A being carried past what B leaves.
pub fn count(seen: &mut Tally, trial: &Trial, a: Pauli, merged: &Merged) {
    let mut frames = [trial.q, a];
    seen.add("merged carry", 1);
    seen.add(pair(frames), 1);
    seen.add(phase(merged.product), 1);
    let back = usize::from(merged.changed_back);
    seen.add("run that B changed and A changed back", back);
    for &step in &trial.run.steps {
        if let Some(name) = at_step(frames, step) {
            seen.add(name, 1);
        }
        let (left, b) = carry_step(frames[0], step);
        let (_, a) = carry_step(frames[1], left);
        frames = [b, a];
    }
}

fn pair([b, a]: [Pauli; 2]) -> &'static str {
    match b.anticommutes(a) {
        false => "B and A commute",
        true => "B and A anticommute",
    }
}

fn phase(product: Pauli) -> &'static str {
    match product.k {
        0 => "B·A with phase 0",
        1 => "B·A with phase 1",
        2 => "B·A with phase 2",
        _ => "B·A with phase 3",
    }
}

/// The steps at which the list tells the cases apart: projections and quarter turns.
fn at_step(frames: [Pauli; 2], step: Step) -> Option<&'static str> {
    match step {
        Step::Projection { pauli, pivot, .. } => {
            let met = frames.map(|q| takes_product(q, pauli, pivot));
            Some(at_pivot(pauli.x != 0, met))
        }
        Step::QuarterTurn { pauli } => Some(turned(frames.map(|q| q.anticommutes(pauli)))),
        _ => None,
    }
}

/// Met by B, and by A.
fn at_pivot(mixes: bool, met: [bool; 2]) -> &'static str {
    match (mixes, met) {
        (false, [false, false]) => "diagonal projection, pivot met by neither",
        (false, [false, true]) => "diagonal projection, pivot met by A alone",
        (false, [true, false]) => "diagonal projection, pivot met by B alone",
        (false, [true, true]) => "diagonal projection, pivot met by both",
        (true, [false, false]) => "nondiagonal projection, pivot met by neither",
        (true, [false, true]) => "nondiagonal projection, pivot met by A alone",
        (true, [true, false]) => "nondiagonal projection, pivot met by B alone",
        (true, [true, true]) => "nondiagonal projection, pivot met by both",
    }
}

/// B turned, and A.
fn turned(turned: [bool; 2]) -> &'static str {
    match turned {
        [false, false] => "quarter turn that turned neither",
        [false, true] => "quarter turn that turned A alone",
        [true, false] => "quarter turn that turned B alone",
        [true, true] => "quarter turn that turned both",
    }
}

#[cfg(test)]
mod tests {
    use super::*;
    use crate::callers::BOTH;
    use crate::letters::{X, Y, Z};
    use model::run::Run;

    fn projection(pauli: Pauli) -> Step {
        Step::Projection {
            pauli,
            pivot: 0,
            branch: 1,
            invnorm: 0,
        }
    }

    /// Merges by both callers, and what each of them counts.
    fn tallies(steps: Vec<Step>, b: Pauli, a: Pauli) -> [Tally; 2] {
        let run = Run { width: 1, steps };
        let state = [vec![0.0; 2], vec![0.0; 2]];
        let trial = Trial { run, q: b, state };
        BOTH.map(|who| {
            let lender = Lender::new(false);
            let merged = compare(&lender, &mut Dice(1), who, &trial, a).expect("E11");
            let mut seen = Tally::default();
            count(&mut seen, &trial, a, &merged);
            seen
        })
    }

    fn saw(steps: Vec<Step>, b: Pauli, a: Pauli, names: &[&'static str]) {
        for seen in tallies(steps, b, a) {
            for name in WANTED {
                let wanted = name == "merged carry" || names.contains(&name);
                assert_eq!(seen.count(name), u64::from(wanted), "{name}");
            }
        }
    }

    /// X and Z past an X projection in both orders: X·Z has phase 0, Z·X phase 2.
    #[test]
    fn both_orders() {
        let order = |b, a, others: [&'static str; 2]| {
            let names = [&others[..], &["B and A anticommute"]].concat();
            saw(vec![projection(X)], b, a, &names);
        };
        let by_b = "nondiagonal projection, pivot met by B alone";
        let by_a = "nondiagonal projection, pivot met by A alone";
        order(X, Z, [by_b, "B·A with phase 0"]);
        order(Z, X, [by_a, "B·A with phase 2"]);
    }

    /// What meets the pivot is what the two have become: X past a quarter turn of Z is Y, and Y is -X; Z past one of X is -Y, which
    /// has an X part where Z has none.
    #[test]
    fn as_carried() {
        let cases = [
            (Z, Y, "quarter turn that turned both", "B·A with phase 1"),
            (X, Z, "quarter turn that turned A alone", "B·A with phase 0"),
        ];
        for (turn, a, turned, phase) in cases {
            let steps = vec![Step::QuarterTurn { pauli: turn }, projection(X)];
            let met = "nondiagonal projection, pivot met by both";
            saw(steps, X, a, &["B and A anticommute", turned, met, phase]);
        }
    }

    /// X twice past a projection of Z: the branch flips and flips back, and neither has a Z part.
    #[test]
    fn changed_back() {
        let names = [
            "B and A commute",
            "B·A with phase 0",
            "run that B changed and A changed back",
            "diagonal projection, pivot met by neither",
        ];
        saw(vec![projection(Z)], X, X, &names);
    }
}
