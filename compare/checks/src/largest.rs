//! Runs of 65,536 bytes or just under, most of them of one kind of step.

use crate::draw;
use model::dice::Dice;
use model::run::{LONGEST, Run, Step};

/// The field of a projection has so many bytes.
const PROJECTION: usize = 3 + 27;

/// Steps, each drawn at the width before it, until the next one would not leave this many bytes.
fn filled(width: usize, left: usize, mut next: impl FnMut(usize) -> Step) -> Run {
    let mut run = Run {
        width,
        steps: Vec::new(),
    };
    let (mut last, mut length) = (width, run.bytes().len());
    loop {
        let step = next(last);
        length += step.field().len();
        if length + left > LONGEST {
            return run;
        }
        last = step.width_after(last);
        run.steps.push(step);
    }
}

pub fn corrections(dice: &mut Dice, width: usize) -> Run {
    filled(width, 0, |n| draw::correction(dice, n))
}

pub fn rotations(dice: &mut Dice, width: usize) -> Run {
    filled(width, 0, |n| draw::rotation(dice, n))
}

pub fn quarter_turns(dice: &mut Dice, width: usize) -> Run {
    filled(width, 0, |n| draw::quarter_turn(dice, n))
}

/// A projection and a promotion in turn.
pub fn projections_and_promotions(dice: &mut Dice, width: usize) -> Run {
    filled(width, 0, |n| match n == width {
        true => draw::projection(dice, n),
        false => draw::promotion(dice),
    })
}

/// One kind of step, which keeps the width, and then projections down to no qubits.
fn then_projections(dice: &mut Dice, width: usize, step: fn(&mut Dice, usize) -> Step) -> Run {
    let left = width * PROJECTION;
    let mut run = filled(width, left, |n| step(dice, n));
    let projections = (1..=width).rev().map(|n| draw::projection(dice, n));
    run.steps.extend(projections);
    run
}

/// Quarter turns, and then the projections.
pub fn projections_at_the_end(dice: &mut Dice, width: usize) -> Run {
    then_projections(dice, width, draw::quarter_turn)
}

/// As many signs and branches as a run from this width can have: a projection has fewer bytes than a rotation, and a promotion with
/// a projection more.
pub fn flags(dice: &mut Dice, width: usize) -> Run {
    then_projections(dice, width, draw::rotation)
}

/// As the long runs of E2 are.
pub fn half_corrections(dice: &mut Dice, width: usize) -> Run {
    filled(width, 0, |n| match dice.flip() {
        true => draw::correction(dice, n),
        false => draw::step(dice, n, width),
    })
}

pub fn mixed(dice: &mut Dice, width: usize) -> Run {
    filled(width, 0, |n| draw::step(dice, n, width))
}

#[cfg(test)]
mod tests {
    use super::*;
    use model::run::{EMULATOR, SERVICE, check};

    /// Each is taken, and has no room for one more of the longest step, of 37 bytes.
    #[test]
    fn just_under() {
        let kinds = [
            corrections,
            rotations,
            quarter_turns,
            projections_and_promotions,
            projections_at_the_end,
            flags,
            half_corrections,
            mixed,
        ];
        for (at, kind) in kinds.into_iter().enumerate() {
            for caller in [SERVICE, EMULATOR] {
                let bytes = kind(&mut Dice(at as u64), caller.widest).bytes();
                assert!((LONGEST - 36..=LONGEST).contains(&bytes.len()));
                let seen = check(&bytes, caller).expect("accepted");
                assert_eq!(seen.greatest, caller.widest);
            }
        }
    }
}
