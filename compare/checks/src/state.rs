//! The four buffers that a run is lent: the state's parts and the scratch's.

use crate::lent::{Lender, Lent};
use crate::patterns::{filling, same_bits, same_but_nan};
use model::dice::Dice;

/// What the buffers hold: re, im, and the scratch of each.
pub type Contents = [Vec<f64>; 4];

/// Patterns throughout, buffers of these lengths.
pub fn patterns(dice: &mut Dice, lengths: [usize; 4]) -> Contents {
    lengths.map(|length| filling(dice, length))
}

/// The state in front, patterns past it.
pub fn with_state(dice: &mut Dice, state: &[Vec<f64>; 2], lengths: [usize; 4]) -> Contents {
    let mut contents = patterns(dice, lengths);
    for (content, part) in contents.iter_mut().zip(state) {
        content[..part.len()].copy_from_slice(part);
    }
    contents
}

pub struct Buffers<'a>(pub [Lent<'a, f64>; 4]);

impl<'a> Buffers<'a> {
    pub fn lend(lender: &'a Lender, dice: &mut Dice, contents: &Contents) -> Self {
        Self(
            contents
                .each_ref()
                .map(|content| lender.lend(dice, content)),
        )
    }

    pub fn contents(&self) -> Contents {
        self.0.each_ref().map(|buffer| buffer.to_vec())
    }

    /// Whether each buffer is, from its entry in `from` on, bit for bit as in `before`.
    pub fn kept_past(&self, before: &Contents, from: [usize; 4]) -> bool {
        let kept = |at: usize| {
            let from = from[at].min(before[at].len());
            same_bits(&self.0[at][from..], &before[at][from..])
        };
        (0..4).all(kept)
    }

    pub fn kept(&self, before: &Contents) -> bool {
        self.kept_past(before, [0; 4])
    }

    pub fn same_but_nan(&self, contents: &Contents) -> bool {
        let pairs = self.0.iter().zip(contents);
        pairs.into_iter().all(|(a, b)| same_but_nan(a, b))
    }
}
