//! The lent buffers of a case: as they were, and as each side leaves them.

use model::dice::Dice;

use crate::inputs::Stock;
use crate::same::{same_bits, same_floats};
use crate::tally::Lent;

/// State and scratch.
#[derive(Default, Clone)]
pub struct Buffers {
    pub re: Vec<f64>,
    pub im: Vec<f64>,
    pub scratch_re: Vec<f64>,
    pub scratch_im: Vec<f64>,
}

impl Buffers {
    pub fn all(&self) -> [&[f64]; 4] {
        [&self.re, &self.im, &self.scratch_re, &self.scratch_im]
    }

    fn copy(&mut self, from: &Self) {
        self.re.clone_from(&from.re);
        self.im.clone_from(&from.im);
        self.scratch_re.clone_from(&from.scratch_re);
        self.scratch_im.clone_from(&from.scratch_im);
    }

    /// All entries by their bits, for a report.
    pub fn shown(&self) -> String {
        let bits = |part: &[f64]| -> String {
            let words = part.iter().map(|x| format!(" {:016x}", x.to_bits()));
            words.collect()
        };
        let [re, im, sre, sim] = self.all().map(bits);
        format!("re{re} | im{im} | scratch re{sre} | scratch im{sim}")
    }
}

#[derive(Default)]
pub struct Sides {
    pub before: Buffers,
    pub ours: Buffers,
    pub theirs: Buffers,
}

impl Sides {
    /// Random numbers in buffers of these lengths: re, im and the two of the scratch.
    pub fn fill(&mut self, stock: &Stock, dice: &mut Dice, lengths: [usize; 4]) {
        let [re, im, sre, sim] = lengths;
        let lent = &mut self.before;
        stock.fill(dice, [&mut lent.re, &mut lent.im], [re, im]);
        let scratch = [&mut lent.scratch_re, &mut lent.scratch_im];
        stock.fill(dice, scratch, [sre, sim]);
    }

    /// Both sides get the same.
    pub fn lend(&mut self) {
        self.ours.copy(&self.before);
        self.theirs.copy(&self.before);
    }

    /// `written` is how many entries of each buffer the call may write. Those are equal as floats; the rest
    /// keeps its bits on both sides.
    pub fn left(&self, written: [usize; 4]) -> Lent {
        let before = self.before.all();
        let (ours, theirs) = (self.ours.all(), self.theirs.all());
        let mut lent = Lent::default();
        for i in 0..4 {
            let end = written[i].min(before[i].len());
            lent.entries += before[i].len();
            lent.changed |= !same_bits(ours[i], before[i]);
            lent.differ |= !same_floats(&ours[i][..end], &theirs[i][..end])
                || !same_bits(&ours[i][end..], &before[i][end..])
                || !same_bits(&theirs[i][end..], &before[i][end..]);
        }
        lent
    }
}
