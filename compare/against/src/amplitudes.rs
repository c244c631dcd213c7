//! The calls on amplitudes.

use model::dice::Dice;
use model::rows;
use naribhush::{self as here, ActivePauli};
use ticit::contiguous as rust;
use ticit::errors::TicitError;
use ticit::pauli::PauliString as RustPauli;

use crate::buffers::{Buffers, Sides};
use crate::inputs::{self, Stock};
use crate::kernels::{every_active, id_of, modelled, turn};
use crate::published::{
    Theirs, Turn, asked, measurement_kernel, rotation_kernel, to_rust, try_of, widened,
};
use crate::tally::{Call, Case, NO_ID, Tally, row};

/// The widest state.
const WIDEST: usize = 12;
/// A dimension is a 64-bit number: the Rust's promotion can be asked up to this width.
const MOST_QUBITS: usize = 63;

/// The amplitudes of `n` qubits; no buffer has more than those of 63.
fn dimension(n: usize) -> usize {
    1usize
        .checked_shl(n as u32)
        .filter(|_| n < 64)
        .unwrap_or(usize::MAX)
}

/// What is compared, and with what.
pub struct Comparison<'a> {
    pub tally: &'a mut Tally,
    pub dice: Dice,
    pub stock: &'a Stock,
    pub sides: Sides,
}

/// A measurement of a Pauli.
#[derive(Clone, Copy, Debug)]
pub struct Measured {
    pub pauli: ActivePauli,
    pub pivot: usize,
    pub branch: bool,
}

impl Comparison<'_> {
    pub fn rotate(&mut self, p: ActivePauli, sign: bool, turn: Turn) {
        let (c, s) = turn.cosine_and_sine();
        self.sides.lend();
        let Sides {
            before,
            ours,
            theirs,
        } = &mut self.sides;
        let refused = rows::rotation(modelled(p), c, s, before.re.len(), before.im.len());
        let answer = here::rotate(&mut ours.re, &mut ours.im, p, sign.into(), c, s);
        let rust = try_of(&to_rust(&widened(p)), |t| {
            let kernel = rotation_kernel(t, turn)?;
            let dim = 1 << p.nqubits;
            rust::rotate_contiguous_active(&mut theirs.re, &mut theirs.im, dim, &kernel, sign);
            Ok(())
        });
        let all = dimension(p.nqubits);
        let case = Case {
            row: row(refused),
            ours: answer,
            theirs: rust,
            lent: self.sides.left([all, all, 0, 0]),
        };
        let id = |row| id_of(row, p);
        let input = || {
            format!(
                "{p:x?}, sign {sign}, {turn:?}, {}",
                self.sides.before.shown()
            )
        };
        self.tally.judge(Call::Rotate, case, id, input);
    }

    pub fn promote(&mut self, n: usize, c: f64, q: f64) {
        self.sides.lend();
        let Sides {
            before,
            ours,
            theirs,
        } = &mut self.sides;
        let refused = rows::promotion(n, c, q, before.re.len(), before.im.len());
        let answer = here::promote(&mut ours.re, &mut ours.im, n, c, q);
        let rust = match n {
            0..=MOST_QUBITS => asked(|| {
                rust::promote_contiguous_active(&mut theirs.re, &mut theirs.im, 1 << n, c, q);
            }),
            _ => Theirs::NotAsked,
        };
        let all = dimension(n.saturating_add(1));
        let case = Case {
            row: row(refused),
            ours: answer,
            theirs: rust,
            lent: self.sides.left([all, all, 0, 0]),
        };
        let input = || format!("width {n}, c {c:?}, q {q:?}, {}", self.sides.before.shown());
        let id = |row| id_of(row, ActivePauli::default());
        self.tally.judge(Call::Promote, case, id, input);
    }

    pub fn probability(&mut self, measured: Measured) {
        let Measured {
            pauli,
            pivot,
            branch,
        } = measured;
        self.sides.lend();
        let Sides { before, ours, .. } = &mut self.sides;
        let Buffers { re, im, .. } = before;
        let refused = rows::probability(modelled(pauli), pivot, re.len(), im.len());
        let answer = here::probability(&ours.re, &ours.im, pauli, pivot, branch.into());
        let rust = try_of(&to_rust(&widened(pauli)), |t| {
            let kernel = measurement_kernel(t, pivot)?;
            Ok(match kernel.is_diagonal {
                true => rust::diagonal_probability_contiguous(re, im, &kernel, branch),
                false => rust::nondiagonal_probability_contiguous(re, im, &kernel, branch),
            })
        });
        let case = Case {
            row: row(refused),
            ours: answer,
            theirs: rust,
            lent: self.sides.left([0; 4]),
        };
        let id = |row| match row {
            13 if pauli.x == 0 => "short-state-taken",
            _ => id_of(row, pauli),
        };
        let input = || format!("{measured:x?}, {}", self.sides.before.shown());
        self.tally.judge(Call::Probability, case, id, input);
    }

    pub fn project(&mut self, measured: Measured, invnorm: f64) {
        let Measured {
            pauli,
            pivot,
            branch,
        } = measured;
        self.sides.lend();
        let Sides {
            before,
            ours,
            theirs,
        } = &mut self.sides;
        let [re, im, sre, sim] = before.all().map(<[f64]>::len);
        let refused = rows::projection(modelled(pauli), pivot, invnorm, [re, im], [sre, sim]);
        let answer = here::project(
            &mut ours.re,
            &mut ours.im,
            &mut ours.scratch_re,
            &mut ours.scratch_im,
            pauli,
            pivot,
            branch.into(),
            invnorm,
        );
        let rust = try_of(&to_rust(&widened(pauli)), |t| {
            published_projection(theirs, t, measured, invnorm)
        });
        let half = dimension(pauli.nqubits.saturating_sub(1));
        let (call, scratch) = match pauli.x {
            0 => (Call::ProjectDiagonal, 0),
            _ => (Call::ProjectNondiagonal, half),
        };
        let case = Case {
            row: row(refused),
            ours: answer,
            theirs: rust,
            lent: self.sides.left([half, half, scratch, scratch]),
        };
        let id = |row| match row {
            8 => "invnorm-not-finite",
            13 if pauli.x == 0 => "short-state-taken",
            _ => id_of(row, pauli),
        };
        let before = &self.sides.before;
        let input = || format!("{measured:x?}, invnorm {invnorm:?}, {}", before.shown());
        self.tally.judge(call, case, id, input);
    }

    /// The Rust has no correction: the model's is held against ours.
    pub fn correct(&mut self, p: ActivePauli) {
        self.sides.lend();
        let Sides {
            before,
            ours,
            theirs,
        } = &mut self.sides;
        let model = modelled(p);
        let refused = rows::correction(model, before.re.len(), before.im.len());
        let answer = here::correct(&mut ours.re, &mut ours.im, p);
        let expected = match refused {
            0 => asked(|| model.correct(&mut theirs.re, &mut theirs.im)),
            _ => Theirs::NotAsked,
        };
        let all = dimension(p.nqubits);
        let case = Case {
            row: row(refused),
            ours: answer,
            theirs: expected,
            lent: self.sides.left([all, all, 0, 0]),
        };
        let input = || format!("{p:x?}, {}", self.sides.before.shown());
        self.tally.judge(Call::Correct, case, |_| NO_ID, input);
    }

    /// New buffers of these lengths: re, im and the two of the scratch.
    fn fill(&mut self, lengths: [usize; 4]) {
        self.sides.fill(self.stock, &mut self.dice, lengths);
    }

    /// New buffers with room for `n` qubits and up to 3 entries more.
    fn fill_for(&mut self, n: usize) {
        let lengths = [0; 4].map(|_| (1 << n) + self.dice.below(4));
        self.fill(lengths);
    }
}

/// The Rust's projection, on these buffers, of the same Pauli.
pub fn published_projection(
    lent: &mut Buffers,
    pauli: &RustPauli,
    measured: Measured,
    invnorm: f64,
) -> Result<(), TicitError> {
    let branch = measured.branch;
    let kernel = measurement_kernel(pauli, measured.pivot)?;
    let Buffers {
        re,
        im,
        scratch_re,
        scratch_im,
    } = lent;
    if kernel.is_diagonal {
        rust::project_diagonal_contiguous(re, im, &kernel, branch, invnorm);
    } else {
        rust::project_nondiagonal_contiguous(
            re, im, scratch_re, scratch_im, &kernel, branch, invnorm,
        );
    }
    Ok(())
}

// ------------------------------------------------------------------- cases

impl Comparison<'_> {
    /// Every Pauli of widths 0 to 4, Hermitian or not, every sign, branch and pivot, the pivots past the width
    /// too; below width 3 with mask bits past the width and phase 4.
    pub fn exhaustive(&mut self) {
        for n in 0..=4 {
            let wider = usize::from(n < 3);
            for p in every_active(n, n + wider, 4 + wider as u8) {
                self.rotations_of(p);
                self.measurements_of(p);
                for _ in 0..4 {
                    self.fill_for(n + wider);
                    self.correct(p);
                }
            }
            for c in inputs::UNITS.into_iter().chain(inputs::NO_UNITS) {
                for q in inputs::UNITS.into_iter().chain(inputs::NO_UNITS) {
                    for _ in 0..8 {
                        self.fill_for(n + 1);
                        self.promote(n, c, q);
                    }
                }
            }
        }
    }

    fn rotations_of(&mut self, p: ActivePauli) {
        let room = p.nqubits + 1;
        for sign in [false, true] {
            for c in inputs::UNITS {
                for s in inputs::UNITS {
                    self.fill_for(room);
                    self.rotate(p, sign, Turn::Pair(c, s));
                }
            }
            for angle in inputs::ANGLES {
                self.fill_for(room);
                self.rotate(p, sign, Turn::Angle(angle));
            }
            for spoiled in inputs::NO_UNITS {
                self.rotate(p, sign, Turn::Pair(spoiled, 0.5));
                self.rotate(p, sign, Turn::Pair(-0.5, spoiled));
            }
        }
    }

    fn measurements_of(&mut self, pauli: ActivePauli) {
        for pivot in 0..pauli.nqubits + 2 {
            for branch in [false, true] {
                let measured = Measured {
                    pauli,
                    pivot,
                    branch,
                };
                for invnorm in inputs::INVNORMS {
                    self.fill_for(pauli.nqubits + 1);
                    self.project(measured, invnorm);
                    self.probability(measured);
                }
                for invnorm in inputs::NO_INVNORMS {
                    self.project(measured, invnorm);
                }
            }
        }
    }

    /// Random Paulis and states of widths 0 to 12, most of them small.
    pub fn random(&mut self, rounds: usize) {
        for _ in 0..rounds {
            let n = self.width();
            let p = self.pauli(n);
            self.fill_for(n);
            let (sign, turn) = (self.dice.flip(), turn(&mut self.dice));
            self.rotate(p, sign, turn);
            self.correct(p);
            let measured = self.measured(p);
            let invnorm = self.invnorm();
            self.probability(measured);
            self.project(measured, invnorm);
            if n < WIDEST {
                self.fill_for(n + 1);
                let (c, q) = turn_or_pair(&mut self.dice);
                self.promote(n, c, q);
            }
        }
    }

    fn width(&mut self) -> usize {
        match self.dice.below(64) {
            0 | 1 => 10 + self.dice.below(3),
            2..=5 => 8 + self.dice.below(2),
            6..=17 => 6 + self.dice.below(2),
            18..=35 => 4 + self.dice.below(2),
            36 => 0,
            _ => 1 + self.dice.below(3),
        }
    }

    fn pauli(&mut self, n: usize) -> ActivePauli {
        let p = inputs::hermitian(&mut self.dice, n);
        match self.dice.once_in(16) {
            true => inputs::spoiled_active(&mut self.dice, p),
            false => p,
        }
    }

    fn measured(&mut self, pauli: ActivePauli) -> Measured {
        let pivot = match self.dice.once_in(16) {
            true => inputs::qubit(&mut self.dice, pauli.nqubits),
            false => inputs::pivot(&mut self.dice, pauli),
        };
        Measured {
            pauli,
            pivot,
            branch: self.dice.flip(),
        }
    }

    fn invnorm(&mut self) -> f64 {
        match self.dice.once_in(32) {
            true => self.dice.pick(&inputs::NO_INVNORMS),
            false => inputs::invnorm(&mut self.dice),
        }
    }

    /// Buffers that are empty, one short, exactly full and longer, in every combination.
    pub fn lengths(&mut self, rounds: usize) {
        for n in (0..rounds).flat_map(|_| 0..=4) {
            for choice in 0..256 {
                let p = self.pauli(n);
                let measured = self.measured(p);
                let invnorm = self.invnorm();
                let (sign, turn) = (self.dice.flip(), turn(&mut self.dice));
                let lengths = |full: usize, i: usize| {
                    let one_short = full.saturating_sub(1);
                    [0, one_short, full, full + 3][choice >> (2 * i) & 3]
                };
                let (state, half) = (1 << n, (1 << n) / 2);
                self.fill([0, 1, 2, 3].map(|i| lengths(if i < 2 { state } else { half }, i)));
                self.project(measured, invnorm);
                if choice % 4 == choice / 16 % 4 {
                    self.probability(measured);
                    self.rotate(p, sign, turn);
                    self.correct(p);
                    self.fill([0, 1, 2, 3].map(|i| lengths(2 * state, i)));
                    let (c, q) = turn_or_pair(&mut self.dice);
                    self.promote(n, c, q);
                }
            }
        }
    }

    /// Widths around the limits and huge ones, in buffers that are far too short: the Rust stops at their end.
    pub fn limits(&mut self, rounds: usize) {
        let widths = [
            59,
            60,
            61,
            62,
            63,
            64,
            65,
            128,
            255,
            256,
            257,
            1 << 40,
            usize::MAX,
        ];
        for n in (0..rounds).flat_map(|_| widths) {
            let lengths = [0; 4].map(|_| self.dice.pick(&[0, 1, 5, 64]));
            self.fill(lengths);
            let p = self.pauli(n);
            let (sign, turn) = (self.dice.flip(), turn(&mut self.dice));
            self.rotate(p, sign, turn);
            self.correct(p);
            let measured = self.measured(p);
            let invnorm = self.invnorm();
            self.probability(measured);
            self.project(measured, invnorm);
            let (c, q) = turn_or_pair(&mut self.dice);
            self.promote(n, c, q);
        }
    }
}

/// The two coefficients of a promotion.
fn turn_or_pair(dice: &mut Dice) -> (f64, f64) {
    turn(dice).cosine_and_sine()
}
