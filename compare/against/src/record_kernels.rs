//! Records answers of the published kernels: a question a line to `stdin`, the
//! answer at the same line of `stdout`, both in the folder that is named.
//!
//! The crate ticit has the files of inmzhang/ticit ea5d480457 (Apache-2.0) as
//! published; record.sh has the scalar loops run. The output is the same each time.
//!
//! A question is the name of a call and its words: numbers in decimal, masks and
//! floats in hexadecimal after 0x. The lent buffers follow, a bar before each;
//! their words are floats, 16 hexadecimal digits each. A Pauli P is four words:
//! width, k, x, z.
//!
//!   mul P P, anticommutes P P, raised P exponent, x_bit P q, z_bit P q, is_hermitian P
//!   action N K x x x x z z z z, four words a mask
//!   rotation_kernel P c s       c and s are the cosine and sine that the Rust has
//!   with_pivot P pivot          a measurement kernel
//!   from_pauli P                the same, with the pivot that the Rust picks
//!   rotate P sign c s | re | im
//!   promote N c q | re | im
//!   project P pivot branch invnorm | re | im | scratch re | scratch im
//!   probability P pivot branch | re | im
//!
//! An answer is a number, 1 and 0 for true and false; a float; `done` and the
//! fields of what was made; then all lent buffers as they are after the call. A
//! NaN is 7ff8000000000000. The Rust's errors have no number: `refusal` has the
//! one that stands for each.

mod record;

use std::f64::consts::{FRAC_PI_2, FRAC_PI_4, PI};

use model::dice::Dice;
use record::Record;
use ticit::Complex64;
use ticit::active::{
    ActivePauliAction, PrecomputedActivePauliMeasurementKernel as MeasurementKernel,
    PrecomputedActivePauliRotationKernel as RotationKernel,
};
use ticit::contiguous as rust;
use ticit::errors::TicitError;
use ticit::pauli::{PauliString, pauli_anticommutes, pauli_squares_to_identity};

/// The widest state that is recorded.
const WIDEST: usize = 6;
const ANGLES: [f64; 8] = [
    0.0, FRAC_PI_2, 0.3, -FRAC_PI_4, PI, -FRAC_PI_2, 1e-160, -2.5,
];
const INVNORMS: [f64; 8] = [1.0, 1.25, -0.75, 0.0, 3.0, 5e-324, -0.0, 1e308];
const COEFFICIENTS: [f64; 6] = [1.0, -0.6, 0.0, -1.0, -0.0, 5e-324];

// ------------------------------------------------------------------- words

/// A Pauli with one word a mask.
#[derive(Clone, Copy)]
struct Active {
    n: usize,
    k: usize,
    x: u64,
    z: u64,
}

impl Active {
    fn words(self) -> String {
        format!("{} {} {:#x} {:#x}", self.n, self.k, self.x, self.z)
    }

    fn string(self) -> PauliString {
        let mut p = PauliString::new(self.n);
        if self.n > 0 {
            (p.x[0], p.z[0]) = (self.x, self.z);
        }
        p.set_phase(self.k as i32);
        p
    }

    fn is_identity(self) -> bool {
        self.x == 0 && self.z == 0
    }

    fn action(self) -> Result<ActivePauliAction, TicitError> {
        ActivePauliAction::new(&self.string())
    }
}

fn done(p: &PauliString) -> String {
    let word = |words: &[u64]| words.first().copied().unwrap_or(0);
    let (x, z) = (word(&p.x), word(&p.z));
    format!("done {} {} {x:#x} {z:#x}", p.nqubits, p.phase_exponent())
}

fn bit(value: bool) -> u8 {
    value.into()
}

fn truth(value: bool) -> String {
    bit(value).to_string()
}

fn float(x: f64) -> String {
    match x.is_nan() {
        true => "7ff8000000000000".into(),
        false => format!("{:016x}", x.to_bits()),
    }
}

fn complex(c: Complex64) -> String {
    format!("{} {}", float(c.re), float(c.im))
}

fn argument(x: f64) -> String {
    format!("0x{}", float(x))
}

fn buffers(all: &[&Vec<f64>]) -> String {
    let words = |buffer: &Vec<f64>| -> String {
        buffer.iter().map(|&x| format!(" {}", float(x))).collect()
    };
    all.iter()
        .map(|buffer| format!(" |{}", words(buffer)))
        .collect()
}

fn fields(action: &ActivePauliAction) -> String {
    let phases = complex(action.even_phase) + " " + &complex(action.odd_phase);
    let (x, z) = (action.xmask, action.zmask);
    let odd = bit(action.xz_overlap_odd);
    format!("done {} {x:#x} {z:#x} {phases} {odd}", action.nqubits)
}

fn measurement_fields(kernel: &MeasurementKernel) -> String {
    let action = fields(&kernel.action);
    let (pivot, diagonal) = (kernel.pivot, bit(kernel.is_diagonal));
    let minus = kernel.diagonal_phase_bit;
    let outputs = kernel.out_dim;
    let w = complex(kernel.nondiagonal_coefficient1_even);
    format!("{action} {pivot} {diagonal} {minus} {outputs} {w}")
}

/// The number of an error: 6 too wide, 7 not Hermitian, 9 no qubit to measure, 10 no
/// such pivot, 11 identity, 12 a pivot that the Pauli does not have.
fn refusal(error: &TicitError) -> String {
    let number = match error.message() {
        "Pauli string has too many qubits for active-state basis indexing" => 6,
        "active qubit count is too large for machine basis indices" => 6,
        "Pauli rotation requires P^2 == I" => 7,
        "cannot build an active measurement kernel for k == 0" => 9,
        "active measurement pivot is out of range" => 10,
        "cannot build an active measurement kernel for identity Pauli" => 11,
        "nondiagonal active measurement pivot must have an X component" => 12,
        "diagonal active measurement pivot must have a Z component" => 12,
        message => panic!("{message}"),
    };
    format!("refused {number}")
}

fn shown<T>(answer: Result<T, TicitError>, show: impl Fn(&T) -> String) -> String {
    answer.as_ref().map_or_else(refusal, show)
}

// --------------------------------------------------------------- questions

/// The two files, and what chooses the cases.
struct Recorder {
    record: Record,
    dice: Dice,
    turn: usize,
}

impl Recorder {
    fn action(&mut self, p: Active) {
        let mask = |word: u64| format!("{word:#x} 0x0 0x0 0x0");
        let question = format!("action {} {} {} {}", p.n, p.k, mask(p.x), mask(p.z));
        self.record.ask(question, shown(p.action(), fields));
    }

    fn rotation_kernel(&mut self, p: Active, angle: f64) {
        let made = p.action().and_then(|a| RotationKernel::new(&a, angle));
        let (c, s) = (argument(angle.cos()), argument(angle.sin()));
        let show = |kernel: &RotationKernel| {
            let (diagonal, uniform) = (bit(kernel.is_diagonal), bit(kernel.uniform_imag_pairs));
            let cosine = float(kernel.cos_kernel_angle);
            let sine = float(kernel.sin_kernel_angle);
            let m = complex(kernel.minus_even_coefficient);
            let action = fields(&kernel.action);
            let pair_bit = kernel.pair_bit;
            format!("{action} {diagonal} {uniform} {pair_bit} {cosine} {sine} {m}")
        };
        let question = format!("rotation_kernel {} {c} {s}", p.words());
        self.record.ask(question, shown(made, show));
    }

    fn with_pivot(&mut self, p: Active, pivot: usize) {
        let made = p
            .action()
            .and_then(|a| MeasurementKernel::with_pivot(&a, pivot));
        let question = format!("with_pivot {} {pivot}", p.words());
        self.record.ask(question, shown(made, measurement_fields));
    }

    fn with_own_pivot(&mut self, p: Active) {
        let made = MeasurementKernel::from_pauli(&p.string());
        let question = format!("from_pauli {}", p.words());
        self.record.ask(question, shown(made, measurement_fields));
    }

    fn rotate(&mut self, p: Active, sign: bool, angle: f64) {
        let kernel = RotationKernel::new(&p.action().unwrap(), angle).unwrap();
        let (mut re, mut im) = self.state(p.n, p.n);
        let c = argument(kernel.cos_kernel_angle);
        let s = argument(kernel.sin_kernel_angle);
        let lent = buffers(&[&re, &im]);
        rust::rotate_contiguous_active(&mut re, &mut im, 1 << p.n, &kernel, sign);
        let left = buffers(&[&re, &im]);
        let question = format!("rotate {} {} {c} {s}{lent}", p.words(), bit(sign));
        self.record.ask(question, format!("done{left}"));
    }

    fn promote(&mut self, n: usize, c: f64, q: f64) {
        let (mut re, mut im) = self.state(n, n + 1);
        let lent = buffers(&[&re, &im]);
        rust::promote_contiguous_active(&mut re, &mut im, 1 << n, c, q);
        let left = buffers(&[&re, &im]);
        let question = format!("promote {n} {} {}{lent}", argument(c), argument(q));
        self.record.ask(question, format!("done{left}"));
    }

    fn project(&mut self, p: Active, pivot: usize, branch: bool, invnorm: f64) {
        let kernel = MeasurementKernel::with_pivot(&p.action().unwrap(), pivot).unwrap();
        let (mut re, mut im) = self.state(p.n, p.n);
        // A diagonal projection needs no scratch.
        let room = kernel.out_dim * usize::from(!kernel.is_diagonal);
        let (mut sre, mut sim) = (self.filling(room, 4.0), self.filling(room, -4.0));
        let lent = buffers(&[&re, &im, &sre, &sim]);
        if kernel.is_diagonal {
            rust::project_diagonal_contiguous(&mut re, &mut im, &kernel, branch, invnorm);
        } else {
            rust::project_nondiagonal_contiguous(
                &mut re, &mut im, &mut sre, &mut sim, &kernel, branch, invnorm,
            );
        }
        let left = buffers(&[&re, &im, &sre, &sim]);
        let (v, norm) = (bit(branch), argument(invnorm));
        let question = format!("project {} {pivot} {v} {norm}{lent}", p.words());
        self.record.ask(question, format!("done{left}"));
    }

    fn probability(&mut self, p: Active, pivot: usize, branch: bool) {
        let kernel = MeasurementKernel::with_pivot(&p.action().unwrap(), pivot).unwrap();
        let (re, im) = self.state(p.n, p.n);
        let lent = buffers(&[&re, &im]);
        let probability = match kernel.is_diagonal {
            true => rust::diagonal_probability_contiguous(&re, &im, &kernel, branch),
            false => rust::nondiagonal_probability_contiguous(&re, &im, &kernel, branch),
        };
        let question = format!("probability {} {pivot} {}{lent}", p.words(), bit(branch));
        self.record.ask(question, float(probability) + &lent);
    }

    // ------------------------------------------------------------- choices

    /// The next of a list, going round.
    fn next(&mut self, all: &[f64]) -> f64 {
        self.turn += 1;
        all[self.turn % all.len()]
    }

    /// Numbers around `around`: `room` of them and up to 3 more.
    fn filling(&mut self, room: usize, around: f64) -> Vec<f64> {
        let length = room + self.dice.below(4);
        (0..length).map(|_| around + self.dice.unit()).collect()
    }

    /// One part of an amplitude. The mixes: plain numbers; those and zeros; all finite
    /// kinds; all kinds.
    fn part(&mut self, mix: usize) -> f64 {
        let dice = &mut self.dice;
        let sign = if dice.flip() { -1.0 } else { 1.0 };
        match (mix, dice.below(8)) {
            (1..=3, 0 | 1) => sign * 0.0,
            (2 | 3, 2) => sign * f64::from_bits(1 + dice.word() % (1 << 52)),
            (2 | 3, 3) => sign * (1e308 + 7e307 * dice.unit().abs()),
            (3, 4) => sign * f64::INFINITY,
            (3, 5) => f64::NAN,
            _ => dice.unit(),
        }
    }

    /// A state on `n` qubits, in buffers with room for `room` qubits and up to 3 entries
    /// more. Half of the states are plain, of a norm below 1.
    fn state(&mut self, n: usize, room: usize) -> (Vec<f64>, Vec<f64>) {
        let mix = [0, 0, 0, 0, 1, 1, 2, 3][self.dice.below(8)];
        let scale = 0.5f64.powi(n as i32).sqrt();
        let mut both = [8.0, -8.0].map(|around| self.filling(1 << room, around));
        for entry in both.iter_mut().flat_map(|buffer| &mut buffer[..1 << n]) {
            *entry = self.part(mix) * scale;
        }
        both.into()
    }

    /// All masks of width 2 or less; above that a selection of `count`: no X, no Z, one X,
    /// all Y, any.
    fn masks(&mut self, n: usize, count: usize) -> Vec<(u64, u64)> {
        let size = 1u64 << n;
        if n <= 2 {
            let all = (0..size).flat_map(|x| (0..size).map(move |z| (x, z)));
            return all.collect();
        }
        let each = |kind: usize| {
            let one = 1 << self.dice.below(n);
            let [any, other] = [0; 2].map(|_| self.dice.word() % size);
            match (kind + n) % 8 {
                0 => (0, any | one),
                1 => (any | one, 0),
                2 => (one, other | 1),
                3 => (0, one),
                4 => (one, 0),
                5 => (size - 1, size - 1),
                _ => (any | one, other | 1),
            }
        };
        (0..count).map(each).collect()
    }

    /// The pivots that a measurement may have: all of them, or one where the state is wide.
    fn pivots(&mut self, p: Active) -> Vec<usize> {
        let mask = if p.x != 0 { p.x } else { p.z };
        let all: Vec<_> = (0..p.n).filter(|q| mask >> q & 1 != 0).collect();
        match p.n {
            0..=3 => all,
            _ => vec![all[self.dice.below(all.len())]],
        }
    }

    // --------------------------------------------------------------- cases

    /// Paulis of one word: every letter by every letter, then wider ones.
    fn paulis(&mut self) {
        let mut pairs: Vec<_> = (0..16).map(|i| (1, [i / 8, i / 4, i / 2, i])).collect();
        for n in [0, 2, 3, 31, 61, 62, 63, 64] {
            pairs.extend((0..6).map(|_| (n, [0; 4].map(|_| self.dice.word()))));
        }
        for (n, words) in pairs {
            let [ax, az, bx, bz] =
                words.map(|word| word & u64::MAX.checked_shr(64 - n).unwrap_or(0));
            let [a, b] = [(ax, az), (bx, bz)].map(|(x, z)| {
                let k = self.dice.below(4);
                Active {
                    n: n as usize,
                    k,
                    x,
                    z,
                }
            });
            self.pair(a, b);
        }
    }

    fn pair(&mut self, a: Active, b: Active) {
        let (left, right) = (a.string(), b.string());
        let both = format!("{} {}", a.words(), b.words());
        let ask = &mut |name: &str, words: &str, answer: String| {
            self.record.ask(format!("{name} {words}"), answer);
        };
        ask("mul", &both, done(&(&left * &right)));
        ask(
            "anticommutes",
            &both,
            truth(pauli_anticommutes(&left, &right)),
        );
        ask(
            "is_hermitian",
            &a.words(),
            truth(pauli_squares_to_identity(&left)),
        );
        let exponent = self.dice.below(256);
        let mut turned = left.clone();
        turned.phase_shift(exponent as i32);
        ask(
            "raised",
            &format!("{} {exponent}", a.words()),
            done(&turned),
        );
        if a.n > 0 {
            let q = self.dice.below(a.n);
            let asked = format!("{} {q}", a.words());
            ask("x_bit", &asked, truth(left.xbit(q)));
            ask("z_bit", &asked, truth(left.zbit(q)));
        }
    }

    /// Actions and kernels: every Pauli of width 2 or less, Hermitian or not, at every pivot
    /// and the one past the width; then wider ones, up to what is too wide.
    fn kernels(&mut self) {
        for n in 0..=2 {
            for (x, z) in self.masks(n, 0) {
                for p in (0..4).map(|k| Active { n, k, x, z }) {
                    self.kernels_of(p);
                    (0..=n).for_each(|pivot| self.with_pivot(p, pivot));
                }
            }
        }
        for n in [3, 4, 6, 12, 31, 47, 60, 61, 62] {
            for (x, z) in self.masks(n, 8) {
                for p in hermitian(n, x, z) {
                    self.kernels_of(p);
                    let pivot = self.dice.below(n);
                    self.with_pivot(p, pivot);
                }
            }
        }
        for n in [63, 64] {
            self.action(hermitian(n, 1, 0)[0]);
        }
    }

    fn kernels_of(&mut self, p: Active) {
        self.action(p);
        let angle = self.next(&ANGLES);
        self.rotation_kernel(p, angle);
        // With no qubits to measure the Rust names the identity, not the width.
        if p.n > 0 {
            self.with_own_pivot(p);
        }
    }

    fn rotations(&mut self) {
        for n in 0..=WIDEST {
            let mut asked = self.masks(n, [0, 0, 0, 9, 7, 6, 5][n]);
            if n == 3 {
                asked.push((0, 0));
            }
            for p in asked.into_iter().flat_map(|(x, z)| hermitian(n, x, z)) {
                for sign in [false, true] {
                    let angle = self.next(&ANGLES);
                    self.rotate(p, sign, angle);
                    for _ in n..=2 {
                        let angle = 7.0 * self.dice.unit();
                        self.rotate(p, sign, angle);
                    }
                }
            }
        }
    }

    fn promotions(&mut self) {
        for n in 0..=WIDEST {
            for _ in 0..[6, 6, 6, 5, 4, 3, 2][n] {
                let (c, q) = (
                    self.next(&COEFFICIENTS),
                    self.dice.below(COEFFICIENTS.len()),
                );
                self.promote(n, c, COEFFICIENTS[q]);
                let angle = 7.0 * self.dice.unit();
                self.promote(n, angle.cos(), angle.sin());
            }
        }
    }

    /// Projections and probabilities.
    fn measurements(&mut self) {
        for n in 1..=WIDEST {
            let masks = self.masks(n, [0, 0, 0, 8, 7, 6, 4][n]);
            let asked = masks.into_iter().flat_map(|(x, z)| hermitian(n, x, z));
            for p in asked.filter(|p| !p.is_identity()) {
                for pivot in self.pivots(p) {
                    for branch in [false, true] {
                        let invnorm = 1.0 + self.dice.unit().abs();
                        self.project(p, pivot, branch, invnorm);
                        self.probability(p, pivot, branch);
                        if n <= 2 {
                            let invnorm = self.next(&INVNORMS);
                            self.project(p, pivot, branch, invnorm);
                            self.probability(p, pivot, branch);
                        }
                    }
                }
            }
        }
    }
}

/// The two phases that make the masks Hermitian.
fn hermitian(n: usize, x: u64, z: u64) -> [Active; 2] {
    let k = (x & z).count_ones() as usize % 2;
    [k, k + 2].map(|k| Active { n, k, x, z })
}

fn main() {
    assert_eq!(rust::backend_name(), "scalar");
    let mut recorder = Recorder {
        record: Record::default(),
        dice: Dice(20260817),
        turn: 0,
    };
    recorder.paulis();
    recorder.kernels();
    recorder.rotations();
    recorder.promotions();
    recorder.measurements();
    recorder.record.write();
}
