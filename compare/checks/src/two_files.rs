//! E6, through the service's calls. One file is a run with a Pauli as a correction right after start, the other the carried run
//! with the end Pauli as one right before end. Each is listed, and the listing held against what running the file leaves. Both
//! listings are equal text where the files fit and the carried run stays finite from basis 0.

use crate::callers::Who;
use crate::convert::active;
use crate::draw;
use crate::lent::{Lender, Lent};
use crate::listings::{self, Left};
use crate::passed;
use crate::patterns::{filling_bytes, hex, same_bits, written_at_start};
use crate::state::{Buffers, with_state};
use crate::tally::Tally;
use crate::two_ways::{Check, Trial, ensure, lengths, ran, step_by_step};
use model::carry::{carry, carry_step};
use model::dice::Dice;
use model::pauli::Pauli;
use model::run::{LIMIT, LONGEST, Run, Step, end_field, start_field};

/// What `count` counts beside `passed::STEPS`: each has to be seen. All but the first and the last four are counted in finite runs
/// whose files fit, and so are the steps.
pub const WANTED: [&str; 22] = [
    "two files listed",
    "texts that differed in a zero's sign",
    "minus zero that both files leave",
    "no zero left by either file",
    "rotation, x = 0",
    "rotation, z = 0",
    "rotation, x and z not 0",
    "correction, phase kept",
    "correction, phase raised",
    "Pauli of which no letter is left",
    "Pauli without letters",
    "empty list",
    "list that reaches the widest state",
    "start on no qubits",
    "start at the widest state",
    "end on no qubits",
    "end at the widest state",
    "files of 65,536 bytes",
    "files over 65,536 bytes (14)",
    "not finite, and finite at the end",
    "not finite, equal texts",
    "not finite, texts that differ",
];

// ------------------------------------------------------------ what is listed

/// A run that the service takes, and a Pauli on its start qubits.
pub struct Pair {
    pub run: Run,
    pub q: Pauli,
}

impl Pair {
    /// The trial's. In one of eight the amplitudes are multiplied out of the finite floats on the way.
    pub fn draw(dice: &mut Dice, trial: &Trial) -> Self {
        let q = trial.q;
        let run = match dice.once_in(8) {
            true => overflowing(dice, &trial.run),
            false => trial.run.clone(),
        };
        Self { run, q }
    }

    /// On few qubits, and of that many bytes: rotations, which have 37, and corrections and quarter turns, which have 20. What is
    /// left by 20 settles how many rotations: 37 times 13 is 1 modulo 20.
    pub fn of_length(dice: &mut Dice, length: usize) -> Self {
        let width = dice.below(3);
        let body = length - start_field(width).len() - end_field().len();
        let rotations = body * 13 % 20;
        let count = rotations + (body - 37 * rotations) / 20;
        let first = dice.below(count - rotations);
        let steps = (0..count).map(|at| match dice.flip() {
            _ if (first..first + rotations).contains(&at) => draw::rotation(dice, width),
            true => draw::quarter_turn(dice, width),
            false => draw::correction(dice, width),
        });
        let steps = steps.collect();
        let q = draw::pauli(dice, width);
        let run = Run { width, steps };
        Self { run, q }
    }

    pub fn description(&self) -> String {
        let Pauli { n, k, x, z } = self.q;
        let run = hex(&self.run.bytes());
        format!("Q: n {n} k {k} x {x:#x} z {z:#x}, run {run}")
    }
}

/// A qubit that is made and measured at once: each amplitude is multiplied.
fn scaled(n: usize, factor: f64) -> [Step; 2] {
    let [one, zero] = [1.0f64, 0.0].map(f64::to_bits);
    let pauli = Pauli {
        z: 1 << n,
        ..Pauli::identity(n + 1)
    };
    let measured = Step::Projection {
        pauli,
        pivot: n as u8,
        branch: 0,
        invnorm: factor.to_bits(),
    };
    [Step::Promotion { c: one, q: zero }, measured]
}

/// Two such qubits somewhere in the run, where there is room for one; else the run as it is.
fn overflowing(dice: &mut Dice, run: &Run) -> Run {
    let widths = [run.widths(), vec![run.survey().width]].concat();
    let places: Vec<usize> = (0..widths.len()).filter(|&at| widths[at] < LIMIT).collect();
    let mut run = run.clone();
    if !places.is_empty() {
        let at = dice.pick(&places);
        let factors = [(); 2].map(|_| dice.pick(&[1e300, -1e308, f64::MAX]));
        let put_in = factors.map(|factor| scaled(widths[at], factor)).concat();
        run.steps.splice(at..at, put_in);
    }
    run
}

// ----------------------------------------------------------------- the checks

/// What was seen where nothing was wrong.
pub struct Listed {
    pub end: Pauli,
    /// The bytes of each file.
    pub length: usize,
    /// The premise: each amplitude of the carried run is finite, at the start and after each step.
    pub finite: bool,
    pub left: [Left; 2],
    pub equal: bool,
}

impl Listed {
    pub fn fits(&self) -> bool {
        self.length <= LONGEST
    }
}

pub fn compare(lender: &Lender, dice: &mut Dice, pair: &Pair) -> Check<Listed> {
    let bytes = pair.run.bytes();
    let lent_run = lender.lend(dice, &bytes);
    let before = filling_bytes(dice, bytes.len());
    let mut out = lender.lend(dice, &before);
    let answered = Who::Service.carry(&lent_run, active(pair.q), &mut out);
    let (carried, end) = carry(&pair.run, pair.q);
    let right = answered == Ok(active(end)) && out[..] == carried.bytes();
    ensure(right, "carrying is not the model's")?;

    let finite = stays_finite(lender, dice, &carried, &out)?;
    let files = [
        with_correction(&lent_run, start_field(pair.run.width).len(), pair.q),
        with_correction(&out, out.len() - end_field().len(), end),
    ];
    let [first, second] = &files;
    let (left, text) = listed(lender, dice, first, "the Pauli, then the run")?;
    let (other_left, other_text) = listed(lender, dice, second, "the carried run, then its end")?;
    let seen = Listed {
        end,
        length: first.len(),
        finite,
        left: [left, other_left],
        equal: text == other_text,
    };
    let due = finite || !seen.fits();
    ensure(seen.equal || !due, "the two listings are not equal text")?;
    let refused = text == b"refused 14\n";
    ensure(refused != seen.fits(), "14 is not for the length alone")?;
    Ok(seen)
}

/// A correction put in at this place.
fn with_correction(bytes: &[u8], at: usize, pauli: Pauli) -> Vec<u8> {
    let (before, behind) = bytes.split_at(at);
    let correction = Step::Correction { pauli }.field();
    [before, &correction, behind].concat()
}

/// From amplitude (1, 0) at basis 0.
fn stays_finite(lender: &Lender, dice: &mut Dice, run: &Run, bytes: &[u8]) -> Check<bool> {
    let seen = run.survey();
    let mut state = [(); 2].map(|_| vec![0.0; 1 << run.width]);
    state[0][0] = 1.0;
    let lengths = lengths(dice, seen);
    let contents = with_state(dice, &state, lengths);
    let mut whole = Buffers::lend(lender, dice, &contents);
    ran(
        &mut whole,
        Who::Service,
        bytes,
        seen,
        &contents,
        "carried run",
    )?;
    step_by_step(lender, dice, Who::Service, run, &contents, &whole)
}

/// What running the file leaves, and the text that listing it writes, which is the model's of that.
fn listed(lender: &Lender, dice: &mut Dice, file: &[u8], name: &str) -> Check<(Left, Vec<u8>)> {
    let left = listings::left(file);
    let text = listings::text(&left);
    let room = text.len() + dice.below(4);
    let before = filling_bytes(dice, room);
    let mut out = lender.lend(dice, &before);
    let lent_file = lender.lend(dice, file);
    let answered = naribhush::list_run(&lent_file, &mut out);
    let what = || format!("{name}: listing answers {answered:?}, not {}", text.len());
    ensure(answered == Ok(text.len()), &what())?;
    ensure(lent_file[..] == *file, "listing wrote the file")?;
    if !written_at_start(&out, text.as_bytes(), &before) {
        return Err(format!("{name}: {}", first_difference(&out, &text)));
    }
    Ok((left, text.into_bytes()))
}

/// The first line of the text that was written otherwise.
pub fn first_difference(out: &Lent<u8>, text: &str) -> String {
    let written = String::from_utf8_lossy(&out[..text.len()]);
    let mut lines = written.lines().zip(text.lines());
    match lines.find(|(written, told)| written != told) {
        Some((written, told)) => format!("listed {written:?}, not {told:?}"),
        None => "listing wrote past the text".to_string(),
    }
}

// --------------------------------------------------------------- what was seen

/// Counts the files, and where they fit and stay finite the list, the zeros and what the Pauli does at each step.
pub fn count(seen: &mut Tally, pair: &Pair, listed: &Listed) {
    seen.add("two files listed", 1);
    seen.count_met(&of_files(listed));
    let [Ok(first), Ok(second)] = &listed.left else {
        return;
    };
    if listed.finite {
        seen.count_met(&of_zeros(first, second));
        seen.count_met(&of_list(pair, listed));
        let mut held = pair.q;
        for &step in &pair.run.steps {
            seen.add_each(&passed::names(held, step));
            seen.add_each(masks(step).as_slice());
            held = carry_step(held, step).1;
        }
    }
}

type Met = (bool, &'static str);
type Parts = [Vec<f64>; 2];

fn of_files(listed: &Listed) -> [Met; 5] {
    let (fits, equal) = (listed.fits(), listed.equal);
    let lost = fits && !listed.finite;
    let back = |part: &Vec<f64>| part.iter().all(|value| value.is_finite());
    let ends_finite = |left: &Left| left.as_ref().is_ok_and(|parts| parts.iter().all(back));
    [
        (
            listed.finite && listed.length == LONGEST,
            "files of 65,536 bytes",
        ),
        (!fits, "files over 65,536 bytes (14)"),
        (
            lost && listed.left.iter().all(ends_finite),
            "not finite, and finite at the end",
        ),
        (lost && equal, "not finite, equal texts"),
        (lost && !equal, "not finite, texts that differ"),
    ]
}

/// The numbers are the same here: what differs in bits is a zero.
fn of_zeros(first: &Parts, second: &Parts) -> [Met; 3] {
    let mut pairs = first.iter().zip(second);
    let same = pairs.all(|(first, second)| same_bits(first, second));
    let any = |parts: &Parts, what: fn(&f64) -> bool| parts.iter().flatten().any(what);
    let minus_zero = any(first, |part| part.to_bits() == (-0.0f64).to_bits());
    [
        (!same, "texts that differed in a zero's sign"),
        (same && minus_zero, "minus zero that both files leave"),
        (
            !any(first, |part| *part == 0.0),
            "no zero left by either file",
        ),
    ]
}

fn of_list(pair: &Pair, listed: &Listed) -> [Met; 8] {
    let seen = pair.run.survey();
    let (letters, left) = (!pair.q.is_identity(), !listed.end.is_identity());
    [
        (letters && !left, "Pauli of which no letter is left"),
        (!letters, "Pauli without letters"),
        (seen.steps == 0, "empty list"),
        (seen.greatest == LIMIT, "list that reaches the widest state"),
        (pair.run.width == 0, "start on no qubits"),
        (pair.run.width == LIMIT, "start at the widest state"),
        (seen.width == 0, "end on no qubits"),
        (seen.width == LIMIT, "end at the widest state"),
    ]
}

/// Which of its three formulas a rotation goes by.
fn masks(step: Step) -> Option<&'static str> {
    let Step::Rotation { pauli, .. } = step else {
        return None;
    };
    Some(match (pauli.x, pauli.z) {
        (0, _) => "rotation, x = 0",
        (_, 0) => "rotation, z = 0",
        _ => "rotation, x and z not 0",
    })
}

#[cfg(test)]
mod tests {
    use super::*;
    use crate::letters::{X, Z};

    fn told(width: usize, steps: Vec<Step>, q: Pauli) -> (Listed, Tally) {
        let run = Run { width, steps };
        let (pair, lender) = (Pair { run, q }, Lender::new(false));
        let listed = compare(&lender, &mut Dice(1), &pair).expect("E6");
        let mut seen = Tally::default();
        count(&mut seen, &pair, &listed);
        (listed, seen)
    }

    /// Whether a file left this, in bits.
    fn left(told: &Left, wanted: [[f64; 2]; 2]) -> bool {
        let parts = told.as_ref().expect("accepted").iter();
        parts.zip(&wanted).all(|(told, part)| same_bits(told, part))
    }

    /// Z before a rotation by X with c 0.6 and s 0.8, by hand: the files leave zeros of two signs, and are listed alike.
    #[test]
    fn a_zero_of_two_signs() {
        let (c, s) = (0.6f64.to_bits(), 0.8f64.to_bits());
        let (pauli, sign) = (X, 0);
        let (listed, seen) = told(1, vec![Step::Rotation { pauli, sign, c, s }], Z);
        assert!(left(&listed.left[0], [[0.6, 0.0], [0.0, -0.8]]));
        assert!(left(&listed.left[1], [[0.6, -0.0], [0.0, -0.8]]));
        assert!(listed.finite && listed.equal && listed.end == Z);
        let names = [
            "texts that differed in a zero's sign",
            "rotation, sign flipped",
            "rotation, z = 0",
        ];
        for name in names {
            assert_eq!(seen.count(name), 1, "{name}");
        }
        let text = listings::text(&listed.left[1]);
        let amplitudes =
            "0 3fe3333333333333 0000000000000000\n1 0000000000000000 bfe999999999999a\n";
        assert_eq!(text, format!("qubits 1\n{amplitudes}"));
    }

    /// An infinity at basis 1 on one side, at basis 0 on the other: the projection of X multiplies it by a zero of w on one alone.
    #[test]
    fn not_finite() {
        let fired = Step::Correction { pauli: X };
        let projection = Step::Projection {
            pauli: X,
            pivot: 0,
            branch: 0,
            invnorm: 1.0f64.to_bits(),
        };
        let twice = [scaled(1, 1e308), scaled(1, 1e308)].concat();
        let (listed, seen) = told(1, twice.clone(), X);
        assert!(!listed.finite && listed.equal);
        assert_eq!(seen.count("not finite, equal texts"), 1);
        let steps = [&twice[..], &[fired, projection]].concat();
        let (listed, seen) = told(1, steps, X);
        assert!(!listed.finite && !listed.equal);
        assert_eq!(seen.count("not finite, texts that differ"), 1);
    }

    #[test]
    fn lengths_about_the_longest() {
        for length in LONGEST - 30..=LONGEST {
            let pair = Pair::of_length(&mut Dice(length as u64), length);
            assert_eq!(pair.run.bytes().len(), length);
        }
    }
}
