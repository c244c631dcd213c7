//! E7: what is reported of a step, and the lines that list a run's steps. A step's number counts from 0 at the first field after
//! start; its frame is the Pauli carried so far, past the steps before it and not past the step itself.

use crate::carry::{accepted, carry, carry_step};
use crate::pauli::Pauli;
use crate::run::{Caller, Refusal, Run, SERVICE, Step};

/// Of a sign or a branch.
#[derive(Clone, Copy, Debug, PartialEq, Eq)]
pub struct Flag {
    pub changed: bool,
    /// The qubits on which the frame and the step's Pauli anticommute.
    pub mask: u64,
}

/// A step with its frame. `flag` is none where the report is "no flag".
#[derive(Clone, Copy, Debug, PartialEq, Eq)]
pub struct Told {
    pub step: Step,
    pub frame: Pauli,
    pub flag: Option<Flag>,
}

/// Every step of a run that a Pauli is carried past, and the frame at the end.
#[derive(Clone, Debug, PartialEq, Eq)]
pub struct Passage {
    pub steps: Vec<Told>,
    pub end: Pauli,
}

// ---------------------------------------------------------------- letters

const LETTERS: [char; 4] = ['I', 'X', 'Y', 'Z'];

/// Whether two letters on a qubit anticommute, both in the order of `LETTERS`.
const ANTICOMMUTE: [[bool; 4]; 4] = [
    [false, false, false, false],
    [false, false, true, true],
    [false, true, false, true],
    [false, true, true, false],
];

/// Where in `LETTERS` the qubit's letter stands.
fn letter(p: Pauli, qubit: usize) -> usize {
    let has = |mask: u64| mask >> qubit & 1 == 1;
    match (has(p.x), has(p.z)) {
        (false, false) => 0,
        (true, false) => 1,
        (true, true) => 2,
        (false, true) => 3,
    }
}

fn anticommute_on(a: Pauli, b: Pauli, qubit: usize) -> bool {
    ANTICOMMUTE[letter(a, qubit)][letter(b, qubit)]
}

/// Of two Paulis on the same qubits.
fn anticommuting_qubits(a: Pauli, b: Pauli) -> u64 {
    let apart = (0..a.n).filter(|&qubit| anticommute_on(a, b, qubit));
    apart.map(|qubit| 1 << qubit).sum()
}

/// The coefficient, which is the phase less one for each Y, and the letters; I for no qubits.
pub fn shown(p: Pauli) -> String {
    let mut letters: String = (0..p.n).map(|qubit| LETTERS[letter(p, qubit)]).collect();
    let ys = letters.matches('Y').count();
    if letters.is_empty() {
        letters.push('I');
    }
    let coefficient = ["", "i*", "-", "-i*"][(p.k as usize + 3 * ys) % 4];
    format!("{coefficient}{letters}")
}

// ---------------------------------------------------------------- reports

/// The word for a step, and its Pauli.
fn named(step: Step) -> (&'static str, Option<Pauli>) {
    match step {
        Step::Rotation { pauli, .. } => ("rotation", Some(pauli)),
        Step::Promotion { .. } => ("promotion", None),
        Step::Projection { pauli, .. } => ("projection", Some(pauli)),
        Step::Correction { pauli } => ("correction", Some(pauli)),
        Step::QuarterTurn { pauli } => ("quarter-turn", Some(pauli)),
    }
}

/// Whether a flag was changed is seen in its byte of the carried run.
fn passage(run: &Run, q: Pauli) -> Passage {
    let (carried, end) = carry(run, q);
    let fields = run.fields().into_iter().zip(carried.fields()).skip(1);
    let (mut frame, mut steps) = (q, Vec::new());
    for (&step, (own, carried)) in run.steps.iter().zip(fields) {
        let flag = step.flag_at().zip(named(step).1).map(|(at, pauli)| Flag {
            changed: carried[at] != own[at],
            mask: anticommuting_qubits(frame, pauli),
        });
        steps.push(Told { step, frame, flag });
        frame = carry_step(frame, step).1;
    }
    Passage { steps, end }
}

/// The run's refusal, then 3 and 4, which have no place; or all of its steps.
pub fn passing(bytes: &[u8], caller: Caller, q: Pauli) -> Result<Passage, Refusal> {
    let run = accepted(bytes, caller, q)?;
    Ok(passage(&run, q))
}

impl Passage {
    /// What is told of a step, or 20, which has no place.
    pub fn step(&self, number: usize) -> Result<Told, Refusal> {
        self.steps.get(number).copied().ok_or(Refusal::of(20))
    }
}

/// What reporting a step answers.
pub fn reporting(
    bytes: &[u8],
    caller: Caller,
    q: Pauli,
    number: usize,
) -> Result<Option<Flag>, Refusal> {
    let told = passing(bytes, caller, q)?.step(number)?;
    Ok(told.flag)
}

// ------------------------------------------------------------------ lines

fn flag_words(flag: Option<Flag>) -> Vec<String> {
    let Some(Flag { changed, mask }) = flag else {
        return vec!["no flag".to_string()];
    };
    let word = if changed { "changed" } else { "kept" };
    let mut words = vec![word.to_string()];
    if mask != 0 {
        words.push("qubits".to_string());
    }
    let qubits = (0..64).filter(|qubit| mask >> qubit & 1 == 1);
    words.extend(qubits.map(|qubit| qubit.to_string()));
    words
}

/// The line of the step of this number.
fn line(number: usize, told: &Told) -> String {
    let (kind, pauli) = named(told.step);
    let mut words = vec!["step".to_string(), number.to_string(), kind.to_string()];
    words.extend(pauli.map(shown));
    words.extend(["frame".to_string(), shown(told.frame)]);
    words.extend(flag_words(told.flag));
    words.join(" ") + "\n"
}

impl Passage {
    fn lines(&self) -> String {
        let steps = self.steps.iter().enumerate();
        let lines: String = steps.map(|(number, told)| line(number, told)).collect();
        lines + &format!("end frame {}\n", shown(self.end))
    }
}

fn refused(refusal: Refusal) -> String {
    let number = refusal.number;
    match refusal.place {
        Some(place) => format!("refused {number} at {place}\n"),
        None => format!("refused {number}\n"),
    }
}

/// The whole list of what the service passes, or the line of the refusal.
pub fn text(passed: &Result<Passage, Refusal>) -> String {
    match passed {
        Ok(passage) => passage.lines(),
        Err(refusal) => refused(*refusal),
    }
}

/// What the service lists of a run's steps, whatever the room for it.
pub fn step_list(bytes: &[u8], q: Pauli) -> String {
    text(&passing(bytes, SERVICE, q))
}

#[cfg(test)]
mod tests {
    use super::*;
    use crate::dice::Dice;
    use crate::pauli::paulis;
    use crate::run::{EMULATOR, LONGEST};
    use crate::samples::{
        self, PROMOTION, X, Y, Z, any_pauli, any_run, correction, pauli, projection, quarter_turn,
        rotation,
    };

    const CALLERS: [Caller; 2] = [SERVICE, EMULATOR];

    fn changed(mask: u64) -> Option<Flag> {
        let changed = true;
        Some(Flag { changed, mask })
    }

    fn kept(mask: u64) -> Option<Flag> {
        let changed = false;
        Some(Flag { changed, mask })
    }

    /// By both callers these are the reports of the steps, the number behind the last is 20, and these are the lines.
    fn told(run: &Run, q: Pauli, flags: &[Option<Flag>], lines: &[&str]) {
        let bytes = run.bytes();
        for caller in CALLERS {
            let ask = |number| reporting(&bytes, caller, q, number);
            for (number, &flag) in flags.iter().enumerate() {
                assert_eq!(ask(number), Ok(flag), "step {number}");
            }
            for number in [flags.len(), flags.len() + 1, usize::MAX] {
                assert_eq!(ask(number), Err(Refusal::of(20)));
            }
        }
        let lines: String = lines.iter().map(|line| format!("{line}\n")).collect();
        assert_eq!(step_list(&bytes, q), lines);
    }

    /// From one qubit.
    fn one(steps: &[Step], q: Pauli, flags: &[Option<Flag>], lines: &[&str]) {
        told(&samples::run(1, steps), q, flags, lines);
    }

    /// The sixteen pairs: two letters anticommute where neither is I and they differ.
    #[test]
    fn letters() {
        let all = [Pauli::identity(1), X, Y, Z];
        for (row, a) in all.into_iter().enumerate() {
            assert_eq!(shown(a), LETTERS[row].to_string());
            for (column, b) in all.into_iter().enumerate() {
                let apart = row != 0 && column != 0 && row != column;
                assert_eq!(anticommuting_qubits(a, b), u64::from(apart));
                assert_eq!(a.anticommutes(b), apart);
            }
        }
    }

    #[test]
    fn paulis_shown() {
        let cases = [
            (pauli(0, 0, 0, 0), "I"),
            (pauli(0, 3, 0, 0), "-i*I"),
            (pauli(2, 1, 0, 0), "i*II"),
            (X.times(Z), "-i*Y"),
            (Z.times(X), "i*Y"),
            (pauli(3, 1, 0b011, 0b110), "XYZ"),
            (pauli(3, 3, 0b011, 0b110), "-XYZ"),
            (pauli(4, 2, 0b1010, 0b1010), "IYIY"),
            (pauli(12, 0, 1, 1 << 11), "XIIIIIIIIIIZ"),
        ];
        for (p, text) in cases {
            assert_eq!(shown(p), text);
        }
    }

    /// A Pauli without steps, and one that a promotion and a correction pass.
    #[test]
    fn no_flags() {
        one(&[], X.raised(1), &[], &["end frame i*X"]);
        let nothing = samples::run(0, &[]);
        told(&nothing, pauli(0, 2, 0, 0), &[], &["end frame -I"]);
        let lines = [
            "step 0 promotion frame Y no flag",
            "step 1 correction i*XI frame YI no flag",
            "step 2 quarter-turn ZI frame -YI no flag",
            "end frame XI",
        ];
        let steps = [
            PROMOTION,
            correction(pauli(2, 1, 1, 0)),
            quarter_turn(pauli(2, 0, 0, 1)),
        ];
        one(&steps, Y, &[None; 3], &lines);
    }

    #[test]
    fn rotations() {
        let steps = [rotation(Z, 0), rotation(X, 1), rotation(Y.raised(2), 1)];
        let lines = [
            "step 0 rotation Z frame X changed qubits 0",
            "step 1 rotation X frame X kept",
            "step 2 rotation -Y frame X changed qubits 0",
            "end frame X",
        ];
        one(&steps, X, &[changed(1), kept(0), changed(1)], &lines);
    }

    /// Kept, and yet two qubits anticommute; changed by three of them; qubits that share letters and commute are none of them.
    #[test]
    fn several_qubits() {
        let steps = [
            rotation(pauli(3, 3, 0b011, 0b110), 0),
            rotation(pauli(3, 0, 0b111, 0b000), 0),
            rotation(pauli(3, 0, 0b010, 0b101), 1),
            rotation(pauli(3, 0, 0b110, 0b000), 1),
        ];
        let flags = [kept(0b101), changed(0b001), changed(0b100), kept(0)];
        let q = pauli(3, 1, 0b100, 0b001);
        let lines = [
            "step 0 rotation -XYZ frame i*ZIX kept qubits 0 2",
            "step 1 rotation XXX frame i*ZIX changed qubits 0",
            "step 2 rotation ZXZ frame i*ZIX changed qubits 2",
            "step 3 rotation IXX frame i*ZIX kept",
            "end frame i*ZIX",
        ];
        told(&samples::run(3, &steps), q, &flags, &lines);
        let steps = [rotation(pauli(3, 0, 0b111, 0), 0)];
        let lines = [
            "step 0 rotation XXX frame ZZZ changed qubits 0 1 2",
            "end frame ZZZ",
        ];
        let q = pauli(3, 0, 0, 0b111);
        told(&samples::run(3, &steps), q, &[changed(0b111)], &lines);
    }

    /// ZZ is measured, the second qubit being the pivot: the frame is told as it is before, and a step later on one qubit. The
    /// branch is another flag than the sign, in another place of its field.
    #[test]
    fn projections() {
        let steps = [
            projection(pauli(2, 0, 0, 3), 1, 1),
            rotation(X, 0),
            projection(X, 0, 0),
        ];
        let lines = [
            "step 0 projection ZZ frame XX kept qubits 0 1",
            "step 1 rotation X frame X kept",
            "step 2 projection X frame X kept",
            "end frame I",
        ];
        let q = pauli(2, 0, 3, 0);
        let flags = [kept(3), kept(0), kept(0)];
        told(&samples::run(2, &steps), q, &flags, &lines);
        // XZ flips the branch to 0: X on the first qubit, times its Z.
        let lines = [
            "step 0 projection ZZ frame XZ changed qubits 0",
            "step 1 rotation X frame -i*Y changed qubits 0",
            "step 2 projection X frame -i*Y changed qubits 0",
            "end frame I",
        ];
        let q = pauli(2, 0, 1, 2);
        let flags = [changed(1), changed(1), changed(1)];
        told(&samples::run(2, &steps), q, &flags, &lines);
    }

    /// X past a quarter turn of Z is Y: a rotation by Y in front of it is changed, and one behind it is kept.
    #[test]
    fn frame_before_the_step() {
        let steps = [rotation(Y, 0), quarter_turn(Z), rotation(Y, 0)];
        let lines = [
            "step 0 rotation Y frame X changed qubits 0",
            "step 1 quarter-turn Z frame X no flag",
            "step 2 rotation Y frame Y kept",
            "end frame Y",
        ];
        one(&steps, X, &[changed(1), None, kept(0)], &lines);
    }

    /// Qubits of two digits, on as many qubits as the service has.
    #[test]
    fn widest() {
        let all = (1 << 12) - 1;
        let run = samples::run(12, &[rotation(pauli(12, 0, all, 0), 0)]);
        let told = step_list(&run.bytes(), pauli(12, 0, 0, all ^ 1));
        let lines = "step 0 rotation XXXXXXXXXXXX frame IZZZZZZZZZZZ changed qubits 1 2 3 4 5 6 7 8 9 10 11\n\
                     end frame IZZZZZZZZZZZ\n";
        assert_eq!(told, lines);
    }

    /// The run's own with their places, then 3, 4 and 20, which have none; the list has no number to refuse.
    #[test]
    fn rows() {
        let run = samples::run(1, &[rotation(X, 0)]);
        let mut trailing = run.bytes();
        trailing.push(0);
        let place = trailing.len() - 1;
        for (q, row) in samples::TO_CARRY {
            for number in [0, 1, usize::MAX] {
                let told = match (row, number) {
                    (Some(row), _) => Err(Refusal::of(row)),
                    (None, 0) => Ok(kept(0)),
                    (None, _) => Err(Refusal::of(20)),
                };
                for caller in CALLERS {
                    assert_eq!(reporting(&run.bytes(), caller, q, number), told);
                    let own = Err(Refusal::at(14, place));
                    assert_eq!(reporting(&trailing, caller, q, number), own);
                }
            }
            if let Some(row) = row {
                let line = format!("refused {row}\n");
                assert_eq!(step_list(&run.bytes(), q), line);
            }
            let line = format!("refused 14 at {place}\n");
            assert_eq!(step_list(&trailing, q), line);
        }
        assert_eq!(step_list(&[], X), "refused 14 at 0\n");
        assert_eq!(step_list(&[0; LONGEST + 1], X), "refused 14 at 0\n");
    }

    /// A run that the emulator does not take is 21 before 3, 4 and 20.
    #[test]
    fn too_wide_for_the_emulator() {
        let bytes = samples::run(6, &[PROMOTION]).bytes();
        let cases = [
            (pauli(6, 0, 0, 0), 0, Ok(None)),
            (pauli(6, 0, 0, 0), 1, Err(Refusal::of(20))),
            (pauli(6, 4, 0, 0), 1, Err(Refusal::of(3))),
            (pauli(7, 0, 0, 0), 1, Err(Refusal::of(4))),
        ];
        for (q, number, service) in cases {
            assert_eq!(reporting(&bytes, SERVICE, q, number), service);
            let emulator = reporting(&bytes, EMULATOR, q, number);
            assert_eq!(emulator, Err(Refusal::at(21, 4)));
        }
    }

    // ------------------------------------------------------ random runs

    /// A flag was changed where the mask has an odd number of qubits, and nowhere else; a line for each step, and one more.
    #[test]
    fn odd_where_changed() {
        let mut dice = Dice(7);
        let mut counts = [0; 2];
        for _ in 0..4000 {
            let run = any_run(&mut dice, 12);
            let q = any_pauli(&mut dice, run.width);
            let passage = passing(&run.bytes(), SERVICE, q).expect("accepted");
            assert_eq!(passage.end, carry(&run, q).1);
            assert_eq!(passage.lines().lines().count(), run.steps.len() + 1);
            for flag in passage.steps.iter().filter_map(|told| told.flag) {
                assert_eq!(flag.changed, flag.mask.count_ones() % 2 == 1);
                counts[usize::from(flag.changed)] += 1;
            }
        }
        assert!(counts.iter().all(|&count| count > 1000), "{counts:?}");
    }

    /// Every pair of Paulis on two qubits.
    #[test]
    fn masks() {
        for a in paulis(2) {
            for b in paulis(2) {
                let mask = anticommuting_qubits(a, b);
                assert_eq!(a.anticommutes(b), mask.count_ones() % 2 == 1);
            }
        }
    }
}
