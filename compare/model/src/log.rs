//! E10: the chip's frame log, and whether one is right. A log has one byte, 0 or 1, for each rotation and projection in run order,
//! the sign or the branch that was used, and behind them the 17 bytes of the end Pauli. No other step has a byte.

use crate::carry::{accepted, carry};
use crate::pauli::Pauli;
use crate::run::{Caller, Refusal, Run, Step, pauli_bytes, pauli_of};

/// The bytes of a Pauli.
const PAULI: usize = 17;

/// The sign or the branch of a step that has one.
fn flag(step: Step) -> Option<u8> {
    match step {
        Step::Rotation { sign, .. } => Some(sign),
        Step::Projection { branch, .. } => Some(branch),
        Step::Promotion { .. } | Step::Correction { .. } | Step::QuarterTurn { .. } => None,
    }
}

/// How many bytes suit the run, whatever Pauli is carried through it.
fn length(run: &Run) -> usize {
    let flags = run.steps.iter().filter(|step| flag(**step).is_some());
    flags.count() + PAULI
}

/// What a log says.
#[derive(Clone, Debug, PartialEq, Eq)]
struct Log {
    flags: Vec<bool>,
    end: Pauli,
}

fn bit(byte: u8) -> Option<bool> {
    match byte {
        0 => Some(false),
        1 => Some(true),
        _ => None,
    }
}

impl Log {
    /// What carrying makes of the run.
    fn carried(run: &Run, q: Pauli) -> Self {
        let (carried, end) = carry(run, q);
        let flags = carried.steps.into_iter().filter_map(flag);
        let flags = flags.map(|flag| flag == 1).collect();
        Self { flags, end }
    }

    fn bytes(&self) -> Vec<u8> {
        let flags: Vec<u8> = self.flags.iter().copied().map(u8::from).collect();
        [flags, pauli_bytes(self.end)].concat()
    }

    /// Of bytes that suit a run with this last width. None where they say nothing that carrying could agree with: a byte is over 1,
    /// or the last 17 are no Pauli of that width.
    fn read(bytes: &[u8], last: usize) -> Option<Self> {
        let (flags, end) = bytes.split_at(bytes.len() - PAULI);
        let end = pauli_of(end, last);
        let flags: Option<Vec<bool>> = flags.iter().copied().map(bit).collect();
        let flags = flags?;
        end.is_pauli().then_some(Self { flags, end })
    }
}

// --------------------------------------------------------------- the calls

/// What logging answers, with room for `room` bytes: the run's refusal, then 3, 4 and 16, which have no place; or the right log.
pub fn logging(bytes: &[u8], caller: Caller, q: Pauli, room: usize) -> Result<Vec<u8>, Refusal> {
    let run = accepted(bytes, caller, q)?;
    match room < length(&run) {
        true => Err(Refusal::of(16)),
        false => Ok(Log::carried(&run, q).bytes()),
    }
}

/// What judging answers: the run's refusal, then 3, 4 and 24, which have no place; or whether all that the log says agrees with
/// carrying.
pub fn judging(bytes: &[u8], caller: Caller, q: Pauli, log: &[u8]) -> Result<bool, Refusal> {
    let run = accepted(bytes, caller, q)?;
    match log.len() != length(&run) {
        true => Err(Refusal::of(24)),
        false => Ok(Log::read(log, run.survey().width) == Some(Log::carried(&run, q))),
    }
}

#[cfg(test)]
mod tests {
    use super::*;
    use crate::dice::Dice;
    use crate::run::{EMULATOR, LONGEST, SERVICE};
    use crate::samples::{
        self, PROMOTION, X, Y, Z, any_pauli, any_run, correction, pauli, projection, quarter_turn,
        rotation,
    };

    const CALLERS: [Caller; 2] = [SERVICE, EMULATOR];

    /// The flags, then k, and the two masks as their first two bytes, the other six being 0.
    fn log(flags: &[u8], k: u8, x: [u8; 2], z: [u8; 2]) -> Vec<u8> {
        let mask = |low: [u8; 2]| [&low[..], &[0; 6]].concat();
        [flags.to_vec(), vec![k], mask(x), mask(z)].concat()
    }

    /// Both callers log this, where there is room for it; and of all logs that are other by one byte, or by none, they take this.
    fn logs(run: &Run, q: Pauli, told: &[u8]) {
        let bytes = run.bytes();
        for caller in CALLERS {
            let with_room = |room| logging(&bytes, caller, q, room);
            for room in [told.len(), told.len() + 1, LONGEST] {
                assert_eq!(with_room(room), Ok(told.to_vec()));
            }
            for room in [0, 16, told.len() - 1] {
                assert_eq!(with_room(room), Err(Refusal::of(16)));
            }
            let judged = |log: &[u8]| judging(&bytes, caller, q, log);
            assert_eq!(judged(told), Ok(true));
            for at in 0..told.len() {
                for xor in 1..=255 {
                    let mut damaged = told.to_vec();
                    damaged[at] ^= xor;
                    assert_eq!(judged(&damaged), Ok(false));
                }
            }
            let suits = |length: usize| length == told.len();
            for length in (0..told.len() + 40).filter(|length| !suits(*length)) {
                let mut other = told.to_vec();
                other.resize(length, 0);
                assert_eq!(judged(&other), Err(Refusal::of(24)));
            }
        }
    }

    /// From one qubit.
    fn one_logs(steps: &[Step], q: Pauli, told: &[u8]) {
        logs(&samples::run(1, steps), q, told);
    }

    /// The scope's examples of carrying.
    #[test]
    fn examples_of_the_scope() {
        one_logs(&[rotation(Z, 0)], X, &log(&[1], 0, [1, 0], [0, 0]));
        for (q, branch, used, k) in [(Z, 0, 1, 0), (X, 1, 1, 2), (Y, 0, 1, 1)] {
            let told = log(&[used], k, [0, 0], [0, 0]);
            one_logs(&[projection(X, 0, branch)], q, &told);
        }
    }

    /// The Pauli alone: no steps, and steps without a byte.
    #[test]
    fn no_flags() {
        let nothing = samples::run(0, &[]);
        logs(&nothing, pauli(0, 3, 0, 0), &log(&[], 3, [0, 0], [0, 0]));
        one_logs(&[], Y.raised(1), &log(&[], 2, [1, 0], [1, 0]));
        // Y, then Y and I, then its minus, which a quarter turn of Z makes X.
        let steps = [
            PROMOTION,
            correction(pauli(2, 1, 1, 0)),
            quarter_turn(pauli(2, 0, 0, 1)),
        ];
        one_logs(&steps, Y, &log(&[], 0, [1, 0], [0, 0]));
    }

    /// A kept and a changed sign of either kind, and a step between them that has no byte.
    #[test]
    fn rotations() {
        let steps = [
            rotation(X, 0),
            rotation(X, 1),
            PROMOTION,
            rotation(pauli(2, 0, 0, 1), 0),
            rotation(pauli(2, 0, 0, 1), 1),
        ];
        one_logs(&steps, X, &log(&[0, 1, 1, 0], 0, [1, 0], [0, 0]));
    }

    /// XZ past a measurement of ZZ, of which the second qubit is the pivot, flips the branch to 0 and is X on the first qubit times
    /// its Z; a rotation by X is flipped by that, and so is the branch of X: 2 for moving that X past the Z, and 2 for the branch.
    #[test]
    fn in_run_order() {
        let measured = projection(pauli(2, 0, 0, 3), 1, 1);
        let steps = [measured, rotation(X, 0), projection(X, 0, 0)];
        let q = pauli(2, 0, 1, 2);
        let run = samples::run(2, &steps[..1]);
        logs(&run, q, &log(&[0], 0, [1, 0], [1, 0]));
        let run = samples::run(2, &steps);
        logs(&run, q, &log(&[0, 1, 1], 0, [0, 0], [0, 0]));
    }

    /// The lower byte of a mask comes first, and x before z.
    #[test]
    fn masks() {
        let bytes = samples::run(12, &[]).bytes();
        let q = pauli(12, 1, 0x801, 0x402);
        let told = log(&[], 1, [1, 8], [2, 4]);
        assert_eq!(logging(&bytes, SERVICE, q, 17), Ok(told.clone()));
        assert_eq!(judging(&bytes, SERVICE, q, &told), Ok(true));
        let swapped = log(&[], 1, [2, 4], [1, 8]);
        assert_eq!(judging(&bytes, SERVICE, q, &swapped), Ok(false));
        let turned = log(&[], 1, [8, 1], [4, 2]);
        assert_eq!(judging(&bytes, SERVICE, q, &turned), Ok(false));
    }

    /// A log in which nothing was flipped is right where nothing is, and two logs of one run are each right for their own Pauli.
    #[test]
    fn whoever_made_the_log() {
        let steps = [rotation(X, 0), rotation(Z, 0)];
        let bytes = samples::run(1, &steps).bytes();
        for (flags, right) in [
            ([0, 1], X),
            ([1, 0], Z),
            ([1, 1], Y),
            ([0, 0], Pauli::identity(1)),
        ] {
            for q in [X, Y, Z, Pauli::identity(1)] {
                let told = log(&flags, q.k, [q.x as u8, 0], [q.z as u8, 0]);
                assert_eq!(judging(&bytes, SERVICE, q, &told), Ok(q == right));
            }
        }
    }

    /// The run's own with their places, then 3 and 4, then 16 or 24: none of these has a place.
    #[test]
    fn rows() {
        let run = samples::run(1, &[rotation(X, 0)]);
        let mut trailing = run.bytes();
        trailing.push(0);
        let place = trailing.len() - 1;
        for (q, row) in samples::TO_CARRY {
            for length in [0, 17, 18, 19] {
                let suits = |right: bool, own| match (row, right) {
                    (Some(row), _) => Some(Refusal::of(row)),
                    (None, false) => Some(Refusal::of(own)),
                    (None, true) => None,
                };
                let log = vec![0; length];
                for caller in CALLERS {
                    let told = logging(&run.bytes(), caller, q, length);
                    assert_eq!(told.err(), suits(length >= 18, 16));
                    let told = judging(&run.bytes(), caller, q, &log);
                    assert_eq!(told.err(), suits(length == 18, 24));
                    let own = Refusal::at(14, place);
                    assert_eq!(logging(&trailing, caller, q, length), Err(own));
                    assert_eq!(judging(&trailing, caller, q, &log), Err(own));
                }
            }
        }
    }

    /// A run that the emulator does not take is 21 before 3, 4, 16 and 24.
    #[test]
    fn too_wide_for_the_emulator() {
        let bytes = samples::run(6, &[PROMOTION]).bytes();
        let cases = [
            (pauli(6, 0, 0, 0), 17, None),
            (pauli(6, 0, 0, 0), 0, Some([16, 24])),
            (pauli(6, 4, 0, 0), 0, Some([3, 3])),
            (pauli(7, 0, 0, 0), 0, Some([4, 4])),
        ];
        for (q, length, rows) in cases {
            let log = vec![0; length];
            let answers = |caller| {
                let logged = logging(&bytes, caller, q, length);
                [logged.err(), judging(&bytes, caller, q, &log).err()]
            };
            let told = rows.map_or([None; 2], |rows| rows.map(|row| Some(Refusal::of(row))));
            assert_eq!(answers(SERVICE), told);
            assert_eq!(answers(EMULATOR), [Some(Refusal::at(21, 4)); 2]);
        }
    }

    // ------------------------------------------------------ random runs

    /// A log of the right length is never refused, and right where its bytes are those of the right log: what a log says, read as
    /// the paper has it, comes to that. The flags are the carried run's bytes where signs and branches stand.
    #[test]
    fn right_where_equal() {
        let mut dice = Dice(10);
        let mut counts = [0; 2];
        for _ in 0..4000 {
            let run = any_run(&mut dice, 12);
            let [q, other] = [(); 2].map(|_| any_pauli(&mut dice, run.width));
            let [right, made] = [q, other].map(|q| {
                let told = logging(&run.bytes(), SERVICE, q, LONGEST);
                told.expect("accepted")
            });
            let (carried, end) = carry(&run, q);
            let bytes = carried.bytes();
            let flags = carried.flags_at().into_iter().map(|at| bytes[at]);
            let flags: Vec<u8> = flags.collect();
            assert_eq!(right, [flags, pauli_bytes(end)].concat());
            let judged = judging(&run.bytes(), SERVICE, q, &made);
            assert_eq!(judged, Ok(made == right));
            counts[usize::from(made == right)] += 1;
        }
        assert!(counts.iter().all(|&count| count > 100), "{counts:?}");
    }
}
