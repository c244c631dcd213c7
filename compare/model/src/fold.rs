//! E2: a run without its corrections. The Pauli that they come to is held from step to step, and is left at the end.

use crate::carry::carry_step;
use crate::pauli::Pauli;
use crate::run::{Caller, Refusal, Run, Step, read};

/// One step, and the Pauli held before it: what stands for the step in the folded run, and the Pauli held after it. Of a
/// correction nothing stands there; it acts after the Pauli held.
pub fn fold_step(held: Pauli, step: Step) -> (Option<Step>, Pauli) {
    if let Step::Correction { pauli } = step {
        return (None, pauli.times(held));
    }
    let (left, held) = carry_step(held, step);
    (Some(left), held)
}

/// The folded run, and the end Pauli.
pub fn fold(run: &Run) -> (Run, Pauli) {
    let width = run.width;
    let (mut held, mut steps) = (Pauli::identity(width), Vec::new());
    for &step in &run.steps {
        let (left, next) = fold_step(held, step);
        steps.extend(left);
        held = next;
    }
    (Run { width, steps }, held)
}

/// What folding answers, with room for `room` bytes: the run's refusal, then 16, which has no place; or the folded bytes and the
/// end Pauli. What counts is the folded run's length, not the run's.
pub fn folding(bytes: &[u8], caller: Caller, room: usize) -> Result<(Vec<u8>, Pauli), Refusal> {
    let (folded, end) = fold(&read(bytes, caller)?);
    let folded = folded.bytes();
    match room < folded.len() {
        true => Err(Refusal::of(16)),
        false => Ok((folded, end)),
    }
}

#[cfg(test)]
mod tests {
    use super::*;
    use crate::carry::carry;
    use crate::dice::Dice;
    use crate::run::{EMULATOR, LONGEST, SERVICE};
    use crate::samples::{
        self, PROMOTION, X, Y, Z, any_pauli, any_run, correction, pauli, projection, quarter_turn,
        rotation,
    };

    /// By both callers the run becomes these steps and this end Pauli; their length is room enough, and one byte less is not. What
    /// is left has nothing more to fold.
    fn folds_to(run: &Run, steps: &[Step], end: Pauli) {
        let told = samples::run(run.width, steps);
        assert_eq!(fold(run), (told.clone(), end));
        assert_eq!(fold(&told), (told.clone(), Pauli::identity(end.n)));
        let (bytes, left) = (run.bytes(), told.bytes());
        let corrections = run.steps.len() - steps.len();
        assert_eq!(left.len(), bytes.len() - 20 * corrections);
        for caller in [SERVICE, EMULATOR] {
            let with_room = |room| folding(&bytes, caller, room);
            for room in [left.len(), left.len() + 1, bytes.len(), LONGEST] {
                assert_eq!(with_room(room), Ok((left.clone(), end)));
            }
            for room in [0, left.len() - 1] {
                assert_eq!(with_room(room), Err(Refusal::of(16)));
            }
        }
    }

    /// From one qubit.
    fn one_folds_to(steps: &[Step], left: &[Step], end: Pauli) {
        folds_to(&samples::run(1, steps), left, end);
    }

    /// The run of the scope's example of `bench`, a correction by X: the start and the end field are left.
    #[test]
    fn example_of_the_scope() {
        let mut bytes = vec![1, 1, 0, 1, 5, 17, 0, 0, 1];
        bytes.extend([0; 15]);
        bytes.extend([6, 0, 0]);
        let told = vec![1, 1, 0, 1, 6, 0, 0];
        for caller in [SERVICE, EMULATOR] {
            assert_eq!(folding(&bytes, caller, 7), Ok((told.clone(), X)));
            assert_eq!(folding(&bytes, caller, 6), Err(Refusal::of(16)));
        }
    }

    /// The later correction stands on the left: X, then Z is Z·X, which shows as i*Y; Z, then X is X·Z, which shows as -i*Y.
    #[test]
    fn products() {
        let cases = [
            (X, Z, pauli(1, 2, 1, 1)),
            (Z, X, pauli(1, 0, 1, 1)),
            (X, Y, pauli(1, 3, 0, 1)),
            (Y, X, pauli(1, 1, 0, 1)),
            (Y, Z, pauli(1, 3, 1, 0)),
            (Z, Y, pauli(1, 1, 1, 0)),
            (X, X, pauli(1, 0, 0, 0)),
            (Y, Y, pauli(1, 0, 0, 0)),
            (X.raised(1), X.raised(1), pauli(1, 2, 0, 0)),
            (X.raised(3), Z.raised(2), pauli(1, 3, 1, 1)),
        ];
        for (first, second, end) in cases {
            one_folds_to(&[correction(first), correction(second)], &[], end);
        }
        // X, Y, Z in turn: Z·Y·X is -i.
        one_folds_to(&[X, Y, Z].map(correction), &[], pauli(1, 3, 0, 0));
    }

    /// XI, then ZZ, then YI: Y·Z·X is i on the first qubit, and Z is left on the second.
    #[test]
    fn products_of_two_qubits() {
        let three = [pauli(2, 0, 1, 0), pauli(2, 0, 0, 3), pauli(2, 1, 1, 1)];
        let run = samples::run(2, &three.map(correction));
        folds_to(&run, &[], pauli(2, 1, 0, 2));
    }

    #[test]
    fn nothing_to_fold() {
        for width in 0..=6 {
            folds_to(&samples::run(width, &[]), &[], Pauli::identity(width));
        }
        let steps = [
            rotation(X, 1),
            quarter_turn(Z),
            PROMOTION,
            projection(pauli(2, 0, 3, 0), 0, 1),
        ];
        one_folds_to(&steps, &steps, Pauli::identity(1));
    }

    /// On no qubits a correction is a phase.
    #[test]
    fn no_qubits() {
        let phase = |k| pauli(0, k, 0, 0);
        let steps = [phase(1), phase(2), phase(2)].map(correction);
        folds_to(&samples::run(0, &steps), &[], phase(1));
        let steps = [correction(phase(3)), PROMOTION, correction(X)];
        folds_to(&samples::run(0, &steps), &[PROMOTION], X.raised(3));
    }

    /// A rotation's sign flips by what is held at it, not by what comes later.
    #[test]
    fn rotations() {
        let cases = [
            (vec![correction(X), rotation(Z, 0)], 1, X),
            (vec![correction(X), rotation(Z, 1)], 0, X),
            (vec![correction(Z), rotation(Z, 1)], 1, Z),
            (vec![rotation(Z, 0), correction(X)], 0, X),
        ];
        for (steps, sign, end) in cases {
            one_folds_to(&steps, &[rotation(Z, sign)], end);
        }
        // X is held at the first, Z·X at the others.
        let steps = [
            correction(X),
            rotation(X, 0),
            correction(Z),
            rotation(X, 0),
            rotation(Y, 1),
        ];
        let left = [rotation(X, 0), rotation(X, 1), rotation(Y, 1)];
        one_folds_to(&steps, &left, pauli(1, 2, 1, 1));
        // A second X takes the first away: the sign behind it is kept.
        let steps = [correction(X), rotation(Z, 0), correction(X), rotation(Z, 0)];
        let left = [rotation(Z, 1), rotation(Z, 0)];
        one_folds_to(&steps, &left, Pauli::identity(1));
    }

    /// X, held before a promotion, has I on the new qubit; a Z there comes from a correction behind it.
    #[test]
    fn promotions() {
        let (on_first, on_new) = (pauli(2, 0, 0, 1), pauli(2, 0, 0, 2));
        let steps = [
            correction(X),
            PROMOTION,
            rotation(on_first, 0),
            rotation(on_new, 0),
            correction(on_new),
            rotation(pauli(2, 0, 2, 0), 0),
        ];
        let left = [
            PROMOTION,
            rotation(on_first, 1),
            rotation(on_new, 0),
            rotation(pauli(2, 0, 2, 0), 1),
        ];
        one_folds_to(&steps, &left, pauli(2, 0, 1, 2));
    }

    /// The scope's examples of carrying, the Pauli fired before the projection; and a phase that is fired behind it.
    #[test]
    fn projections() {
        let phase = |k| pauli(0, k, 0, 0);
        for (fired, branch, left, k) in [(Z, 0, 1, 0), (X, 1, 1, 2), (Y, 0, 1, 1)] {
            let before = [correction(fired), projection(X, 0, branch)];
            one_folds_to(&before, &[projection(X, 0, left)], phase(k));
            let both = [&before[..], &[correction(phase(3))]].concat();
            let raised = phase((k + 3) % 4);
            one_folds_to(&both, &[projection(X, 0, left)], raised);
            let behind = [projection(X, 0, branch), correction(phase(3))];
            one_folds_to(&behind, &[projection(X, 0, branch)], phase(3));
        }
    }

    /// ZZ measured with the second qubit as pivot. A Z there becomes the branch's sign of a Z on the first; XX commutes and leaves
    /// its X; XZ flips the branch, and takes the new one's sign.
    #[test]
    fn projections_of_two_qubits() {
        let measured = |branch| projection(pauli(2, 0, 0, 3), 1, branch);
        let cases = [
            (pauli(2, 0, 0, 2), 0, 0, Z),
            (pauli(2, 0, 0, 2), 1, 1, Z.raised(2)),
            (pauli(2, 0, 3, 0), 1, 1, X),
            (pauli(2, 0, 1, 2), 1, 0, pauli(1, 0, 1, 1)),
            (pauli(2, 0, 1, 2), 0, 1, pauli(1, 2, 1, 1)),
        ];
        for (fired, branch, left, held) in cases {
            let steps = [correction(fired), measured(branch)];
            folds_to(&samples::run(2, &steps), &[measured(left)], held);
        }
        // Behind the projection an X on the one qubit left: X·(-Z).
        let steps = [
            correction(pauli(2, 0, 0, 2)),
            measured(1),
            correction(X),
            rotation(X, 0),
        ];
        let left = [measured(1), rotation(X, 1)];
        folds_to(&samples::run(2, &steps), &left, pauli(1, 2, 1, 1));
    }

    /// Past a quarter turn of Z, X becomes Y. The turn stays, and one that stands before the correction does nothing to it.
    #[test]
    fn quarter_turns() {
        let turn = quarter_turn(Z);
        one_folds_to(&[correction(X), turn], &[turn], Y);
        one_folds_to(&[turn, correction(X)], &[turn], X);
        one_folds_to(&[correction(Z), turn], &[turn], Z);
        // X becomes Y, and X·Y is iZ, which the turn leaves.
        let steps = [
            correction(X),
            turn,
            rotation(Y, 0),
            correction(X),
            turn,
            rotation(Y, 0),
        ];
        let left = [turn, rotation(Y, 0), turn, rotation(Y, 1)];
        one_folds_to(&steps, &left, pauli(1, 1, 0, 1));
    }

    /// The run's own rows, with their places, before 16. A correction is looked at although it is taken out, and its phase alone
    /// does not refuse it.
    #[test]
    fn rows() {
        let steps = [
            (correction(pauli(1, 4, 0, 0)), Some(3)),
            (correction(pauli(1, 0, 2, 0)), Some(3)),
            (correction(X.raised(1)), None),
            (quarter_turn(X.raised(1)), Some(7)),
            (rotation(X, 2), Some(14)),
        ];
        for (step, row) in steps {
            let run = samples::run(1, &[correction(X), step]);
            let bytes = run.bytes();
            for (caller, room) in [(SERVICE, 0), (EMULATOR, 0), (SERVICE, 100)] {
                let own = (room == 0).then_some(Refusal::of(16));
                let told = row.map(|row| Refusal::at(row, 24)).or(own);
                assert_eq!(folding(&bytes, caller, room).err(), told);
            }
        }
        let mut trailing = samples::run(1, &[correction(X)]).bytes();
        trailing.push(0);
        assert_eq!(folding(&trailing, SERVICE, 0), Err(Refusal::at(14, 27)));
        assert_eq!(folding(&[], SERVICE, 0), Err(Refusal::at(14, 0)));
    }

    /// A run over 65,536 bytes is refused, as short as it would become.
    #[test]
    fn too_long() {
        let corrections = |count| samples::run(1, &vec![correction(X); count]).bytes();
        // 3,276 · 20 + 7 bytes, and 20 more.
        let told = Ok((vec![1, 1, 0, 1, 6, 0, 0], Pauli::identity(1)));
        assert_eq!(folding(&corrections(3276), SERVICE, 7), told);
        let refused = Err(Refusal::at(14, 0));
        assert_eq!(folding(&corrections(3277), SERVICE, 7), refused);
    }

    /// A run that the emulator does not take is 21 before 16.
    #[test]
    fn too_wide_for_the_emulator() {
        let six = pauli(6, 0, 1, 0);
        let run = samples::run(6, &[correction(six), PROMOTION]);
        let left = samples::run(6, &[PROMOTION]).bytes();
        let end = pauli(7, 0, 1, 0);
        let bytes = run.bytes();
        assert_eq!(folding(&bytes, SERVICE, 26), Ok((left, end)));
        assert_eq!(folding(&bytes, SERVICE, 25), Err(Refusal::of(16)));
        for room in [0, 25, 26] {
            assert_eq!(folding(&bytes, EMULATOR, room), Err(Refusal::at(21, 24)));
        }
        let seven = samples::run(7, &[]).bytes();
        assert_eq!(folding(&seven, EMULATOR, 0), Err(Refusal::at(21, 0)));
    }

    // ------------------------------------------------------ random runs

    /// A Pauli fired right after the start leaves the folded run that carrying it and then folding leaves, and its own end Pauli
    /// times the other: it is carried past the corrections that are held behind it.
    #[test]
    fn fired_first() {
        let mut dice = Dice(2);
        for _ in 0..4000 {
            let run = any_run(&mut dice, 6);
            let q = any_pauli(&mut dice, run.width);
            let steps = [&[correction(q)], &run.steps[..]].concat();
            let (carried, carried_end) = carry(&run, q);
            let (folded, end) = fold(&carried);
            let told = (folded, carried_end.times(end));
            assert_eq!(fold(&samples::run(run.width, &steps)), told);
        }
    }

    /// Nothing but corrections goes, nothing more is to be folded, and both callers take what is left.
    #[test]
    fn folded_again() {
        let mut dice = Dice(4);
        for _ in 0..4000 {
            let run = any_run(&mut dice, 6);
            let stays = |step: &&Step| !matches!(step, Step::Correction { .. });
            let (folded, end) = fold(&run);
            let left: Vec<Step> = run.steps.iter().filter(stays).copied().collect();
            assert_eq!(folded.steps.len(), left.len());
            assert_eq!(end.n, run.survey().width);
            folds_to(&run, &folded.steps, end);
        }
    }
}
