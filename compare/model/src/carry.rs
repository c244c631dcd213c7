//! Carrying a Pauli through a run: the flags that flip, and the Pauli at the end.

use crate::pauli::Pauli;
use crate::run::{Caller, Refusal, Run, Step, read};

/// Whether a projection of `m` takes `q` times `m`: `q` has, at the pivot, an X part where `m` has one, or
/// else a Z part.
pub fn takes_product(q: Pauli, m: Pauli, pivot: u8) -> bool {
    let mask = if m.x != 0 { q.x } else { q.z };
    pivot < 64 && mask >> pivot & 1 == 1
}

fn projected(q: Pauli, m: Pauli, pivot: u8, new_branch: u8) -> Pauli {
    let mut kept = q;
    if takes_product(q, m, pivot) {
        kept = q.times(m).raised(2 * new_branch);
    }
    kept.dropped(pivot as usize)
}

/// Where `q` and `p` anticommute, `p` times `q`, its phase raised by 3.
fn turned(q: Pauli, p: Pauli) -> Pauli {
    match q.anticommutes(p) {
        true => p.times(q).raised(3),
        false => q,
    }
}

/// One step, and the Pauli before it: the carried step, and the Pauli after it.
pub fn carry_step(q: Pauli, step: Step) -> (Step, Pauli) {
    let flips = |p: Pauli| u8::from(q.anticommutes(p));
    match step {
        Step::Rotation { pauli, sign, c, s } => {
            let sign = sign ^ flips(pauli);
            (Step::Rotation { pauli, sign, c, s }, q)
        }
        Step::Promotion { .. } => (step, Pauli { n: q.n + 1, ..q }),
        Step::Projection {
            pauli,
            pivot,
            branch,
            invnorm,
        } => {
            let branch = branch ^ flips(pauli);
            let carried = Step::Projection {
                pauli,
                pivot,
                branch,
                invnorm,
            };
            (carried, projected(q, pauli, pivot, branch))
        }
        Step::Correction { pauli } => (step, q.raised(2 * flips(pauli))),
        Step::QuarterTurn { pauli } => (step, turned(q, pauli)),
    }
}

/// The carried run, and the end Pauli.
pub fn carry(run: &Run, q: Pauli) -> (Run, Pauli) {
    let mut frame = q;
    let mut steps = Vec::new();
    for &step in &run.steps {
        let (carried, next) = carry_step(frame, step);
        steps.push(carried);
        frame = next;
    }
    let width = run.width;
    (Run { width, steps }, frame)
}

/// A run that a Pauli can be carried through: the run's refusal, then 3 and 4, which have no place.
pub fn accepted(bytes: &[u8], caller: Caller, q: Pauli) -> Result<Run, Refusal> {
    let run = read(bytes, caller)?;
    let tests = [(!q.is_pauli(), 3), (q.n != run.width, 4)];
    match tests.into_iter().find(|test| test.0) {
        Some((_, row)) => Err(Refusal::of(row)),
        None => Ok(run),
    }
}

/// What carrying answers, with room for `room` bytes: the run's refusal, then 3, 4 and 16, which have no
/// place; or the carried bytes and the end Pauli.
pub fn carrying(
    bytes: &[u8],
    caller: Caller,
    q: Pauli,
    room: usize,
) -> Result<(Vec<u8>, Pauli), Refusal> {
    let run = accepted(bytes, caller, q)?;
    if room < bytes.len() {
        return Err(Refusal::of(16));
    }
    let (carried, end) = carry(&run, q);
    Ok((carried.bytes(), end))
}

#[cfg(test)]
mod tests {
    use super::*;
    use crate::run::{EMULATOR, SERVICE};

    fn pauli(k: u8, x: u64, z: u64) -> Pauli {
        Pauli { n: 1, k, x, z }
    }

    fn past_x_projection(q: Pauli, branch: u8) -> (u8, Pauli) {
        let step = Step::Projection {
            pauli: pauli(0, 1, 0),
            pivot: 0,
            branch,
            invnorm: 0,
        };
        let (Step::Projection { branch, .. }, end) = carry_step(q, step) else {
            panic!("another kind of step");
        };
        (branch, end)
    }

    /// The scope's examples of carrying.
    #[test]
    fn examples_of_the_scope() {
        let left = |k| Pauli {
            k,
            ..Pauli::identity(0)
        };
        assert_eq!(past_x_projection(pauli(0, 0, 1), 0), (1, left(0)));
        assert_eq!(past_x_projection(pauli(0, 1, 0), 1), (1, left(2)));
        assert_eq!(past_x_projection(pauli(1, 1, 1), 0), (1, left(1)));

        let z_rotation = Step::Rotation {
            pauli: pauli(0, 0, 1),
            sign: 0,
            c: 0,
            s: 0,
        };
        let (carried, end) = carry_step(pauli(0, 1, 0), z_rotation);
        assert!(matches!(carried, Step::Rotation { sign: 1, .. }));
        assert_eq!(end, pauli(0, 1, 0));
    }

    /// X and Z past an X projection, in both orders and with either branch: B, then A past what that leaves, then B·A, by hand.
    #[test]
    fn merged_past_a_projection() {
        let (x, z) = (pauli(0, 1, 0), pauli(0, 0, 1));
        let cases = [
            (x, z, 0, [(0, 0), (1, 0), (1, 0)]),
            (x, z, 1, [(1, 2), (0, 0), (0, 2)]),
            (z, x, 0, [(1, 0), (1, 2), (1, 2)]),
            (z, x, 1, [(0, 0), (0, 0), (0, 0)]),
        ];
        for (b, a, branch, told) in cases {
            let first = past_x_projection(b, branch);
            let second = past_x_projection(a, first.0);
            let merged = past_x_projection(b.times(a), branch);
            let phases = [first, second, merged].map(|(branch, end)| (branch, end.k));
            assert_eq!(phases, told);
            assert_eq!((second.0, first.1.times(second.1)), merged);
        }
    }

    /// By hand, -i P Q: X, Y and Z past quarter turns of X, Y, Z and of -Z.
    #[test]
    fn quarter_turns() {
        let [x, y, z] = [pauli(0, 1, 0), pauli(1, 1, 1), pauli(0, 0, 1)];
        let minus = |p: Pauli| p.raised(2);
        let ends = [
            (x, [x, z, minus(y)]),
            (y, [minus(z), y, x]),
            (z, [y, minus(x), z]),
            (minus(z), [minus(y), x, z]),
        ];
        for (p, ends) in ends {
            let step = Step::QuarterTurn { pauli: p };
            for (q, end) in [x, y, z].into_iter().zip(ends) {
                for k in 0..4 {
                    let (carried, after) = carry_step(q.raised(k), step);
                    assert_eq!((carried, after), (step, end.raised(k)));
                }
            }
        }
    }

    /// Carrying alters no byte of a quarter turn: ZZ past X on the first qubit is -YZ, and past XX it stays.
    #[test]
    fn quarter_turns_of_two_qubits() {
        let two = |k, x, z| Pauli { n: 2, k, x, z };
        let q = two(0, 0, 3);
        for (p, end) in [(two(0, 1, 0), two(3, 1, 3)), (two(0, 3, 0), q)] {
            let steps = vec![Step::QuarterTurn { pauli: p }];
            let bytes = Run { width: 2, steps }.bytes();
            for caller in [SERVICE, EMULATOR] {
                let told = Ok((bytes.clone(), end));
                assert_eq!(carrying(&bytes, caller, q, 27), told);
                assert_eq!(carrying(&bytes, caller, q, 26), Err(Refusal::of(16)));
            }
        }
    }

    /// A run that the emulator does not take is 21 before 3, 4 and 16.
    #[test]
    fn too_wide_for_the_emulator() {
        let (width, steps) = (6, vec![Step::Promotion { c: 0, q: 0 }]);
        let bytes = Run { width, steps }.bytes();
        let q = Pauli::identity(6);
        let told = Ok((bytes.clone(), Pauli::identity(7)));
        assert_eq!(carrying(&bytes, SERVICE, q, 26), told);
        for (q, room) in [(q, 26), (Pauli { k: 4, ..q }, 26), (Pauli::identity(7), 0)] {
            assert_eq!(carrying(&bytes, EMULATOR, q, room), Err(Refusal::at(21, 4)));
        }
    }
}
