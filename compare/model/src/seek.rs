//! E12: which start a run carries to a named end. Any that serves is right, so the model says whether there is one, and judges the
//! start that a call answers by carrying it.

use crate::carry::carry_step;
use crate::pauli::{Pauli, paulis};
use crate::run::{Caller, Refusal, Run, read};

/// The widest start whose Paulis are carried one by one.
const FEW: usize = 3;

/// The end Pauli, without the carried run.
pub fn end_of(run: &Run, start: Pauli) -> Pauli {
    let past = |q, &step| carry_step(q, step).1;
    run.steps.iter().fold(start, past)
}

/// Whether this is a Pauli on the start qubits that is carried to the end, phase included.
pub fn serves(run: &Run, start: Pauli, end: Pauli) -> bool {
    start.is_pauli() && start.n == run.width && end_of(run, start) == end
}

// ------------------------------------------------------- the ends of a run

/// The ends that the Paulis on a run's start qubits are carried to.
#[derive(Clone, Debug, PartialEq, Eq)]
pub enum Ends {
    /// One by one, with their phases.
    Listed(Vec<Pauli>),
    /// By their masks alone.
    Spanned(Span),
}

impl Ends {
    pub fn of(run: &Run) -> Self {
        match run.width <= FEW {
            true => Self::listed(run),
            false => Self::spanned(run),
        }
    }

    fn listed(run: &Run) -> Self {
        let ends = paulis(run.width).map(|start| end_of(run, start));
        Self::Listed(ends.collect())
    }

    /// Whether a step multiplies the carried Pauli depends on a parity of its masks, and products xor masks: so the end's masks
    /// are linear in the start's, and those of the Paulis with one letter X or Z span them all. A phase raised at the start
    /// comes to the end as it is, since no rule looks at it: so where the masks are reached, every phase is.
    fn spanned(run: &Run) -> Self {
        let mut span = Span::default();
        for start in letters(run.width) {
            span.add(word(end_of(run, start)));
        }
        Self::Spanned(span)
    }

    /// Of a Pauli on the run's last qubits.
    pub fn have(&self, end: Pauli) -> bool {
        match self {
            Self::Listed(ends) => ends.contains(&end),
            Self::Spanned(span) => span.has(word(end)),
        }
    }
}

/// The Paulis of phase 0 with an X or a Z on one qubit.
fn letters(n: usize) -> impl Iterator<Item = Pauli> {
    let none = Pauli::identity(n);
    let of_qubit = move |q: usize| {
        let bit = 1u64 << q;
        [Pauli { x: bit, ..none }, Pauli { z: bit, ..none }]
    };
    (0..n).flat_map(of_qubit)
}

/// Both masks in one word.
fn word(p: Pauli) -> u128 {
    u128::from(p.x) | u128::from(p.z) << 64
}

/// What these words and their xors make up. No two have the same highest bit; the highest stands first.
#[derive(Clone, Debug, Default, PartialEq, Eq)]
pub struct Span(Vec<u128>);

impl Span {
    /// A word, less those of the span that it takes to clear their highest bits in it: 0 where the span has it.
    fn rest(&self, word: u128) -> u128 {
        // Of the word and its xor, the smaller is the one without that bit.
        let cleared = |left: u128, &one: &u128| left.min(left ^ one);
        self.0.iter().fold(word, cleared)
    }

    fn add(&mut self, word: u128) {
        let rest = self.rest(word);
        if rest != 0 {
            let at = self.0.partition_point(|&one| one > rest);
            self.0.insert(at, rest);
        }
    }

    fn has(&self, word: u128) -> bool {
        self.rest(word) == 0
    }
}

// --------------------------------------------------------------- the call

/// The row that refuses an end: no Pauli, not on the last qubits, or none of the run's ends.
pub fn row(run: &Run, ends: &Ends, end: Pauli) -> Option<u8> {
    let tests = [
        (!end.is_pauli(), 3),
        (end.n != run.survey().width, 4),
        (!ends.have(end), 25),
    ];
    tests.into_iter().find(|test| test.0).map(|(_, row)| row)
}

/// What seeking answers, but for which start: the run's refusal, then 3, 4 and 25, which have no place; or the run, through which
/// the start has to be carried to the end.
pub fn seeking(bytes: &[u8], caller: Caller, end: Pauli) -> Result<Run, Refusal> {
    let run = read(bytes, caller)?;
    match row(&run, &Ends::of(&run), end) {
        None => Ok(run),
        Some(row) => Err(Refusal::of(row)),
    }
}

#[cfg(test)]
mod tests {
    use super::*;
    use crate::carry::carry;
    use crate::dice::Dice;
    use crate::run::{EMULATOR, SERVICE, Step};
    use crate::samples::{PROMOTION, any_pauli, any_run, pauli, projection, run};

    /// What both callers answer of a run that both take.
    fn sought(run: &Run, end: Pauli) -> Result<(), u8> {
        let [service, emulator] = [SERVICE, EMULATOR].map(|caller| {
            let sought = seeking(&run.bytes(), caller, end);
            assert!(sought.as_ref().is_ok_and(|read| read == run) || sought.is_err());
            sought
        });
        assert_eq!(service, emulator);
        service.map(|_| ()).map_err(|refusal| {
            assert_eq!(refusal.place, None);
            refusal.number
        })
    }

    /// These ends, with each phase, and no others of their width are found, by either way.
    fn found_alone(run: &Run, width: usize, masks: &[(u64, u64)]) {
        let (listed, spanned) = (Ends::listed(run), Ends::spanned(run));
        for end in paulis(width) {
            let told = masks.contains(&(end.x, end.z));
            assert_eq!(sought(run, end), if told { Ok(()) } else { Err(25) });
            assert_eq!((listed.have(end), spanned.have(end)), (told, told));
        }
    }

    fn all_masks(n: usize) -> Vec<(u64, u64)> {
        paulis(n).map(|p| (p.x, p.z)).collect()
    }

    /// Every end is its own start, phase included, and no other is.
    #[test]
    fn empty_run() {
        for n in 0..=2 {
            let run = run(n, &[]);
            found_alone(&run, n, &all_masks(n));
            for end in paulis(n) {
                for start in paulis(n) {
                    assert_eq!(serves(&run, start, end), start == end);
                }
            }
        }
    }

    /// Nothing but I is carried to the new qubit.
    #[test]
    fn promotions() {
        let one = run(1, &[PROMOTION]);
        found_alone(&one, 2, &[(0, 0), (1, 0), (0, 1), (1, 1)]);
        assert_eq!(sought(&one, pauli(2, 0, 2, 0)), Err(25));
        assert_eq!(sought(&one, pauli(2, 3, 1, 0)), Ok(()));
        assert!(serves(&one, pauli(1, 3, 1, 0), pauli(2, 3, 1, 0)));

        found_alone(&run(0, &[]), 0, &[(0, 0)]);
        found_alone(&run(0, &[PROMOTION]), 1, &[(0, 0)]);
        found_alone(&run(0, &[PROMOTION, PROMOTION]), 2, &[(0, 0)]);
    }

    /// A quarter turn of ZX takes XI to a YX, and leaves ZI: some letters on the new qubit are reached then, beside their own.
    #[test]
    fn letters_on_the_new_qubit() {
        let turn = Step::QuarterTurn {
            pauli: pauli(2, 0, 2, 1),
        };
        let turned = run(1, &[PROMOTION, turn]);
        found_alone(&turned, 2, &[(0, 0), (3, 1), (0, 1), (3, 0)]);
    }

    /// By the scope's examples: Z and Y past an X projection on branch 0 end in phases 0 and 1, X on branch 1 in 2.
    #[test]
    fn to_no_qubits() {
        let (x, y, z) = (pauli(1, 0, 1, 0), pauli(1, 1, 1, 1), pauli(1, 0, 0, 1));
        let end = |k| pauli(0, k, 0, 0);
        for branch in 0..2 {
            let run = run(1, &[projection(x, 0, branch)]);
            found_alone(&run, 0, &[(0, 0)]);
        }
        let zero = run(1, &[projection(x, 0, 0)]);
        let one = run(1, &[projection(x, 0, 1)]);
        assert!(serves(&zero, z, end(0)) && serves(&zero, y, end(1)));
        assert!(serves(&one, x, end(2)) && !serves(&one, x, end(0)));
        // Several starts have each end: of the sixteen, four for each phase.
        for k in 0..4 {
            let starts = paulis(1).filter(|&start| serves(&one, start, end(k)));
            assert_eq!(starts.count(), 4);
        }
    }

    /// A projection and a promotion behind it: no letter is left that could be named.
    #[test]
    fn projected_and_promoted() {
        let z = pauli(1, 0, 0, 1);
        let again = run(1, &[projection(z, 0, 1), PROMOTION]);
        found_alone(&again, 1, &[(0, 0)]);
    }

    /// Past a quarter turn of Z, X becomes Y and Y becomes -X.
    #[test]
    fn quarter_turn() {
        let (x, y, z) = (pauli(1, 0, 1, 0), pauli(1, 1, 1, 1), pauli(1, 0, 0, 1));
        let turned = run(1, &[Step::QuarterTurn { pauli: z }]);
        found_alone(&turned, 1, &all_masks(1));
        for (end, start) in [(y, x), (x, y.raised(2)), (z, z)] {
            for k in 0..4 {
                let (start, end) = (start.raised(k), end.raised(k));
                let serving = paulis(1).filter(|&q| serves(&turned, q, end));
                assert_eq!(serving.collect::<Vec<_>>(), [start]);
            }
        }
    }

    /// A correction that anticommutes raises the phase by 2: the start has it lower.
    #[test]
    fn phases() {
        let (x, z) = (pauli(1, 0, 1, 0), pauli(1, 0, 0, 1));
        let corrected = run(1, &[Step::Correction { pauli: z }]);
        for k in 0..4 {
            assert!(serves(&corrected, x.raised(k + 2), x.raised(k)));
            assert!(!serves(&corrected, x.raised(k), x.raised(k)));
            assert_eq!(sought(&corrected, x.raised(k)), Ok(()));
        }
    }

    /// What is no Pauli on the start qubits does not serve, whatever carrying would make of it.
    #[test]
    fn no_start() {
        let empty = run(1, &[]);
        for start in [pauli(1, 4, 0, 0), pauli(1, 0, 2, 0), pauli(2, 0, 0, 0)] {
            assert!(!serves(&empty, start, start));
        }
    }

    /// 3 before 4 before 25, all behind the run's own.
    #[test]
    fn rows() {
        let one = run(1, &[PROMOTION]);
        let cases = [
            (pauli(2, 4, 0, 0), 3),
            (pauli(2, 0, 4, 0), 3),
            (pauli(2, 0, 0, 4), 3),
            (pauli(1, 0, 2, 0), 3),
            (pauli(257, 0, 0, 0), 3),
            (pauli(usize::MAX, 0, 0, 0), 3),
            (pauli(1, 4, 0, 0), 3),
            (pauli(1, 0, 0, 0), 4),
            (pauli(3, 0, 4, 0), 4),
            (pauli(256, 0, u64::MAX, 0), 4),
            (pauli(2, 0, 2, 0), 25),
        ];
        for (end, row) in cases {
            assert_eq!(sought(&one, end), Err(row));
            let mut bytes = one.bytes();
            bytes.push(0);
            let trailing = Err(Refusal::at(14, bytes.len() - 1));
            assert_eq!(seeking(&bytes, SERVICE, end), trailing);
        }
    }

    /// A run that the emulator does not take is 21 before 3, 4 and 25.
    #[test]
    fn too_wide_for_the_emulator() {
        let wide = run(6, &[PROMOTION]);
        let reached = pauli(7, 0, 0, 0);
        let cases = [
            (reached, Ok(wide.clone())),
            (pauli(7, 4, 0, 0), Err(Refusal::of(3))),
            (pauli(6, 0, 0, 0), Err(Refusal::of(4))),
            (pauli(7, 0, 64, 0), Err(Refusal::of(25))),
        ];
        for (end, service) in cases {
            assert_eq!(seeking(&wide.bytes(), SERVICE, end), service);
            let emulator = seeking(&wide.bytes(), EMULATOR, end);
            assert_eq!(emulator, Err(Refusal::at(21, 4)));
        }
    }

    // ------------------------------------------------------ random runs

    /// On every end of up to 3 qubits.
    #[test]
    fn listed_and_spanned_agree() {
        let mut dice = Dice(12);
        let mut counts = [0; 2];
        for _ in 0..4000 {
            let run = any_run(&mut dice, FEW);
            assert_eq!(read(&run.bytes(), EMULATOR).as_ref(), Ok(&run));
            let (listed, spanned) = (Ends::listed(&run), Ends::spanned(&run));
            for end in paulis(run.survey().width) {
                let told = listed.have(end);
                assert_eq!(spanned.have(end), told, "{end:?}, {run:?}");
                counts[usize::from(told)] += 1;
            }
        }
        assert!(counts.iter().all(|&count| count > 10_000), "{counts:?}");
    }

    /// On runs of up to 12 qubits, with every phase.
    #[test]
    fn what_is_carried_is_reached() {
        let mut dice = Dice(24);
        for _ in 0..2000 {
            let run = any_run(&mut dice, 12);
            let ends = Ends::of(&run);
            for _ in 0..8 {
                let start = any_pauli(&mut dice, run.width);
                let end = end_of(&run, start);
                assert_eq!(end, carry(&run, start).1);
                assert!((0..4).all(|k| ends.have(end.raised(k))));
            }
        }
    }

    /// The span of 6, 5 and their xor 3: 0, 3, 5, 6 and no other word below 8.
    #[test]
    fn spans() {
        let mut span = Span::default();
        for word in [6, 5, 3, 0] {
            span.add(word);
        }
        assert_eq!(span.0, [6, 3]);
        for word in 0..8 {
            assert_eq!(span.has(word), [0, 3, 5, 6].contains(&word));
        }
        assert!(!span.has(1 << 127) && !span.has(14));
    }
}
