//! Between the model's types and those of the calls.

use model::pauli::Pauli;
use model::report::Flag;
use model::run::{Found, Refusal, Step, Survey};
use naribhush::{ActivePauli, Answer, Ending, Field, Read, Report};

pub fn active(p: Pauli) -> ActivePauli {
    ActivePauli {
        nqubits: p.n,
        x: p.x,
        z: p.z,
        phase: p.k,
    }
}

pub fn pauli(p: ActivePauli) -> Pauli {
    Pauli {
        n: p.nqubits,
        k: p.phase,
        x: p.x,
        z: p.z,
    }
}

pub fn refusal(refusal: Refusal) -> naribhush::Refusal {
    let Refusal { number, place } = refusal;
    naribhush::Refusal { number, place }
}

pub fn survey(seen: Survey) -> naribhush::Survey {
    naribhush::Survey {
        width: seen.width,
        steps: seen.steps,
        greatest: seen.greatest,
        scratch: seen.scratch,
    }
}

pub fn ending(seen: Survey) -> Ending {
    Ending {
        width: seen.width,
        steps: seen.steps,
    }
}

pub fn report(flag: Option<Flag>) -> Report {
    match flag {
        None => Report::NoFlag,
        Some(Flag { changed, mask }) => Report::Flagged { changed, mask },
    }
}

/// A field that was found at a cursor, as reading answers it.
pub fn read(found: Found) -> Read {
    Read {
        field: field(found.step),
        at: found.at,
        width: found.width,
    }
}

/// A step, or the end field.
pub fn field(step: Option<Step>) -> Field {
    let float = f64::from_bits;
    let nothing = Field::default();
    match step {
        Some(Step::Rotation { pauli, sign, c, s }) => Field {
            tag: 2,
            pauli: active(pauli),
            flag: sign == 1,
            first: float(c),
            second: float(s),
            ..nothing
        },
        Some(Step::Promotion { c, q }) => Field {
            tag: 3,
            first: float(c),
            second: float(q),
            ..nothing
        },
        Some(Step::Projection {
            pauli,
            pivot,
            branch,
            invnorm,
        }) => Field {
            tag: 4,
            pauli: active(pauli),
            flag: branch == 1,
            pivot: pivot.into(),
            first: float(invnorm),
            ..nothing
        },
        Some(Step::Correction { pauli }) => Field {
            tag: 5,
            pauli: active(pauli),
            ..nothing
        },
        Some(Step::QuarterTurn { pauli }) => Field {
            tag: 7,
            pauli: active(pauli),
            ..nothing
        },
        None => Field { tag: 6, ..nothing },
    }
}

/// The model's answer as a call would give it.
pub fn answer<A, B>(expected: Result<A, Refusal>, value: impl FnOnce(A) -> B) -> Answer<B> {
    expected.map(value).map_err(refusal)
}

/// Row 0 is none.
pub fn row_of<T>(answer: &Answer<T>) -> u8 {
    answer.as_ref().err().map_or(0, |refusal| refusal.number)
}
