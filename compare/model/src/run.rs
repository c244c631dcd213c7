//! Runs: their fields, how a run is written and read, and the rows that refuse one.

use crate::pauli::Pauli;
use crate::rows;

/// The service's greatest width.
pub const LIMIT: usize = 12;
/// The bytes that a run may have.
pub const LONGEST: usize = 65_536;

const START: u8 = 1;
const ROTATION: u8 = 2;
const PROMOTION: u8 = 3;
const PROJECTION: u8 = 4;
const CORRECTION: u8 = 5;
const END: u8 = 6;
const QUARTER_TURN: u8 = 7;

/// Where the sign of a rotation and the branch of a projection stand, counted from the field's tag.
const SIGN_AT: usize = 3 + 17;
const BRANCH_AT: usize = 3 + 18;

/// A row of the scope's table, with its place where the call answers one.
#[derive(Clone, Copy, Debug, PartialEq, Eq)]
pub struct Refusal {
    pub number: u8,
    pub place: Option<usize>,
}

impl Refusal {
    pub fn at(number: u8, place: usize) -> Self {
        let place = Some(place);
        Self { number, place }
    }

    /// One of the caller's own rows, which have no place.
    pub fn of(number: u8) -> Self {
        let place = None;
        Self { number, place }
    }
}

/// Who calls: the widest state that it has, and the rows of a start over it and of a promotion at it.
#[derive(Clone, Copy, Debug, PartialEq, Eq)]
pub struct Caller {
    pub widest: usize,
    pub start_row: u8,
    pub promotion_row: u8,
}

pub const SERVICE: Caller = Caller::within(LIMIT);

/// 64 amplitudes. 21 takes the place of 15 and of the start limit in 14.
pub const EMULATOR: Caller = Caller {
    widest: 6,
    start_row: 21,
    promotion_row: 21,
};

impl Caller {
    /// The service under another limit, by its own rows.
    pub const fn within(widest: usize) -> Self {
        Self {
            widest,
            start_row: 14,
            promotion_row: 15,
        }
    }
}

/// A field between start and end. A float is kept as its 64 bits, so that any NaN pattern survives.
#[derive(Clone, Copy, Debug, PartialEq, Eq)]
pub enum Step {
    Rotation {
        pauli: Pauli,
        sign: u8,
        c: u64,
        s: u64,
    },
    Promotion {
        c: u64,
        q: u64,
    },
    Projection {
        pauli: Pauli,
        pivot: u8,
        branch: u8,
        invnorm: u64,
    },
    Correction {
        pauli: Pauli,
    },
    /// A rotation with sign 0, and c and s both 1/sqrt 2.
    QuarterTurn {
        pauli: Pauli,
    },
}

#[derive(Clone, Debug, PartialEq, Eq)]
pub struct Run {
    pub width: usize,
    pub steps: Vec<Step>,
}

/// What checking a run answers. `scratch` is in amplitudes.
#[derive(Clone, Copy, Debug, PartialEq, Eq)]
pub struct Survey {
    pub width: usize,
    pub steps: usize,
    pub greatest: usize,
    pub scratch: usize,
}

// ---------------------------------------------------------------- writing

/// Tag, body length, body.
pub fn field(tag: u8, body: &[u8]) -> Vec<u8> {
    let length = (body.len() as u16).to_le_bytes();
    [&[tag], &length[..], body].concat()
}

pub fn start_field(width: usize) -> Vec<u8> {
    field(START, &[width as u8])
}

pub fn end_field() -> Vec<u8> {
    field(END, &[])
}

/// k, x, z.
pub fn pauli_bytes(p: Pauli) -> Vec<u8> {
    let masks = words(&[p.x, p.z]);
    [vec![p.k], masks].concat()
}

fn words(all: &[u64]) -> Vec<u8> {
    all.iter().flat_map(|word| word.to_le_bytes()).collect()
}

impl Step {
    pub fn field(self) -> Vec<u8> {
        match self {
            Step::Rotation { pauli, sign, c, s } => {
                let body = [pauli_bytes(pauli), vec![sign], words(&[c, s])];
                field(ROTATION, &body.concat())
            }
            Step::Promotion { c, q } => field(PROMOTION, &words(&[c, q])),
            Step::Projection {
                pauli,
                pivot,
                branch,
                invnorm,
            } => {
                let flags = vec![pivot, branch];
                let body = [pauli_bytes(pauli), flags, words(&[invnorm])];
                field(PROJECTION, &body.concat())
            }
            Step::Correction { pauli } => field(CORRECTION, &pauli_bytes(pauli)),
            Step::QuarterTurn { pauli } => field(QUARTER_TURN, &pauli_bytes(pauli)),
        }
    }

    /// A quarter turn as the rotation that it is; any other step as it is.
    pub fn spelled_out(self) -> Self {
        let Step::QuarterTurn { pauli } = self else {
            return self;
        };
        let h = rows::H.to_bits();
        Step::Rotation {
            pauli,
            sign: 0,
            c: h,
            s: h,
        }
    }

    /// Where in the field the sign or the branch stands.
    pub fn flag_at(self) -> Option<usize> {
        match self {
            Step::Rotation { .. } => Some(SIGN_AT),
            Step::Projection { .. } => Some(BRANCH_AT),
            _ => None,
        }
    }

    /// The width after the step, which was `width` before it.
    pub fn width_after(self, width: usize) -> usize {
        match self {
            Step::Promotion { .. } => width + 1,
            Step::Projection { .. } => width - 1,
            _ => width,
        }
    }
}

impl Run {
    /// Start, steps, end: each a field.
    pub fn fields(&self) -> Vec<Vec<u8>> {
        let steps = self.steps.iter().map(|step| step.field());
        let mut all = vec![start_field(self.width)];
        all.extend(steps);
        all.push(end_field());
        all
    }

    pub fn bytes(&self) -> Vec<u8> {
        self.fields().concat()
    }

    /// Where in the bytes the signs and branches stand.
    pub fn flags_at(&self) -> Vec<usize> {
        let mut places = Vec::new();
        let mut tag_at = start_field(self.width).len();
        for step in &self.steps {
            places.extend(step.flag_at().map(|at| tag_at + at));
            tag_at += step.field().len();
        }
        places
    }

    /// The width before each step.
    pub fn widths(&self) -> Vec<usize> {
        let mut width = self.width;
        let mut widths = Vec::new();
        for step in &self.steps {
            widths.push(width);
            width = step.width_after(width);
        }
        widths
    }

    pub fn survey(&self) -> Survey {
        let mut seen = Survey {
            width: self.width,
            steps: self.steps.len(),
            greatest: self.width,
            scratch: 0,
        };
        for step in &self.steps {
            seen.width = step.width_after(seen.width);
            seen.greatest = seen.greatest.max(seen.width);
            if let Step::Projection { pauli, .. } = step
                && pauli.x != 0
            {
                seen.scratch = seen.scratch.max(1 << seen.width);
            }
        }
        seen
    }
}

// ---------------------------------------------------------------- reading

fn word(bytes: &[u8]) -> u64 {
    let eight: [u8; 8] = bytes[..8].try_into().expect("eight bytes");
    u64::from_le_bytes(eight)
}

/// Of the first 17 bytes, on n qubits. It does not have to be a Pauli.
pub fn pauli_of(body: &[u8], n: usize) -> Pauli {
    Pauli {
        n,
        k: body[0],
        x: word(&body[1..]),
        z: word(&body[9..]),
    }
}

/// The body length that a tag asks for.
fn body_length(tag: u8) -> Option<usize> {
    match tag {
        START => Some(1),
        ROTATION => Some(34),
        PROMOTION => Some(16),
        PROJECTION => Some(27),
        CORRECTION => Some(17),
        END => Some(0),
        QUARTER_TURN => Some(17),
        _ => None,
    }
}

/// The tag and body of the field at `at`, if its tag and length are right and it is whole.
fn field_at(bytes: &[u8], at: usize) -> Option<(u8, &[u8])> {
    let rest = bytes.get(at..)?;
    let head = rest.get(..3)?;
    let length = u16::from_le_bytes([head[1], head[2]]) as usize;
    if body_length(head[0]) != Some(length) {
        return None;
    }
    let body = rest.get(3..3 + length)?;
    Some((head[0], body))
}

fn step_of(tag: u8, body: &[u8], width: usize) -> Option<Step> {
    match tag {
        ROTATION => Some(Step::Rotation {
            pauli: pauli_of(body, width),
            sign: body[17],
            c: word(&body[18..]),
            s: word(&body[26..]),
        }),
        PROMOTION => Some(Step::Promotion {
            c: word(body),
            q: word(&body[8..]),
        }),
        PROJECTION => Some(Step::Projection {
            pauli: pauli_of(body, width),
            pivot: body[17],
            branch: body[18],
            invnorm: word(&body[19..]),
        }),
        CORRECTION => Some(Step::Correction {
            pauli: pauli_of(body, width),
        }),
        QUARTER_TURN => Some(Step::QuarterTurn {
            pauli: pauli_of(body, width),
        }),
        _ => None,
    }
}

/// The row that refuses a step at this width: its kernel's, then 14 for sign and branch, the caller's own for a promotion at
/// its widest. Room for amplitudes is no matter of the step, so the kernels' rows are asked with buffers of any length.
pub fn step_row(step: Step, width: usize, caller: Caller) -> u8 {
    let float = f64::from_bits;
    let (kernel, own) = match step {
        Step::Rotation { pauli, sign, c, s } => (
            rows::rotation_kernel(pauli, float(c), float(s)),
            (sign > 1, 14),
        ),
        Step::Promotion { c, q } => (
            rows::promotion(width, float(c), float(q), usize::MAX, usize::MAX),
            (width >= caller.widest, caller.promotion_row),
        ),
        Step::Projection {
            pauli,
            pivot,
            branch,
            invnorm,
        } => {
            let room = [usize::MAX; 2];
            let pivot = pivot as usize;
            (
                rows::projection(pauli, pivot, float(invnorm), room, room),
                (branch > 1, 14),
            )
        }
        Step::Correction { pauli } => {
            (rows::correction(pauli, usize::MAX, usize::MAX), (false, 14))
        }
        Step::QuarterTurn { pauli } => (rows::quarter_turn(pauli), (false, 14)),
    };
    rows::lowest(&[(kernel != 0, kernel), own])
}

/// What stands at a cursor, and the cursor behind it. `step` is none for the end field.
#[derive(Clone, Copy, Debug, PartialEq, Eq)]
pub struct Found {
    pub step: Option<Step>,
    pub at: usize,
    pub width: usize,
}

/// The field whose tag stands at `at`, the state having `width` qubits there. A run that is too long is refused before its
/// fields; no run leads to a width over the caller's widest, so a field there stands in a wrong place.
pub fn read_at(bytes: &[u8], at: usize, width: usize, caller: Caller) -> Result<Found, Refusal> {
    if bytes.len() > LONGEST {
        return Err(Refusal::at(14, 0));
    }
    if width > caller.widest {
        return Err(Refusal::at(14, at));
    }
    let Some((tag, body)) = field_at(bytes, at) else {
        return Err(Refusal::at(14, at));
    };
    let next = at + 3 + body.len();
    if tag == END {
        return Ok(Found {
            step: None,
            at: next,
            width,
        });
    }
    // A start is the one tag left that makes no step.
    let Some(step) = step_of(tag, body, width) else {
        return Err(Refusal::at(14, at));
    };
    match step_row(step, width, caller) {
        0 => Ok(Found {
            step: Some(step),
            at: next,
            width: step.width_after(width),
        }),
        row => Err(Refusal::at(row, at)),
    }
}

/// Reads a run for a caller: the run, or its first refusal in file order. A first field that is no start field is 14 for
/// every caller; one that starts too wide is the caller's own row.
pub fn read(bytes: &[u8], caller: Caller) -> Result<Run, Refusal> {
    if bytes.len() > LONGEST {
        return Err(Refusal::at(14, 0));
    }
    let Some((START, body)) = field_at(bytes, 0) else {
        return Err(Refusal::at(14, 0));
    };
    let start = body[0] as usize;
    if start > caller.widest {
        return Err(Refusal::at(caller.start_row, 0));
    }
    let (mut at, mut width, mut steps) = (4, start, Vec::new());
    loop {
        let found = read_at(bytes, at, width, caller)?;
        (at, width) = (found.at, found.width);
        match found.step {
            Some(step) => steps.push(step),
            None if at < bytes.len() => return Err(Refusal::at(14, at)),
            None => {
                return Ok(Run {
                    width: start,
                    steps,
                });
            }
        }
    }
}

// --------------------------------------------------------------- the calls

pub fn check(bytes: &[u8], caller: Caller) -> Result<Survey, Refusal> {
    read(bytes, caller).map(|run| run.survey())
}

/// What running needs of the lengths of the state and the scratch: row 13.
pub fn lacks_room(seen: Survey, state: [usize; 2], scratch: [usize; 2]) -> bool {
    let short = rows::short(state[0], state[1], seen.greatest);
    short || scratch.iter().any(|&length| length < seen.scratch)
}

/// What running answers: the run's refusal, then row 13.
pub fn running(
    bytes: &[u8],
    caller: Caller,
    state: [usize; 2],
    scratch: [usize; 2],
) -> Result<Survey, Refusal> {
    let seen = check(bytes, caller)?;
    if lacks_room(seen, state, scratch) {
        return Err(Refusal::of(13));
    }
    Ok(seen)
}

#[cfg(test)]
mod tests {
    use super::*;

    /// The run of the scope's example of `bench`.
    #[test]
    fn example_of_the_scope() {
        let mut bytes = vec![1, 1, 0, 1, 5, 17, 0, 0, 1];
        bytes.extend([0; 15]);
        bytes.extend([6, 0, 0]);
        let run = read(&bytes, SERVICE).expect("accepted");
        assert_eq!(run.bytes(), bytes);
        let pauli = Pauli {
            x: 1,
            ..Pauli::identity(1)
        };
        assert_eq!(run.steps, [Step::Correction { pauli }]);
        assert_eq!(run.survey().steps, 1);
    }

    /// A quarter turn's field, by hand: X on one qubit. Its rows are 3 and 7, as a rotation's; a wrong length is 14.
    #[test]
    fn quarter_turns() {
        let with = |tag: u8, k: u8, x: u8, length: u8| {
            let mut bytes = vec![1, 1, 0, 1, tag, length, 0, k, x];
            bytes.resize(7 + usize::from(length), 0);
            bytes.extend([6, 0, 0]);
            bytes
        };
        let bytes = with(7, 0, 1, 17);
        let run = read(&bytes, SERVICE).expect("accepted");
        assert_eq!(run.bytes(), bytes);
        let pauli = Pauli {
            x: 1,
            ..Pauli::identity(1)
        };
        assert_eq!(run.steps, [Step::QuarterTurn { pauli }]);
        assert!(run.flags_at().is_empty());
        let seen = Survey {
            width: 1,
            steps: 1,
            greatest: 1,
            scratch: 0,
        };
        assert_eq!(run.survey(), seen);
        let refused = [
            (with(7, 1, 1, 17), 7),
            (with(7, 4, 1, 17), 3),
            (with(7, 0, 2, 17), 3),
            (with(7, 1, 2, 17), 3),
            (with(7, 0, 1, 16), 14),
            (with(7, 0, 1, 18), 14),
            (with(0, 0, 1, 17), 14),
            (with(8, 0, 1, 17), 14),
        ];
        for (bytes, row) in refused {
            assert_eq!(read(&bytes, SERVICE), Err(Refusal::at(row, 4)));
        }
        // Not Hermitian, it is a correction still.
        assert!(read(&with(5, 1, 1, 17), SERVICE).is_ok());
    }

    #[test]
    fn cursors() {
        let mut bytes = [start_field(1), end_field()].concat();
        let end = Found {
            step: None,
            at: 7,
            width: 1,
        };
        let one = Caller::within(1);
        let none = Caller::within(0);
        assert_eq!(read_at(&bytes, 4, 1, one), Ok(end));
        assert_eq!(read_at(&bytes, 4, 1, none), Err(Refusal::at(14, 4)));
        bytes.resize(LONGEST, 0);
        assert_eq!(read_at(&bytes, 4, 1, one), Ok(end));
        bytes.push(0);
        assert_eq!(read_at(&bytes, 4, 1, one), Err(Refusal::at(14, 0)));
        assert_eq!(read_at(&bytes, 4, 1, none), Err(Refusal::at(14, 0)));
    }

    #[test]
    fn places() {
        assert_eq!(read(&[], SERVICE), Err(Refusal::at(14, 0)));
        assert_eq!(read(&[1, 1, 0, 13], SERVICE), Err(Refusal::at(14, 0)));
        assert_eq!(read(&[1, 1, 0, 12], SERVICE), Err(Refusal::at(14, 4)));
        assert_eq!(read(&[1, 1, 0, 0, 6], SERVICE), Err(Refusal::at(14, 4)));
        let trailing = [1, 1, 0, 0, 6, 0, 0, 6];
        assert_eq!(read(&trailing, SERVICE), Err(Refusal::at(14, 7)));
    }

    /// A start field, these fields, an end field.
    fn around(width: usize, fields: &[&[u8]]) -> Vec<u8> {
        [start_field(width), fields.concat(), end_field()].concat()
    }

    fn promotion(c: f64) -> Vec<u8> {
        let q = 0.5f64.to_bits();
        Step::Promotion { c: c.to_bits(), q }.field()
    }

    fn width_for(caller: Caller, bytes: &[u8]) -> Result<usize, Refusal> {
        check(bytes, caller).map(|seen| seen.width)
    }

    /// By hand: a start over 6 is 21 at 0 for the emulator, 14 over 12 for the service; what is no start field is 14 for both.
    #[test]
    fn starts() {
        for width in 0..=255 {
            let bytes = around(width, &[]);
            let told = |most: usize, row: u8| match width <= most {
                true => Ok(width),
                false => Err(Refusal::at(row, 0)),
            };
            assert_eq!(width_for(EMULATOR, &bytes), told(6, 21));
            assert_eq!(width_for(SERVICE, &bytes), told(12, 14));
            assert_eq!(width_for(Caller::within(6), &bytes), told(6, 14));
        }
        let no_starts = [
            field(0, &[7]),
            field(2, &[7]),
            field(1, &[]),
            field(1, &[7, 7]),
            vec![1, 1, 0],
            vec![],
            vec![1; LONGEST + 1],
            [start_field(7), vec![0; LONGEST]].concat(),
        ];
        for bytes in no_starts {
            for caller in [EMULATOR, SERVICE] {
                assert_eq!(read(&bytes, caller), Err(Refusal::at(14, 0)));
            }
        }
    }

    /// By hand: a promotion at 6 is 21 for the emulator, behind 8, and 15 for the service under a limit of 6.
    #[test]
    fn promotions() {
        let (good, bad, none) = (promotion(0.5), promotion(f64::NAN), field(0, &[]));
        let at = |row, place| Err(Refusal::at(row, place));
        let cases = [
            (around(5, &[&good]), Ok(6), Ok(6), Ok(6)),
            (around(6, &[&good]), Ok(7), at(21, 4), at(15, 4)),
            (around(5, &[&good, &good]), Ok(7), at(21, 23), at(15, 23)),
            (around(6, &[&good, &good]), Ok(8), at(21, 4), at(15, 4)),
            (around(6, &[&bad]), at(8, 4), at(8, 4), at(8, 4)),
            (around(6, &[&bad, &good]), at(8, 4), at(8, 4), at(8, 4)),
            (around(6, &[&good, &bad]), at(8, 23), at(21, 4), at(15, 4)),
            (around(6, &[&good, &none]), at(14, 23), at(21, 4), at(15, 4)),
            (around(6, &[&none, &good]), at(14, 4), at(14, 4), at(14, 4)),
            (around(12, &[&good]), at(15, 4), at(21, 0), at(14, 0)),
        ];
        for (bytes, service, emulator, limited) in cases {
            assert_eq!(width_for(SERVICE, &bytes), service);
            assert_eq!(width_for(EMULATOR, &bytes), emulator);
            assert_eq!(width_for(Caller::within(6), &bytes), limited);
        }
    }

    /// A cursor over the caller's widest is 14 for every caller.
    #[test]
    fn cursors_of_the_emulator() {
        let bytes = around(5, &[&promotion(0.5)]);
        let told = |width| read_at(&bytes, 4, width, EMULATOR).map(|found| found.width);
        assert_eq!(told(5), Ok(6));
        assert_eq!(told(6), Err(Refusal::at(21, 4)));
        for width in [7, 12, 13] {
            assert_eq!(told(width), Err(Refusal::at(14, 4)));
        }
    }

    /// 13 behind the run's own rows, in 63 entries for six qubits.
    #[test]
    fn room_of_the_emulator() {
        let six = around(6, &[]);
        let seven = around(6, &[&promotion(0.5)]);
        let ran = |bytes, re, im| running(bytes, EMULATOR, [re, im], [0, 0]).map(|seen| seen.width);
        assert_eq!(ran(&six, 64, 64), Ok(6));
        assert_eq!(ran(&six, 63, 64), Err(Refusal::of(13)));
        assert_eq!(ran(&six, 64, 63), Err(Refusal::of(13)));
        assert_eq!(ran(&seven, 0, 0), Err(Refusal::at(21, 4)));
    }
}
