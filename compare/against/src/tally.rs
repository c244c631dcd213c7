//! What becomes of each case: the judgement, and the counts that the table shows.

use std::collections::{BTreeMap, BTreeSet};

use naribhush::{Answer, Refusal};

use crate::published::Theirs;
use crate::same::Same;

macro_rules! calls {
    ($($call:ident = $name:literal,)*) => {
        #[derive(Clone, Copy)]
        pub enum Call { $($call,)* }
        const NAMES: &[&str] = &[$($name,)*];
    };
}

calls! {
    IsOddPopcount = "is_odd_popcount",
    InsertZeroBit = "insert_zero_bit",
    PackedBit = "packed_bit",
    SetPackedBit = "set_packed_bit",
    PauliIdentity = "pauli_identity",
    XBit = "x_bit",
    ZBit = "z_bit",
    Get = "get",
    Set = "set",
    MaxSupport = "max_support",
    Mul = "mul",
    Anticommutes = "pauli_anticommutes",
    CoefficientPhase = "coefficient_phase",
    SquaresToIdentity = "pauli_squares_to_identity",
    MeasurementPhaseSign = "measurement_phase_sign",
    PauliText = "pauli_string",
    Display = "display",
    ActiveMul = "ActivePauli::mul",
    ActiveAnticommutes = "ActivePauli::anticommutes",
    ActiveIsHermitian = "ActivePauli::is_hermitian",
    ActiveRaised = "ActivePauli::raised",
    ActiveDropped = "ActivePauli::dropped (model)",
    ActiveXBit = "ActivePauli::x_bit",
    ActiveZBit = "ActivePauli::z_bit",
    PhaseFactor = "phase_factor",
    Action = "ActivePauliAction::new",
    RotationKernel = "rotation kernel",
    FromPauli = "from_pauli",
    WithPivot = "with_pivot",
    Rotate = "rotate",
    Promote = "promote",
    Probability = "probability",
    ProjectDiagonal = "project, x = 0",
    ProjectNondiagonal = "project, x not 0",
    Correct = "correct (model)",
    Run = "run, step by step",
}

/// One case, both sides asked.
pub struct Case<T> {
    /// The row of the scope's table that refuses the input.
    pub row: Option<Refusal>,
    pub ours: Answer<T>,
    pub theirs: Theirs<T>,
    pub lent: Lent,
}

/// What is left in the lent buffers.
#[derive(Clone, Copy, Default)]
pub struct Lent {
    /// Ours are not bit for bit as they were.
    pub changed: bool,
    /// Ours differ from theirs, or one of them was written where nothing is to be written.
    pub differ: bool,
    pub entries: usize,
}

#[derive(Default)]
struct Count {
    compared: u64,
    accepted: u64,
    refused: u64,
    panicked: u64,
    rows_alone: u64,
    values: u64,
    differences: BTreeMap<&'static str, u64>,
}

pub struct Tally {
    counts: Vec<Count>,
    listed: BTreeSet<String>,
    unlisted: u64,
}

/// What the Rust takes and no listed difference is about.
pub const NO_ID: &str = "without an id";

/// So many unlisted cases are printed.
const PRINTED: u64 = 20;

/// A refusal without a place, none for row 0.
pub fn row(number: u8) -> Option<Refusal> {
    let place = None;
    (number != 0).then_some(Refusal { number, place })
}

impl Tally {
    /// `listed` are the ids of the differences that may be seen.
    pub fn new(listed: BTreeSet<String>) -> Self {
        Self {
            counts: NAMES.iter().map(|_| Count::default()).collect(),
            listed,
            unlisted: 0,
        }
    }

    /// A call without buffers. `id` names the difference where the Rust takes what this row refuses, `input`
    /// is the whole input as text; neither is asked for where it is not needed.
    pub fn plain<T: Same>(
        &mut self,
        call: Call,
        number: u8,
        ours: Answer<T>,
        theirs: Theirs<T>,
        id: impl FnOnce(u8) -> &'static str,
        input: impl FnOnce() -> String,
    ) {
        let case = Case {
            row: row(number),
            ours,
            theirs,
            lent: Lent::default(),
        };
        self.judge(call, case, id, input);
    }

    pub fn judge<T: Same>(
        &mut self,
        call: Call,
        case: Case<T>,
        id: impl FnOnce(u8) -> &'static str,
        input: impl FnOnce() -> String,
    ) {
        let fault = self.fault(call, &case, id);
        if let Some(fault) = fault {
            let (row, ours, theirs) = (&case.row, &case.ours, &case.theirs);
            let answers = format!("the scope {row:?}, here {ours:?}, the Rust {theirs:?}");
            self.report(call, &format!("{fault}: {answers}"), &input());
        }
    }

    /// Counts the case, and says what is wrong with it if anything is.
    fn fault<T: Same>(
        &mut self,
        call: Call,
        case: &Case<T>,
        id: impl FnOnce(u8) -> &'static str,
    ) -> Option<String> {
        let count = &mut self.counts[call as usize];
        if matches!(case.theirs, Theirs::NotAsked) {
            count.rows_alone += 1;
        } else {
            count.compared += 1;
        }
        count.values += case.lent.entries as u64;
        if case.ours.as_ref().err() != case.row.as_ref() {
            return Some("another row".into());
        }
        match (&case.ours, &case.theirs) {
            (Ok(ours), Theirs::Accepted(theirs)) => {
                count.values += T::VALUES;
                if !ours.same(theirs) {
                    return Some("another answer".into());
                }
                if case.lent.differ {
                    return Some("other buffers".into());
                }
                count.accepted += 1;
            }
            (Ok(_), _) => return Some("accepted here alone".into()),
            (Err(_), _) if case.lent.changed => return Some("refused, and written".into()),
            (Err(refusal), Theirs::Accepted(_)) => {
                let id = id(refusal.number);
                if !self.listed.contains(id) {
                    return Some(format!("difference {id}, which is not listed"));
                }
                *count.differences.entry(id).or_default() += 1;
            }
            (Err(_), Theirs::Error) => count.refused += 1,
            (Err(_), Theirs::Panicked) => {
                count.refused += 1;
                count.panicked += 1;
            }
            (Err(_), Theirs::NotAsked) => {}
        }
        None
    }

    /// A case that was judged by its caller: both accept, so many values are equal.
    pub fn equal(&mut self, call: Call, values: u64) {
        let count = &mut self.counts[call as usize];
        count.compared += 1;
        count.accepted += 1;
        count.values += values;
    }

    /// The same, the Rust not asked.
    pub fn row_alone(&mut self, call: Call) {
        self.counts[call as usize].rows_alone += 1;
    }

    /// The same, both accept, and differ in the way that is listed.
    pub fn differs(&mut self, call: Call, id: &'static str) {
        let count = &mut self.counts[call as usize];
        count.compared += 1;
        *count.differences.entry(id).or_default() += 1;
        if !self.listed.contains(id) {
            self.report(call, "a difference which is not listed", id);
        }
    }

    pub fn report(&mut self, call: Call, fault: &str, input: &str) {
        self.fail(&format!(
            "{}: {fault}\n  input: {input}",
            NAMES[call as usize]
        ));
    }

    pub fn fail(&mut self, what: &str) {
        self.unlisted += 1;
        if self.unlisted <= PRINTED {
            println!("UNLISTED {what}");
        }
    }

    pub fn unlisted(&self) -> u64 {
        self.unlisted
    }

    pub fn compared(&self) -> u64 {
        self.counts.iter().map(|count| count.compared).sum()
    }

    /// How often each difference was seen.
    pub fn differences(&self) -> BTreeMap<&'static str, u64> {
        let mut all = BTreeMap::new();
        for (id, seen) in self.counts.iter().flat_map(|count| &count.differences) {
            *all.entry(*id).or_default() += seen;
        }
        all
    }

    pub fn print(&self) {
        let head = ["compared", "accepted", "refused", "panicked", "rows alone"];
        print_line("call", &head.map(String::from), "differences");
        for (name, count) in NAMES.iter().zip(&self.counts) {
            let numbers = numbers(count).map(|number| number.to_string());
            let each = count.differences.iter();
            let differences: Vec<_> = each.map(|(id, seen)| format!("{id} {seen}")).collect();
            print_line(name, &numbers, &differences.join(", "));
        }
        let mut total = [0; 5];
        for count in &self.counts {
            for (sum, number) in total.iter_mut().zip(numbers(count)) {
                *sum += number;
            }
        }
        let seen = self.differences().values().sum::<u64>();
        print_line(
            "total",
            &total.map(|number| number.to_string()),
            &seen.to_string(),
        );
        let values: u64 = self.counts.iter().map(|count| count.values).sum();
        println!("values and buffer entries compared: {values}");
    }
}

fn numbers(count: &Count) -> [u64; 5] {
    [
        count.compared,
        count.accepted,
        count.refused,
        count.panicked,
        count.rows_alone,
    ]
}

fn print_line(name: &str, numbers: &[String; 5], differences: &str) {
    let [a, b, c, d, e] = numbers;
    let line = format!("{name:<30}{a:>10}{b:>10}{c:>10}{d:>10}{e:>12}  {differences}");
    println!("{}", line.trim_end());
}
