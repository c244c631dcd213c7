//! Answers held against the expected ones, counted by call and row.

use crate::convert::row_of;
use crate::tally::Findings;
use naribhush::Answer;
use std::collections::BTreeMap;
use std::fmt::Debug;

/// Row 0 counts what was accepted.
pub const ROWS: usize = 26;

#[derive(Default)]
pub struct Outcomes {
    pub seed: u64,
    pub wrong: Findings,
    calls: BTreeMap<&'static str, [u64; ROWS]>,
}

impl Outcomes {
    /// Counts the call, and notes an answer that is not the expected one.
    pub fn answered<T: PartialEq + Debug>(
        &mut self,
        call: &'static str,
        answer: &Answer<T>,
        expected: &Answer<T>,
        input: impl FnOnce() -> String,
    ) {
        let row = row_of(answer) as usize;
        self.calls.entry(call).or_default()[row] += 1;
        if answer != expected {
            let answers = format!("answers {answer:?}, not {expected:?}");
            self.note(call, &answers, input);
        }
    }

    /// Notes what does not hold of a call.
    pub fn holds(
        &mut self,
        call: &'static str,
        what: &str,
        holds: bool,
        input: impl FnOnce() -> String,
    ) {
        if !holds {
            self.note(call, &format!("not so: {what}"), input);
        }
    }

    fn note(&mut self, call: &str, what: &str, input: impl FnOnce() -> String) {
        let description = format!("{call} {what}; {}", input());
        self.wrong.note(self.seed, &description);
    }

    pub fn total(&self) -> u64 {
        self.calls.values().flatten().sum()
    }

    pub fn refused(&self) -> u64 {
        let refused = self.calls.values().flat_map(|rows| &rows[1..]);
        refused.sum()
    }

    /// The rows, none included, of these calls that never came.
    pub fn missing(&self, wanted: &[(&'static str, &[u8])]) -> Vec<String> {
        let mut missing = Vec::new();
        for (call, rows) in wanted {
            let seen = self.calls.get(call).copied().unwrap_or_default();
            let unseen = rows.iter().filter(|row| seen[**row as usize] == 0);
            missing.extend(unseen.map(|row| format!("{call} by {row}")));
        }
        missing
    }

    pub fn print(&self) {
        println!("calls, by the row that refused them, 0 where none did");
        for (call, rows) in &self.calls {
            let seen = (0..ROWS).filter(|row| rows[*row] > 0);
            let counts = seen.map(|row| format!("{row}: {}", rows[row]));
            println!("{call:30} {}", counts.collect::<Vec<_>>().join(", "));
        }
    }
}
