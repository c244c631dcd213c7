//! Parts of amplitudes that two ways of a run left, summed up by where the theorem's premise holds.

use crate::tally::unseen;
use crate::two_ways::Outcome;

/// Of runs whose amplitudes are finite throughout, or not so from the start or from some step on.
#[derive(Default)]
pub struct Amplitudes {
    finite: Totals,
    from_the_start: Totals,
    from_a_step: Totals,
}

#[derive(Default)]
struct Totals {
    runs: u64,
    compared: u64,
    zeros_of_two_signs: u64,
    both_nan: u64,
    differing: u64,
    runs_that_differ: u64,
}

impl Totals {
    fn add(&mut self, outcome: &Outcome) {
        let parts = &outcome.parts;
        self.runs += 1;
        self.compared += parts.compared as u64;
        self.zeros_of_two_signs += parts.zeros_of_two_signs as u64;
        self.both_nan += parts.both_nan as u64;
        self.differing += parts.differing as u64;
        self.runs_that_differ += u64::from(parts.differing > 0);
    }

    fn print(&self, name: &str) {
        println!(
            "{name:34} {:>10} {:>12} {:>12} {:>10} {:>10} {:>10}",
            self.runs,
            self.compared,
            self.zeros_of_two_signs,
            self.both_nan,
            self.differing,
            self.runs_that_differ,
        );
    }
}

impl Amplitudes {
    pub fn add(&mut self, outcome: &Outcome) {
        let totals = match (outcome.finite, outcome.finite_start) {
            (true, _) => &mut self.finite,
            (false, true) => &mut self.from_a_step,
            (false, false) => &mut self.from_the_start,
        };
        totals.add(outcome);
    }

    pub fn print(&self) {
        println!(
            "{:34} {:>10} {:>12} {:>12} {:>10} {:>10} {:>10}",
            "amplitudes, by parts",
            "runs",
            "compared",
            "zeros +/-",
            "NaN both",
            "different",
            "in runs",
        );
        self.finite.print("finite throughout");
        self.from_a_step
            .print("finite at the start, not throughout");
        self.from_the_start.print("not finite at the start");
    }

    /// What should have been seen and was not.
    pub fn missing(&self) -> Vec<&'static str> {
        unseen(&[
            (self.finite.zeros_of_two_signs, "zeros of two signs"),
            (self.from_the_start.runs, "start that is not finite"),
            (self.from_a_step.runs, "step that leaves no finite state"),
            // Nothing is promised there. That some differ shows that a difference is noticed.
            (
                self.from_the_start.differing,
                "difference, start not finite",
            ),
            (self.from_a_step.differing, "difference, later not finite"),
        ])
    }
}
