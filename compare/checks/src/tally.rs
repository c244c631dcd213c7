//! Counts by name, and what was found wrong.

use crate::callers::Who;
use std::collections::BTreeMap;

#[derive(Default)]
pub struct Tally(BTreeMap<&'static str, u64>);

impl Tally {
    pub fn add(&mut self, name: &'static str, count: usize) {
        *self.0.entry(name).or_default() += count as u64;
    }

    pub fn add_each(&mut self, names: &[&'static str]) {
        names.iter().for_each(|name| self.add(name, 1));
    }

    /// Those of these names whose case was met.
    pub fn count_met(&mut self, names: &[(bool, &'static str)]) {
        for &(met, name) in names {
            self.add(name, usize::from(met));
        }
    }

    pub fn count(&self, name: &'static str) -> u64 {
        self.0.get(name).copied().unwrap_or(0)
    }
}

/// The names of those that were never counted.
pub fn unseen(counts: &[(u64, &'static str)]) -> Vec<&'static str> {
    let unseen = counts.iter().filter(|(count, _)| *count == 0);
    unseen.map(|(_, name)| *name).collect()
}

/// Counts by the name and by the caller whose calls were made.
#[derive(Default)]
pub struct Tallies {
    service: Tally,
    emulator: Tally,
}

impl Tallies {
    pub fn of(&mut self, who: Who) -> &mut Tally {
        match who {
            Who::Service => &mut self.service,
            Who::Emulator => &mut self.emulator,
        }
    }

    /// The service's, and the emulator's.
    pub fn counts(&self, name: &'static str) -> [u64; 2] {
        [&self.service, &self.emulator].map(|seen| seen.count(name))
    }
}

/// What was found wrong; the first few are printed.
#[derive(Default)]
pub struct Findings(pub u64);

const SHOWN: u64 = 5;

impl Findings {
    pub fn note(&mut self, seed: u64, description: &str) {
        self.0 += 1;
        if self.0 <= SHOWN {
            println!("WRONG in the case of seed {seed}: {description}");
        }
    }
}
