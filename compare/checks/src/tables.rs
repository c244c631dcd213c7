//! Tables of counts. What a table names has to be seen.

use crate::tally::{Tallies, Tally};

pub trait Counts {
    /// One count, or one for each caller.
    fn of_name(&self, name: &'static str) -> Vec<u64>;
}

impl Counts for Tally {
    fn of_name(&self, name: &'static str) -> Vec<u64> {
        vec![self.count(name)]
    }
}

impl Counts for Tallies {
    fn of_name(&self, name: &'static str) -> Vec<u64> {
        self.counts(name).to_vec()
    }
}

pub struct Table<'a> {
    pub title: &'static str,
    pub counts: &'a dyn Counts,
    /// In lists, one below the other.
    pub names: &'static [&'static [&'static str]],
}

impl Table<'_> {
    pub fn print(&self) {
        println!("{}", self.title);
        for name in self.names.concat() {
            let counts = self.counts.of_name(name).into_iter();
            let counts: String = counts.map(|count| format!(" {count:>9}")).collect();
            println!("  {name:46}{counts}");
        }
    }

    /// Those that were never counted, of one of the callers at least.
    pub fn missing(&self) -> Vec<&'static str> {
        let mut names = self.names.concat();
        names.retain(|name| self.counts.of_name(name).contains(&0));
        names
    }
}

pub fn print_all(tables: &[Table]) {
    tables.iter().for_each(Table::print);
}

pub fn all_missing(tables: &[Table]) -> Vec<&'static str> {
    tables.iter().flat_map(Table::missing).collect()
}
