//! Calls timed side by side. A call's time is the least of many repetitions. The calls take turns, so that what else the machine
//! does, or a clock that changes its pace, meets them all alike.

use std::hint::black_box;
use std::time::{Duration, Instant};

pub type Call<'a> = &'a mut dyn FnMut();

/// The width of a line's label.
const LABEL: usize = 60;

/// What a timed call answers, and does not have to be looked at.
pub fn used<T>(answer: T) {
    drop(black_box(answer));
}

/// A name, and what is reckoned from the times of a line.
pub type Figure = (&'static str, fn(&[f64]) -> f64);

/// A table of times and figures.
pub struct Table {
    pub title: &'static str,
    pub calls: &'static [&'static str],
    pub figures: &'static [Figure],
    pub repetitions: u64,
}

impl Table {
    pub fn print_head(&self) {
        println!("{}", self.title);
        print!("{:LABEL$}", "");
        self.calls.iter().for_each(|name| print!(" {name:>10}"));
        let names = self.figures.iter().map(|figure| figure.0);
        names.for_each(|name| print!(" {name:>13}"));
        println!();
    }

    /// The calls in the order of the table, their times in microseconds.
    pub fn print_line(&self, label: &str, calls: &mut [Call]) {
        assert_eq!(calls.len(), self.calls.len(), "{label}");
        let times = least_times(calls, self.repetitions);
        let times: Vec<f64> = times.iter().map(|time| time.as_secs_f64() * 1e6).collect();
        print!("{:LABEL$}", format!("  {label}"));
        times.iter().for_each(|time| print!(" {time:>10.2}"));
        let figures = self.figures.iter().map(|figure| figure.1(&times));
        figures.for_each(|figure| print!(" {figure:>13.2}"));
        println!();
    }
}

fn least_times(calls: &mut [Call], repetitions: u64) -> Vec<Duration> {
    let mut least = vec![Duration::MAX; calls.len()];
    for _ in 0..repetitions {
        for (call, least) in calls.iter_mut().zip(&mut least) {
            let began = Instant::now();
            call();
            *least = began.elapsed().min(*least);
        }
    }
    least
}
