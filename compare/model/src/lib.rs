//! What the scope (document 01) says of refusals, runs, carrying and corrections, and requests E13, E8, E12, E2, E7 and E10 of
//! document 02 of quarter turns, of the emulator, of the search for a start, of runs without corrections, of reports of a step and of
//! the chip's frame log, written a second time, so that the comparisons have an answer to hold the proved calls to where the published
//! Rust has none. run, carry, seek, fold, report and log were written by those who had not opened the proved crates; pauli and rows
//! by one who had read them.

pub mod carry;
pub mod dice;
pub mod fold;
pub mod log;
pub mod pauli;
pub mod report;
pub mod rows;
pub mod run;
#[cfg(test)]
mod samples;
pub mod seek;
