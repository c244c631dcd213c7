//! What the programs share: lent buffers that fault on an access outside them, bit-exact comparison,
//! random input of every kind, and the checks themselves.

pub mod callers;
pub mod case;
pub mod clock;
pub mod convert;
pub mod direct_amplitudes;
pub mod direct_past;
pub mod direct_paulis;
pub mod draw;
pub mod floats;
pub mod folding;
pub mod given;
pub mod judging;
pub mod largest;
pub mod lent;
#[cfg(test)]
mod letters;
pub mod listings;
pub mod logging;
pub mod merging;
pub mod mutate;
pub mod numbers;
pub mod offered_logs;
pub mod offers;
pub mod outcomes;
pub mod passed;
pub mod patterns;
pub mod reporting;
pub mod seeking;
pub mod state;
pub mod tables;
pub mod tally;
pub mod totals;
pub mod trials;
pub mod two_callers;
pub mod two_files;
pub mod two_ways;
pub mod wide;
