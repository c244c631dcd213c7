//! ratios [REPETITIONS] [SEED]: what calls cost, set against other calls on the same run.
//!
//! Prints a table for each call that is looked at: the least time of REPETITIONS repetitions of it and of the calls beside it,
//! which take turns, in microseconds, and ratios of these. Times depend on the machine, ratios far less so. Nothing is judged by
//! its time; what the calls answer is held against the model, and the program stops where it is wrong.
//!
//! seek : check, seek : carry and walks, on runs of 65,536 bytes or just under that start on 12 qubits (on 6 for the emulator), and
//! on one without a step. A seek checks the run, carries past it at most 24 Paulis of one letter (12 for the emulator) and then
//! one for the phase, some 26 walks of the run in all, and solves for 24 bits in words of 48, which does not grow with the run. A
//! carry checks the run, and walks it a second time with one Pauli; so `walks`, what a seek takes over a check in units of what a
//! carry takes over a check, is to be some 25. Without a step the clock itself is a part of each time.
//!
//! fold : check and fold : carry, on the same runs and on runs of which half are corrections.
//!
//! A further call gets a table of its own: a function like `seeks`, called in `main`.

use checks::callers::Who;
use checks::case::Arguments;
use checks::clock::{Call, Table, used};
use checks::convert::{active, pauli};
use checks::folding::told;
use checks::{draw, largest};
use model::dice::Dice;
use model::pauli::Pauli;
use model::run::Run;
use model::seek::{Ends, end_of, serves};
use std::hint::black_box;

const REPETITIONS: u64 = 300;
const SEED: u64 = 1;

fn main() {
    let Arguments { count, seed, .. } = Arguments::read(REPETITIONS, SEED);
    println!("microseconds, the least of {count} repetitions; runs from seed {seed}");
    seeks(&mut Dice(seed), count);
    folds(&mut Dice(seed), count);
}

// ------------------------------------------------------------------ seeking

fn seeks(dice: &mut Dice, repetitions: u64) {
    let table = Table {
        title: "seeking a start, in checks and carries of the same run",
        calls: &["seek", "check", "carry"],
        figures: &[
            ("seek : check", |times| times[0] / times[1]),
            ("seek : carry", |times| times[0] / times[2]),
            ("walks", |times| {
                (times[0] - times[1]) / (times[2] - times[1])
            }),
        ],
        repetitions,
    };
    table.print_head();
    let widest = Who::Service.caller().widest;
    for (name, run) in runs(dice, widest) {
        seek_line(&table, dice, Who::Service, name, &run);
    }
    let run = largest::projections_and_promotions(dice, widest);
    no_start_line(&table, dice, "projections, promotions, no start (25)", &run);
    let run = largest::mixed(dice, Who::Emulator.caller().widest);
    seek_line(&table, dice, Who::Emulator, "mixed, by the emulator", &run);
}

fn runs(dice: &mut Dice, width: usize) -> [(&'static str, Run); 7] {
    let steps = Vec::new();
    [
        ("no step", Run { width, steps }),
        ("corrections", largest::corrections(dice, width)),
        ("rotations", largest::rotations(dice, width)),
        ("quarter turns", largest::quarter_turns(dice, width)),
        (
            "projections and promotions in turn",
            largest::projections_and_promotions(dice, width),
        ),
        (
            "quarter turns, then projections to no qubits",
            largest::projections_at_the_end(dice, width),
        ),
        ("mixed", largest::mixed(dice, width)),
    ]
}

/// The end is one by carrying a start, so that there is one to find.
fn seek_line(table: &Table, dice: &mut Dice, who: Who, name: &str, run: &Run) {
    let end = end_of(run, draw::pauli(dice, run.width));
    let start = who.seek(&run.bytes(), active(end)).map(pauli);
    let found = start.is_ok_and(|start| serves(run, start, end));
    assert!(found, "{name}: {start:?} for {end:?}");
    time_seek(table, who, name, run, end);
}

fn no_start_line(table: &Table, dice: &mut Dice, name: &str, run: &Run) {
    let (last, ends) = (run.survey().width, Ends::of(run));
    let mut drawn = (0..1000).map(|_| draw::pauli(dice, last));
    let end = drawn.find(|end| !ends.have(*end));
    let end = end.expect("an end that is not reached");
    let answered = Who::Service.seek(&run.bytes(), active(end));
    let refused = answered.is_err_and(|refusal| refusal.number == 25);
    assert!(refused, "{name}: {answered:?} for {end:?}");
    time_seek(table, Who::Service, name, run, end);
}

fn time_seek(table: &Table, who: Who, name: &str, run: &Run, end: Pauli) {
    let (bytes, end) = (run.bytes(), active(end));
    let mut seek = || used(who.seek(black_box(&bytes), end));
    time(table, who, name, run, &mut seek);
}

/// A call beside a check and a carry. The Pauli that is carried has every letter a Y, so that it meets what it can.
fn time(table: &Table, who: Who, name: &str, run: &Run, call: Call) {
    let bytes = run.bytes();
    let mut out = vec![0; bytes.len()];
    let ones = draw::low_bits(run.width);
    let carried = active(Pauli {
        x: ones,
        z: ones,
        ..Pauli::identity(run.width)
    });
    let mut check = || used(who.check(black_box(&bytes)));
    let mut carry = || used(who.carry(black_box(&bytes), carried, &mut out));
    let label = format!("{name}, {} bytes", bytes.len());
    table.print_line(&label, &mut [call, &mut check, &mut carry]);
}

// ------------------------------------------------------------------ folding

fn folds(dice: &mut Dice, repetitions: u64) {
    let table = Table {
        title: "folding, in checks and carries of the same run",
        calls: &["fold", "check", "carry"],
        figures: &[
            ("fold : check", |times| times[0] / times[1]),
            ("fold : carry", |times| times[0] / times[2]),
        ],
        repetitions,
    };
    table.print_head();
    let widest = Who::Service.caller().widest;
    for (name, run) in runs(dice, widest) {
        fold_line(&table, Who::Service, name, &run);
    }
    let run = largest::half_corrections(dice, widest);
    fold_line(&table, Who::Service, "half corrections", &run);
    let run = largest::half_corrections(dice, Who::Emulator.caller().widest);
    let name = "half corrections, by the emulator";
    fold_line(&table, Who::Emulator, name, &run);
}

fn fold_line(table: &Table, who: Who, name: &str, run: &Run) {
    let bytes = run.bytes();
    let (expected, written) = told(&bytes, who.caller(), bytes.len());
    let mut out = vec![0; written.len()];
    let answered = who.fold(&bytes, &mut out);
    assert!(
        answered == expected && out == written,
        "{name}: {answered:?}"
    );
    let mut fold = || used(who.fold(black_box(&bytes), &mut out));
    time(table, who, name, run, &mut fold);
}
