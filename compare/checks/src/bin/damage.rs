//! damage [CASES] [SEED] [heap]: every call with damaged or random input.
//!
//! A case offers bytes to each call that takes a run, those that carry a Pauli, that seek a start, that report a step and that write or
//! judge a log with any numbers for the Pauli and the step and any bytes for the log, those that fold, list and log with an output of
//! any length, and makes each of the other calls once. Case i throws the dice of SEED + i.
//! Ends with 1 if anything is wrong, or if some call never met one of its rows.

use checks::case::{self, Arguments};
use checks::lent::Lender;
use checks::offers::offer;
use checks::outcomes::Outcomes;
use checks::{direct_amplitudes, direct_past, direct_paulis, mutate};
use model::dice::Dice;
use model::run::LONGEST;
use std::process::ExitCode;

const CASES: u64 = 3_000_000;
const SEED: u64 = 1;

/// The rows that each call has, 0 where none refuses it.
const WANTED: [(&str, &[u8]); 80] = [
    ("read", &[0, 3, 6, 7, 8, 9, 10, 11, 12, 14, 15]),
    ("read a quarter turn", &[0, 3, 6, 7, 14]),
    ("check_run", &[0, 3, 7, 8, 9, 10, 11, 12, 14, 15]),
    ("check_within", &[0, 3, 6, 7, 8, 9, 10, 11, 12, 14, 15]),
    ("run", &[0, 3, 7, 8, 9, 10, 11, 12, 14, 15]),
    ("run, the call's own", &[13]),
    ("serve", &[0, 3, 7, 8, 9, 10, 11, 12, 14, 15]),
    ("serve, the call's own", &[13]),
    ("carry", &[0, 3, 7, 8, 9, 10, 11, 12, 14, 15]),
    ("carry, the call's own", &[3, 4, 16]),
    ("seek", &[0, 3, 7, 8, 9, 10, 11, 12, 14, 15]),
    ("seek, the call's own", &[3, 4, 25]),
    ("fold", &[0, 3, 7, 8, 9, 10, 11, 12, 14, 15]),
    ("fold, the call's own", &[16]),
    ("report", &[0, 3, 7, 8, 9, 10, 11, 12, 14, 15]),
    ("report, the call's own", &[3, 4, 20]),
    ("log", &[0, 3, 7, 8, 9, 10, 11, 12, 14, 15]),
    ("log, the call's own", &[3, 4, 16]),
    ("judge", &[3, 7, 8, 9, 10, 11, 12, 14, 15]),
    ("judge, the call's own", &[3, 4, 24]),
    ("judge, yes", &[0]),
    ("judge, no", &[0]),
    ("read_emulated", &[0, 3, 7, 8, 9, 10, 11, 12, 14, 21]),
    ("read_emulated, a quarter turn", &[0, 3, 7, 14]),
    ("check_emulated", &[0, 3, 7, 8, 9, 10, 11, 12, 14, 21]),
    ("check_emulated, first field", &[14, 21]),
    ("run_emulated", &[0, 3, 7, 8, 9, 10, 11, 12, 14, 21]),
    ("run_emulated, the call's own", &[13]),
    ("serve_emulated", &[0, 3, 7, 8, 9, 10, 11, 12, 14, 21]),
    ("serve_emulated, the call's own", &[13]),
    ("carry_emulated", &[0, 3, 7, 8, 9, 10, 11, 12, 14, 21]),
    ("carry_emulated, the call's own", &[3, 4, 16]),
    ("seek_emulated", &[0, 3, 7, 8, 9, 10, 11, 12, 14, 21]),
    ("seek_emulated, the call's own", &[3, 4, 25]),
    ("fold_emulated", &[0, 3, 7, 8, 9, 10, 11, 12, 14, 21]),
    ("fold_emulated, the call's own", &[16]),
    ("report_emulated", &[0, 3, 7, 8, 9, 10, 11, 12, 14, 21]),
    ("report_emulated, the call's own", &[3, 4, 20]),
    ("log_emulated", &[0, 3, 7, 8, 9, 10, 11, 12, 14, 21]),
    ("log_emulated, the call's own", &[3, 4, 16]),
    ("judge_emulated", &[3, 7, 8, 9, 10, 11, 12, 14, 21]),
    ("judge_emulated, the call's own", &[3, 4, 24]),
    ("judge_emulated, yes", &[0]),
    ("judge_emulated, no", &[0]),
    ("past", &[0, 3, 4, 10, 14]),
    ("past a quarter turn", &[0, 3, 4]),
    ("listing", &[0, 16]),
    ("list_steps", &[0, 16]),
    ("list_steps, a refusal", &[0, 16]),
    ("insert_zero_bit", &[0, 5]),
    ("set_packed_bit", &[0, 14]),
    ("pauli_identity", &[0, 3]),
    ("x_bit", &[0, 3, 5]),
    ("z_bit", &[0, 3, 5]),
    ("get", &[0, 3, 5]),
    ("set", &[0, 3, 5, 14]),
    ("coefficient_phase", &[0, 3]),
    ("pauli_squares_to_identity", &[0, 3]),
    ("max_support", &[0, 3]),
    ("measurement_phase_sign", &[0, 3, 7]),
    ("mul", &[0, 3, 4]),
    ("pauli_anticommutes", &[0, 3, 4]),
    ("pauli_string", &[0, 1, 2]),
    ("display", &[0, 3, 16]),
    ("active x_bit", &[0, 3, 5]),
    ("active z_bit", &[0, 3, 5]),
    ("dropped", &[0, 3, 5]),
    ("raised", &[0, 3]),
    ("active is_hermitian", &[0, 3]),
    ("active mul", &[0, 3, 4]),
    ("active anticommutes", &[0, 3, 4]),
    ("action", &[0, 3, 6, 7]),
    ("rotation kernel", &[0, 3, 6, 7, 8]),
    ("with_pivot", &[0, 3, 6, 7, 9, 10, 11, 12]),
    ("from_pauli", &[0, 3, 6, 7, 9, 11]),
    ("rotate", &[0, 3, 6, 7, 8, 13, 14]),
    ("promote", &[0, 3, 6, 8, 13]),
    ("project", &[0, 3, 6, 7, 8, 9, 10, 11, 12, 13, 14]),
    ("probability", &[0, 3, 6, 7, 9, 10, 11, 12, 13, 14]),
    ("correct", &[0, 3, 6, 13]),
];

fn try_case(lender: &Lender, seed: u64, seen: &mut Outcomes) {
    let mut dice = Dice(seed);
    seen.seed = seed;
    let bytes = mutate::offered(&mut dice);
    offer(lender, &mut dice, &bytes, seen);
    direct_paulis::call_all(lender, &mut dice, seen);
    direct_amplitudes::call_all(lender, &mut dice, seen);
    direct_past::call(&mut dice, seen);
}

fn try_long_runs(lender: &Lender, seed: u64, seen: &mut Outcomes) {
    let mut dice = Dice(seed);
    seen.seed = seed;
    for bytes in mutate::long_runs(&mut dice) {
        offer(lender, &mut dice, &bytes, seen);
    }
    for (length, fits) in [(LONGEST, true), (LONGEST + 1, false)] {
        let bytes = lender.lend(&mut dice.clone(), &mutate::run_of_length(&mut dice, length));
        let right = naribhush::check_run(&bytes).is_ok() == fits;
        let input = || format!("a run of {length} bytes");
        seen.holds("check_run", "accepted if not too long", right, input);
    }
}

fn main() -> ExitCode {
    let Arguments { count, seed, heap } = Arguments::read(CASES, SEED);
    case::name_faults();
    let lender = Lender::new(heap);
    let mut seen = Outcomes::default();

    case::begin(seed);
    try_long_runs(&lender, seed, &mut seen);
    for seed in (0..count).map(|at| seed.wrapping_add(at)) {
        case::begin(seed);
        try_case(&lender, seed, &mut seen);
    }

    println!("{count} cases from seed {seed}");
    seen.print();
    println!("{} calls, {} of them refused", seen.total(), seen.refused());
    let missing = seen.missing(&WANTED);
    println!("wrong: {}; never seen: {missing:?}", seen.wrong.0);
    ExitCode::from(u8::from(seen.wrong.0 > 0 || !missing.is_empty()))
}
