//! Holds the proved calls against the published Rust, bit for bit.
//!
//!   against DIFFERENCES [TIMES [SEED]]
//!
//! DIFFERENCES is docs/DIFFERENCES.md, TIMES a factor for the number of random cases. Both sides get the same
//! inputs. Where the scope's table refuses none, both must accept and agree in the answer and in every entry of
//! every lent buffer. Where it refuses one, the proved call must name that row and write nothing, and the Rust
//! must refuse too or the case must fall under a difference that the file lists.

mod amplitudes;
mod buffers;
mod differences;
mod inputs;
mod kernels;
mod paulis;
mod published;
mod runs;
mod same;
mod tally;
mod texts;

use std::process::ExitCode;
use std::time::Instant;

use amplitudes::Comparison;
use buffers::Sides;
use inputs::Stock;
use model::dice::Dice;
use tally::Tally;

const SEED: u64 = 20260817;

/// All cases. The random parts have dice of their own, so that one does not move the others.
fn compare(tally: &mut Tally, times: f64, seed: u64) {
    let rounds = |many: u32| (f64::from(many) * times) as usize;
    let dice = |part: u64| Dice(seed.wrapping_mul(16).wrapping_add(part));
    paulis::exhaustive(tally);
    paulis::random(tally, &mut dice(1), rounds(3_000_000));
    texts::exhaustive(tally);
    texts::random(tally, &mut dice(2), rounds(2_000_000));
    kernels::exhaustive(tally);
    kernels::random(tally, &mut dice(3), rounds(3_000_000));

    let stock = &Stock::new(&mut dice(4));
    let mut on_amplitudes = Comparison {
        tally,
        dice: dice(5),
        stock,
        sides: Sides::default(),
    };
    on_amplitudes.exhaustive();
    on_amplitudes.lengths(rounds(300));
    on_amplitudes.limits(rounds(20_000));
    on_amplitudes.random(rounds(8_000_000));
    on_amplitudes.runs(rounds(3_000_000));
}

fn main() -> ExitCode {
    assert_eq!(ticit::contiguous::backend_name(), "scalar");
    let mut arguments = std::env::args().skip(1);
    let file = arguments.next().expect("the file of differences");
    let times = arguments.next().unwrap_or("1".into());
    let times: f64 = times.parse().expect("a factor");
    let seed = arguments.next().map(|word| word.parse().expect("a seed"));
    let seed = seed.unwrap_or(SEED);

    let began = Instant::now();
    published::quiet_while_asking();
    let text = std::fs::read_to_string(&file).expect("the file of differences");
    let listed = differences::read(&text);
    let by_cases = listed.iter().filter(|row| row.by_cases);
    let ids: Vec<_> = by_cases.map(|row| row.id.clone()).collect();
    let mut tally = Tally::new(ids.iter().cloned().collect());

    differences::faults(&listed)
        .iter()
        .for_each(|fault| tally.fail(fault));
    compare(&mut tally, times, seed);
    let seen = tally.differences();
    for id in ids.iter().filter(|id| !seen.contains_key(id.as_str())) {
        tally.fail(&format!("{id} is listed, and no case showed it"));
    }

    tally.print();
    let inputs = listed.len();
    println!("rows of the list of differences whose own input was run: {inputs}");
    println!("seed {seed}, {:.0} seconds", began.elapsed().as_secs_f64());
    println!(
        "compared {}, unlisted {}",
        tally.compared(),
        tally.unlisted()
    );
    ExitCode::from(u8::from(tally.unlisted() != 0))
}
