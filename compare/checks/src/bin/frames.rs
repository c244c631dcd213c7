//! frames [RUNS] [SEED] [heap]: demand 3 on random runs and on all single steps of few qubits, by the service's calls and,
//! where the emulator takes the run, by its calls too; that the two callers leave the same state and carry alike; by each
//! caller that takes the run, E11 with a second Pauli, E12 with ends that are named, and E2 with corrections put in; by the
//! service's, E6: the listings of the run with the Pauli and of the carried run with its end; and, by both, E7: reports of some
//! steps, with the service's list of all, and E10: the frame log, judged as it is and in many ways damaged.
//!
//! Run i throws the dice of SEED + i. Ends with 1 if anything is wrong, or if something that the program is
//! meant to see was never seen.

use checks::callers::{BOTH, Who};
use checks::case::{self, Arguments};
use checks::folding::{self, Folded, Original};
use checks::given::Given;
use checks::lent::Lender;
use checks::patterns::hex;
use checks::reporting::{self, Questions};
use checks::seeking::{self, Asked, Named};
use checks::tables::{Table, all_missing, print_all};
use checks::tally::{Findings, Tallies, Tally, unseen};
use checks::totals::Amplitudes;
use checks::trials::{random_trial, single_step_trials, single_steps};
use checks::two_callers::{self, Agreement};
use checks::two_files::{self, Pair};
use checks::two_ways::{Outcome, Trial, compare};
use checks::{draw, judging, largest, logging, merging, passed};
use model::dice::Dice;
use model::pauli::{Pauli, paulis};
use model::run::{Caller, EMULATOR, LIMIT, LONGEST, Run};
use model::seek::Ends;
use std::process::ExitCode;

const RUNS: u64 = 1_000_000;
const SEED: u64 = 1;
const ROUNDS: usize = 4;

/// Counted in finite runs only, and each has to be seen there, as each of `passed::STEPS`.
const WANTED: [&str; 6] = [
    "correction, phase kept",
    "correction, phase raised",
    "empty list",
    "list that ends on no qubits",
    "list that reaches the widest state",
    "start at the widest state",
];

/// A part of what is checked: what it found wrong, and what it counts.
trait Part {
    fn wrong(&self) -> &Findings;

    fn tables(&self) -> Vec<Table<'_>>;

    fn print(&self) {
        print_all(&self.tables());
    }

    /// What should have been seen and was not.
    fn missing(&self) -> Vec<&'static str> {
        all_missing(&self.tables())
    }
}

/// Of one caller.
struct Seen {
    who: Who,
    starts: [u64; LIMIT + 1],
    steps: Tally,
    amplitudes: Amplitudes,
    wrong: Findings,
}

/// Of runs offered to both callers.
#[derive(Default)]
struct Both {
    runs: u64,
    compared: u64,
    not_finite: u64,
    service_alone: u64,
    wrong: Findings,
}

/// Of two corrections that are merged, by each caller.
#[derive(Default)]
struct Merges {
    seen: Tallies,
    wrong: Findings,
}

/// Of starts that are sought for an end, by each caller.
#[derive(Default)]
struct Seeks {
    seen: Tallies,
    wrong: Findings,
}

/// Of runs that are folded, by each caller.
#[derive(Default)]
struct Folds {
    seen: Tallies,
    amplitudes: Amplitudes,
    wrong: Findings,
}

/// Of the two files of a carried run, which the service lists.
#[derive(Default)]
struct Files {
    seen: Tally,
    wrong: Findings,
}

/// Of steps that are reported, by each caller, and listed, by the service.
#[derive(Default)]
struct Reports {
    seen: Tallies,
    lists: Tally,
    wrong: Findings,
}

/// Of frame logs that are written and judged, by each caller.
#[derive(Default)]
struct Logs {
    seen: Tallies,
    wrong: Findings,
}

struct All {
    service: Seen,
    emulator: Seen,
    both: Both,
    merges: Merges,
    seeks: Seeks,
    folds: Folds,
    files: Files,
    reports: Reports,
    logs: Logs,
}

impl Seen {
    fn by(who: Who) -> Self {
        Self {
            who,
            starts: [0; LIMIT + 1],
            steps: Tally::default(),
            amplitudes: Amplitudes::default(),
            wrong: Findings::default(),
        }
    }

    fn try_one(&mut self, lender: &Lender, dice: &mut Dice, seed: u64, trial: &Trial) {
        self.starts[trial.run.width] += 1;
        match compare(lender, dice, self.who, trial) {
            Ok(outcome) => self.add(seed, trial, &outcome),
            Err(what) => {
                let what = format!("{}: {what}", self.who.name());
                note(&mut self.wrong, seed, &what, trial);
            }
        }
    }

    fn add(&mut self, seed: u64, trial: &Trial, outcome: &Outcome) {
        self.amplitudes.add(outcome);
        if outcome.finite {
            add_steps(&mut self.steps, self.who.caller(), trial);
        }
        if outcome.is_wrong() {
            let name = self.who.name();
            let what = format!("{name}: the two ways end in different numbers");
            note(&mut self.wrong, seed, &what, trial);
        }
    }

    /// By the widths that the caller takes.
    fn starts(&self) -> &[u64] {
        &self.starts[..=self.who.caller().widest]
    }
}

impl Part for Seen {
    fn wrong(&self) -> &Findings {
        &self.wrong
    }

    fn tables(&self) -> Vec<Table<'_>> {
        vec![Table {
            title: "steps and lists of the finite runs",
            counts: &self.steps,
            names: &[&passed::STEPS, &WANTED],
        }]
    }

    fn print(&self) {
        println!("by the {}'s calls", self.who.name());
        println!("start width, runs");
        for (width, runs) in self.starts().iter().enumerate() {
            println!("{width:>11}  {runs}");
        }
        print_all(&self.tables());
        self.amplitudes.print();
    }

    fn missing(&self) -> Vec<&'static str> {
        let least = self.starts().iter().min().copied();
        let width = unseen(&[(least.unwrap_or(0), "some start width")]);
        let steps = all_missing(&self.tables());
        [steps, width, self.amplitudes.missing()].concat()
    }
}

fn note(wrong: &mut Findings, seed: u64, what: &str, trial: &Trial) {
    let description = format!("{what}; {}", trial.description());
    wrong.note(seed, &description);
}

impl Both {
    fn try_one(&mut self, lender: &Lender, dice: &mut Dice, seed: u64, trial: &Trial) {
        match two_callers::compare(lender, dice, trial) {
            Ok(Agreement::Both {
                compared,
                not_finite,
            }) => {
                self.runs += 1;
                self.compared += compared as u64;
                self.not_finite += not_finite as u64;
            }
            Ok(Agreement::ServiceAlone) => self.service_alone += 1,
            Err(what) => note(&mut self.wrong, seed, &what, trial),
        }
    }
}

impl Part for Both {
    fn wrong(&self) -> &Findings {
        &self.wrong
    }

    fn tables(&self) -> Vec<Table<'_>> {
        Vec::new()
    }

    fn print(&self) {
        println!(
            "both callers: {} runs by each from the same state, and carried by each; {} parts compared, {} of them not finite; \
             {} runs more that the emulator refuses by 21",
            self.runs, self.compared, self.not_finite, self.service_alone,
        );
    }

    fn missing(&self) -> Vec<&'static str> {
        unseen(&[
            (self.runs, "run by both callers"),
            (self.not_finite, "part that is not finite, by both callers"),
            (self.service_alone, "run of the service alone"),
        ])
    }
}

impl Merges {
    /// With dice of its own: the other checks draw what they would draw without it.
    fn try_one(&mut self, lender: &Lender, dice: &Dice, seed: u64, trial: &Trial) {
        let mut dice = Dice(!dice.0);
        let a = draw::pauli(&mut dice, trial.run.width);
        for who in takers(&trial.run) {
            match merging::compare(lender, &mut dice, who, trial, a) {
                Ok(merged) => merging::count(self.seen.of(who), trial, a, &merged),
                Err(what) => {
                    let what = format!("{}: {what}; A: {a:?}, B is Q", who.name());
                    note(&mut self.wrong, seed, &what, trial);
                }
            }
        }
    }
}

impl Part for Merges {
    fn wrong(&self) -> &Findings {
        &self.wrong
    }

    fn tables(&self) -> Vec<Table<'_>> {
        vec![Table {
            title: "two corrections B and A as one, by the service's calls and by the emulator's",
            counts: &self.seen,
            names: &[&merging::WANTED],
        }]
    }
}

impl Seeks {
    /// With dice of its own: the other checks draw what they would draw without it. A seek takes as long as many carries, so
    /// half of the many runs that start on few qubits are left out.
    fn try_one(&mut self, lender: &Lender, dice: &Dice, seed: u64, run: &Run) {
        let mut dice = Dice(dice.0.swap_bytes());
        if run.width <= EMULATOR.widest && dice.flip() {
            return;
        }
        let named = Named::draw(&mut dice, run);
        self.name(lender, &mut dice, seed, run, &Ends::of(run), &named);
    }

    /// Every end on the last qubits.
    fn try_all(&mut self, lender: &Lender, dice: &mut Dice, seed: u64, run: &Run) {
        let ends = Ends::of(run);
        for p in paulis(run.survey().width).filter(|p| p.k == 0) {
            let named = Named::four_phases(p);
            self.name(lender, dice, seed, run, &ends, &named);
        }
    }

    fn name(
        &mut self,
        lender: &Lender,
        dice: &mut Dice,
        seed: u64,
        run: &Run,
        ends: &Ends,
        named: &Named,
    ) {
        for who in takers(run) {
            let asked = Asked { who, run, ends };
            match seeking::compare(lender, dice, &asked, named) {
                Ok(answers) => seeking::count(self.seen.of(who), &asked, named, &answers),
                Err(what) => {
                    let what = format!("{}: {what}; run {}", who.name(), hex(&run.bytes()));
                    self.wrong.note(seed, &what);
                }
            }
        }
    }
}

impl Part for Seeks {
    fn wrong(&self) -> &Findings {
        &self.wrong
    }

    fn tables(&self) -> Vec<Table<'_>> {
        vec![Table {
            title: "starts sought for an end, by the service's calls and by the emulator's",
            counts: &self.seen,
            names: &[&seeking::WANTED],
        }]
    }
}

impl Folds {
    /// With dice of its own: the other checks draw what they would draw without it.
    fn try_one(&mut self, lender: &Lender, dice: &Dice, seed: u64, trial: &Trial) {
        let mut dice = Dice(dice.0.rotate_left(32));
        let original = Original::draw(&mut dice, trial);
        self.fold(lender, &mut dice, seed, &original);
    }

    fn fold(&mut self, lender: &Lender, dice: &mut Dice, seed: u64, original: &Original) {
        for who in takers(&original.run) {
            let wrong = match folding::compare(lender, dice, who, original) {
                Ok(folded) => self.add(who, original, &folded),
                Err(what) => Some(what),
            };
            if let Some(what) = wrong {
                let what = format!("{}: {what}; {}", who.name(), original.description());
                self.wrong.note(seed, &what);
            }
        }
    }

    /// What is wrong with the numbers, if anything is. The cases are counted in finite runs only.
    fn add(&mut self, who: Who, original: &Original, folded: &Folded) -> Option<String> {
        let outcome = &folded.outcome;
        self.amplitudes.add(outcome);
        if outcome.finite {
            folding::count(self.seen.of(who), who, original, folded);
        }
        let what = || "the folded run and its end Pauli end in different numbers".to_string();
        outcome.is_wrong().then(what)
    }
}

impl Part for Folds {
    fn wrong(&self) -> &Findings {
        &self.wrong
    }

    fn tables(&self) -> Vec<Table<'_>> {
        vec![Table {
            title: "runs folded, by the service's calls and by the emulator's",
            counts: &self.seen,
            names: &[&passed::STEPS, &folding::WANTED],
        }]
    }

    fn print(&self) {
        print_all(&self.tables());
        println!("the run, and the folded run with its end Pauli behind it, by either caller");
        self.amplitudes.print();
    }

    fn missing(&self) -> Vec<&'static str> {
        let cases = all_missing(&self.tables());
        [cases, self.amplitudes.missing()].concat()
    }
}

impl Files {
    /// With dice of its own: the other checks draw what they would draw without it. Texts take long to write, so half of the many
    /// runs that stay on few qubits are left out.
    fn try_one(&mut self, lender: &Lender, dice: &Dice, seed: u64, trial: &Trial) {
        let mut dice = Dice(dice.0.reverse_bits());
        if trial.run.survey().greatest < 10 && dice.flip() {
            return;
        }
        let pair = Pair::draw(&mut dice, trial);
        self.list(lender, &mut dice, seed, &pair);
    }

    fn list(&mut self, lender: &Lender, dice: &mut Dice, seed: u64, pair: &Pair) {
        match two_files::compare(lender, dice, pair) {
            Ok(listed) => two_files::count(&mut self.seen, pair, &listed),
            Err(what) => {
                let what = format!("{what}; {}", pair.description());
                self.wrong.note(seed, &what);
            }
        }
    }
}

impl Part for Files {
    fn wrong(&self) -> &Findings {
        &self.wrong
    }

    fn tables(&self) -> Vec<Table<'_>> {
        vec![Table {
            title: "two files of a carried run listed, by the service's calls",
            counts: &self.seen,
            names: &[&passed::STEPS, &two_files::WANTED],
        }]
    }
}

impl Reports {
    /// With dice of its own: the other checks draw what they would draw without it.
    fn try_one(&mut self, lender: &Lender, dice: &Dice, seed: u64, trial: &Trial) {
        let mut dice = Dice(dice.0.rotate_left(16));
        let asked = Questions::draw(&mut dice, &trial.run, trial.q);
        self.ask(lender, &mut dice, seed, &asked);
    }

    fn ask(&mut self, lender: &Lender, dice: &mut Dice, seed: u64, asked: &Questions) {
        match reporting::compare(lender, dice, asked) {
            Ok(reported) => {
                for (who, passed) in BOTH.into_iter().zip(&reported.passed) {
                    reporting::count(self.seen.of(who), who, asked, passed);
                }
                reporting::count_list(&mut self.lists, &reported);
            }
            Err(what) => {
                let what = format!("{what}; {}", asked.given.description());
                self.wrong.note(seed, &what);
            }
        }
    }
}

impl Part for Reports {
    fn wrong(&self) -> &Findings {
        &self.wrong
    }

    fn tables(&self) -> Vec<Table<'_>> {
        vec![
            Table {
                title: "steps reported, by the service's calls and by the emulator's",
                counts: &self.seen,
                names: &[&reporting::WANTED],
            },
            Table {
                title: "steps listed, by the service's calls",
                counts: &self.lists,
                names: &[&reporting::LISTS],
            },
        ]
    }
}

impl Logs {
    /// With dice of its own: the other checks draw what they would draw without it. Logs of a run are judged some fifty times, so
    /// half of the many runs that stay on few qubits are left out.
    fn try_one(&mut self, lender: &Lender, dice: &Dice, seed: u64, trial: &Trial) {
        let mut dice = Dice(dice.0.rotate_left(48));
        if takes(Who::Emulator, &trial.run) && dice.flip() {
            return;
        }
        let given = Given::draw(&mut dice, &trial.run, trial.q);
        self.log(lender, &mut dice, seed, &given);
    }

    fn log(&mut self, lender: &Lender, dice: &mut Dice, seed: u64, given: &Given) {
        for who in BOTH {
            match logging::compare(lender, dice, who, given) {
                Ok(names) => self.seen.of(who).add_each(&names),
                Err(what) => {
                    let what = format!("{}: {what}; {}", who.name(), given.description());
                    self.wrong.note(seed, &what);
                }
            }
        }
    }
}

impl Part for Logs {
    fn wrong(&self) -> &Findings {
        &self.wrong
    }

    fn tables(&self) -> Vec<Table<'_>> {
        vec![
            Table {
                title: "frame logs written, by the service's calls and by the emulator's",
                counts: &self.seen,
                names: &[&passed::STEPS, &logging::WANTED],
            },
            Table {
                title: "frame logs judged, by the service's calls and by the emulator's",
                counts: &self.seen,
                names: &[&judging::WANTED],
            },
        ]
    }
}

/// Whether a run, which the service takes, is narrow enough for the caller.
fn takes(who: Who, run: &Run) -> bool {
    run.survey().greatest <= who.caller().widest
}

fn takers(run: &Run) -> impl Iterator<Item = Who> {
    BOTH.into_iter().filter(|who| takes(*who, run))
}

impl All {
    fn new() -> Self {
        Self {
            service: Seen::by(Who::Service),
            emulator: Seen::by(Who::Emulator),
            both: Both::default(),
            merges: Merges::default(),
            seeks: Seeks::default(),
            folds: Folds::default(),
            files: Files::default(),
            reports: Reports::default(),
            logs: Logs::default(),
        }
    }

    /// By the service; by both; by the emulator where it takes the run; with a second Pauli; with ends that are named; folded.
    fn try_one(&mut self, lender: &Lender, dice: &mut Dice, seed: u64, trial: &Trial) {
        self.service.try_one(lender, dice, seed, trial);
        self.both.try_one(lender, dice, seed, trial);
        if takes(Who::Emulator, &trial.run) {
            self.emulator.try_one(lender, dice, seed, trial);
        }
        self.merges.try_one(lender, dice, seed, trial);
        self.seeks.try_one(lender, dice, seed, &trial.run);
        self.folds.try_one(lender, dice, seed, trial);
    }

    /// In the order in which they are printed.
    fn parts(&self) -> [&dyn Part; 9] {
        [
            &self.service,
            &self.emulator,
            &self.both,
            &self.merges,
            &self.seeks,
            &self.folds,
            &self.files,
            &self.reports,
            &self.logs,
        ]
    }

    fn print(&self) {
        self.parts().iter().for_each(|part| part.print());
    }

    fn wrong(&self) -> u64 {
        self.parts().iter().map(|part| part.wrong().0).sum()
    }

    fn missing(&self) -> Vec<&'static str> {
        self.parts().map(|part| part.missing()).concat()
    }
}

/// Counts what carrying did to each step.
fn add_steps(steps: &mut Tally, caller: Caller, trial: &Trial) {
    steps.add_each(&passed::along(&trial.run, trial.q));
    let seen = trial.run.survey();
    steps.add("empty list", usize::from(seen.steps == 0));
    steps.add("list that ends on no qubits", usize::from(seen.width == 0));
    let widest = |width: usize| usize::from(width == caller.widest);
    steps.add("list that reaches the widest state", widest(seen.greatest));
    steps.add("start at the widest state", widest(trial.run.width));
}

/// Every Pauli carried past every single step at widths 0 to 2, with other floats in each round.
fn all_single_steps(seen: &mut All, lender: &Lender, seed: u64) -> u64 {
    let mut dice = Dice(seed);
    let mut count = 0;
    for n in [0, 1, 2].repeat(ROUNDS) {
        for trial in single_step_trials(&mut dice, n) {
            seen.try_one(lender, &mut dice, seed, &trial);
            count += 1;
        }
    }
    count
}

/// Every end named of every run of a single step at widths 0 to 2.
fn all_ends_of_single_steps(seen: &mut Seeks, lender: &Lender, seed: u64) -> u64 {
    let mut dice = Dice(seed);
    let mut count = 0;
    for width in 0..=2 {
        for step in single_steps(&mut dice, width) {
            let steps = vec![step];
            let run = Run { width, steps };
            seen.try_all(lender, &mut dice, seed, &run);
            count += 1;
        }
    }
    count
}

/// Every Pauli fired before every single step at widths 0 to 2, and the two folded.
fn all_corrections_before_single_steps(seen: &mut Folds, lender: &Lender, seed: u64) -> u64 {
    let mut dice = Dice(seed);
    let mut count = 0;
    for width in 0..=2 {
        for trial in single_step_trials(&mut dice, width) {
            let original = Original::fired_first(&trial);
            seen.fold(lender, &mut dice, seed, &original);
            count += 1;
        }
    }
    count
}

/// Every Pauli and every run of a single step at widths 0 to 2, each handed over with the dice that chose its floats.
fn each_single_step(seed: u64, mut each: impl FnMut(&mut Dice, Run, Pauli)) -> u64 {
    let mut dice = Dice(seed);
    let mut count = 0;
    for width in 0..=2 {
        for q in paulis(width) {
            for step in single_steps(&mut dice, width) {
                let steps = vec![step];
                each(&mut dice, Run { width, steps }, q);
                count += 1;
            }
        }
    }
    count
}

/// Both files listed of each.
fn all_files_of_single_steps(seen: &mut Files, lender: &Lender, seed: u64) -> u64 {
    each_single_step(seed, |dice, run, q| {
        seen.list(lender, dice, seed, &Pair { run, q });
    })
}

/// Runs whose files have about 65,536 bytes.
fn all_longest_files(seen: &mut Files, lender: &Lender, seed: u64) -> u64 {
    let mut dice = Dice(seed);
    let mut count = 0;
    for length in LONGEST - 22..=LONGEST {
        let pair = Pair::of_length(&mut dice, length);
        seen.list(lender, &mut dice, seed, &pair);
        count += 1;
    }
    count
}

/// Each reported and listed.
fn all_reports_of_single_steps(seen: &mut Reports, lender: &Lender, seed: u64) -> u64 {
    each_single_step(seed, |dice, run, q| {
        let asked = Questions::of(dice, &run, q);
        seen.ask(lender, dice, seed, &asked);
    })
}

/// Runs of about 65,536 bytes, reported and listed.
fn all_longest_reports(seen: &mut Reports, lender: &Lender, seed: u64) -> u64 {
    let mut dice = Dice(seed);
    let mut count = 0;
    for length in LONGEST - 2..=LONGEST {
        let Pair { run, q } = Pair::of_length(&mut dice, length);
        let asked = Questions::of(&mut dice, &run, q);
        seen.ask(lender, &mut dice, seed, &asked);
        count += 1;
    }
    count
}

/// Each logged, and logs of it judged.
fn all_logs_of_single_steps(seen: &mut Logs, lender: &Lender, seed: u64) -> u64 {
    each_single_step(seed, |dice, run, q| {
        seen.log(lender, dice, seed, &Given::of(&run, q));
    })
}

/// Runs of about 65,536 bytes from the widest state of either caller, the longest log among them.
fn all_longest_logs(seen: &mut Logs, lender: &Lender, seed: u64) -> u64 {
    let mut dice = Dice(seed);
    let kinds = [largest::flags, largest::rotations, largest::mixed];
    let mut count = 0;
    for width in BOTH.map(|who| who.caller().widest) {
        for kind in kinds {
            let run = kind(&mut dice, width);
            let q = draw::pauli(&mut dice, width);
            seen.log(lender, &mut dice, seed, &Given::of(&run, q));
            count += 1;
        }
    }
    count
}

fn main() -> ExitCode {
    let Arguments { count, seed, heap } = Arguments::read(RUNS, SEED);
    case::name_faults();
    let lender = Lender::new(heap);
    let mut seen = All::new();

    case::begin(seed);
    let single = all_single_steps(&mut seen, &lender, seed);
    let named = all_ends_of_single_steps(&mut seen.seeks, &lender, seed);
    let fired = all_corrections_before_single_steps(&mut seen.folds, &lender, seed);
    let listed = all_files_of_single_steps(&mut seen.files, &lender, seed);
    let longest = all_longest_files(&mut seen.files, &lender, seed);
    let reported = all_reports_of_single_steps(&mut seen.reports, &lender, seed);
    let long = all_longest_reports(&mut seen.reports, &lender, seed);
    let logged = all_logs_of_single_steps(&mut seen.logs, &lender, seed);
    let long_logs = all_longest_logs(&mut seen.logs, &lender, seed);
    for seed in (0..count).map(|at| seed.wrapping_add(at)) {
        case::begin(seed);
        let mut dice = Dice(seed);
        let trial = random_trial(&mut dice);
        seen.try_one(&lender, &mut dice, seed, &trial);
        seen.files.try_one(&lender, &dice, seed, &trial);
        seen.reports.try_one(&lender, &dice, seed, &trial);
        seen.logs.try_one(&lender, &dice, seed, &trial);
    }

    println!(
        "{count} random runs from seed {seed}, {single} runs of a single step, {named} of one with every end named, \
         {fired} folded of one behind a correction, both files listed of {listed} of one and of {longest} of about 65,536 bytes, \
         steps reported of {reported} of one and of {long} of about 65,536 bytes, \
         and logs of {logged} of one and of {long_logs} of about 65,536 bytes"
    );
    seen.print();
    let missing = seen.missing();
    println!("wrong: {}; never seen: {missing:?}", seen.wrong());
    ExitCode::from(u8::from(seen.wrong() > 0 || !missing.is_empty()))
}
