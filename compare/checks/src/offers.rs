//! Bytes offered to every call that takes a run, the service's and the emulator's: the answer is the model's or, of a start that is
//! sought, one that the model carries to the end; a refused call writes nothing, an accepted one nothing past what it needs, and
//! the lent run stays as it was.

use crate::callers::{BOTH, Who};
use crate::convert::{active, answer, ending, pauli, read, report, survey};
use crate::draw;
use crate::folding::told;
use crate::lent::Lender;
use crate::listings::{self, listing};
use crate::mutate::bad_pauli;
use crate::numbers::{any_active, any_size};
use crate::offered_logs::{judge, log};
use crate::outcomes::Outcomes;
use crate::patterns::{filling_bytes, hex, written_at_start};
use crate::state::{Buffers, Contents, patterns};
use model::carry::carrying;
use model::dice::Dice;
use model::pauli::Pauli;
use model::report::{reporting, step_list};
use model::run::{self, Caller, EMULATOR, Survey, read_at, running};
use model::seek::{end_of, seeking, serves};
use naribhush::{Answer, Ending, Ledger, Read};

const LIMITS: [usize; 6] = [60, 61, 62, 256, 257, usize::MAX];

pub fn offer(lender: &Lender, dice: &mut Dice, bytes: &[u8], seen: &mut Outcomes) {
    let lent = lender.lend(dice, bytes);
    // Each with dice of its own: the other calls draw what they would draw without it.
    let [mut for_seeks, mut for_folds] = [!dice.0, dice.0.swap_bytes()].map(Dice);
    let [mut for_reports, mut for_logs] = [32, 16].map(|by| Dice(dice.0.rotate_left(by)));
    reads(dice, &lent, seen);
    check(dice, &lent, seen);
    for who in BOTH {
        run(lender, dice, who, &lent, seen);
        carry(lender, dice, who, &lent, seen);
        seek(&mut for_seeks, who, &lent, seen);
        fold(lender, &mut for_folds, who, &lent, seen);
        reports(&mut for_reports, who, &lent, seen);
        log(lender, &mut for_logs, who, &lent, seen);
        judge(lender, &mut for_logs, who, &lent, seen);
    }
    list_steps(lender, &mut for_reports, &lent, seen);
    // Seldom: a listing can be 158,644 bytes long.
    if dice.once_in(16) {
        listing(lender, dice, &lent, seen);
    }
    let input = || format!("run {}", hex(bytes));
    seen.holds(
        "a call",
        "the lent run is unchanged",
        lent[..] == *bytes,
        input,
    );
}

fn any_limit(dice: &mut Dice) -> usize {
    match dice.flip() {
        true => dice.below(21),
        false => dice.pick(&LIMITS),
    }
}

// ------------------------------------------------------------------ reading

/// The places of the fields, as their own lengths have them.
pub(crate) fn places(bytes: &[u8]) -> Vec<usize> {
    let (mut at, mut places) = (0, Vec::new());
    while let Some(&[_, low, high]) = bytes.get(at..at + 3) {
        places.push(at);
        at += 3 + usize::from(u16::from_le_bytes([low, high]));
    }
    places.push(at);
    places
}

/// Mostly the place of a field and a width that it may have; at times anything.
fn any_cursor(dice: &mut Dice, bytes: &[u8]) -> (usize, usize) {
    let start = bytes.get(3).map_or(0, |&n| n as usize);
    let at = match dice.below(8) {
        0 => dice.below(bytes.len() + 4),
        1 => usize::MAX - dice.below(5),
        _ => dice.pick(&places(bytes)),
    };
    let width = match dice.below(8) {
        0 => dice.pick(&[6, 7, 12, 60, 61, 62, 63, 64, 255, 256, 257, usize::MAX]),
        1 | 2 => dice.below(14),
        _ => start,
    };
    (at, width)
}

/// What PartialEq does not tell apart: the two zeros.
fn float_bits(read: Read) -> [u64; 2] {
    [read.field.first.to_bits(), read.field.second.to_bits()]
}

fn reads(dice: &mut Dice, bytes: &[u8], seen: &mut Outcomes) {
    for _ in 0..4 {
        let (at, width) = any_cursor(dice, bytes);
        let limit = any_limit(dice);
        let answered = naribhush::read(bytes, at, width, limit);
        let names = ["read", "read a quarter turn"];
        let cursor = (at, width);
        was_read(names, bytes, cursor, Caller::within(limit), answered, seen);

        let answered = naribhush::read_emulated(bytes, at, width);
        let names = ["read_emulated", "read_emulated, a quarter turn"];
        was_read(names, bytes, cursor, EMULATOR, answered, seen);
    }
}

/// The names are that of the call, and that for a quarter turn.
fn was_read(
    names: [&'static str; 2],
    bytes: &[u8],
    (at, width): (usize, usize),
    caller: Caller,
    answered: Answer<Read>,
    seen: &mut Outcomes,
) {
    let expected = answer(read_at(bytes, at, width, caller), read);
    let input = || format!("at {at}, width {width}, {caller:?}, run {}", hex(bytes));
    let call = names[usize::from(bytes.get(at) == Some(&7))];
    seen.answered(call, &answered, &expected, input);
    let same = answered.map(float_bits) == expected.map(float_bits);
    seen.holds(call, "its floats have the bits of the run", same, input);
}

// ----------------------------------------------------------------- checking

fn check(dice: &mut Dice, bytes: &[u8], seen: &mut Outcomes) {
    let [service, emulator] = BOTH.map(|who| {
        let expected = answer(run::check(bytes, who.caller()), survey);
        let answered = who.check(bytes);
        let input = || format!("run {}", hex(bytes));
        seen.answered(check_name(who, &answered), &answered, &expected, input);
        answered
    });
    // The two answers alone, without the model.
    let narrow = |seen: &naribhush::Survey| seen.greatest <= EMULATOR.widest;
    let same = emulator.ok() == service.ok().filter(narrow);
    let input = || format!("run {}", hex(bytes));
    let what = "it takes what the service takes up to 6 qubits, and no more";
    seen.holds("check_emulated", what, same, input);

    let limit = any_limit(dice);
    let expected = answer(run::check(bytes, Caller::within(limit)), survey);
    let answered = naribhush::check_within(bytes, limit);
    let input = || format!("limit {limit}, run {}", hex(bytes));
    seen.answered("check_within", &answered, &expected, input);
}

/// The emulator's refusals of a first field are counted apart from those of a step.
fn check_name<T>(who: Who, answered: &Answer<T>) -> &'static str {
    match (who, answered) {
        (Who::Service, _) => "check_run",
        (Who::Emulator, Err(refusal)) if refusal.place == Some(0) => "check_emulated, first field",
        (Who::Emulator, _) => "check_emulated",
    }
}

// ------------------------------------------------------------------ running

/// None, one too few, just enough, or more.
pub(crate) fn length_about(dice: &mut Dice, needed: usize) -> usize {
    match dice.below(8) {
        0 => 0,
        1 => needed.saturating_sub(1),
        2 | 3 => needed + 1 + dice.below(8),
        _ => needed,
    }
}

fn lengths_about(dice: &mut Dice, seen: Survey) -> [usize; 4] {
    let state = 1 << seen.greatest;
    let needed = [state, state, seen.scratch, seen.scratch];
    match dice.flip() {
        true => needed,
        false => needed.map(|needed| length_about(dice, needed)),
    }
}

fn run(lender: &Lender, dice: &mut Dice, who: Who, bytes: &[u8], seen: &mut Outcomes) {
    let names = who.names();
    let guess = Survey {
        width: 0,
        steps: 0,
        greatest: dice.below(5),
        scratch: dice.below(9),
    };
    let needs = run::check(bytes, who.caller()).unwrap_or(guess);
    let lengths = lengths_about(dice, needs);
    let before = patterns(dice, lengths);
    let [re, im, scratch_re, scratch_im] = lengths;
    let model = running(bytes, who.caller(), [re, im], [scratch_re, scratch_im]);
    let expected = answer(model, ending);
    let input = || format!("lengths {lengths:?}, run {}", hex(bytes));

    let mut buffers = Buffers::lend(lender, dice, &before);
    let answered = who.run(bytes, &mut buffers);
    seen.answered(names.run.of(&answered), &answered, &expected, input);
    let kept = kept(&buffers, &before, &answered, needs);
    seen.holds(names.run.run, "lent buffers are kept", kept, input);

    let ledger = any_ledger(dice);
    let mut served = Buffers::lend(lender, dice, &before);
    let (answered, after) = who.serve(ledger, bytes, &mut served);
    seen.answered(names.serve.of(&answered), &answered, &expected, input);
    let call = names.serve.run;
    let same = served.same_but_nan(&buffers.contents());
    seen.holds(call, "it leaves what running leaves", same, input);
    let counts = || format!("{ledger:?} became {after:?}, run {}", hex(bytes));
    let right = after == who.counted(ledger, answered.is_ok());
    seen.holds(call, "the ledger counts the service's calls", right, counts);
}

/// Refused: everything as it was. Accepted: what lies past the greatest state and past the scratch needed.
fn kept(buffers: &Buffers, before: &Contents, answered: &Answer<Ending>, needs: Survey) -> bool {
    let state = 1 << needs.greatest;
    match answered {
        Err(_) => buffers.kept(before),
        Ok(_) => buffers.kept_past(before, [state, state, needs.scratch, needs.scratch]),
    }
}

fn any_ledger(dice: &mut Dice) -> Ledger {
    let mut count = || match dice.below(3) {
        0 => u64::MAX,
        1 => dice.below(3) as u64,
        _ => dice.word(),
    };
    Ledger {
        offered: count(),
        finished: count(),
        refused: count(),
    }
}

// ----------------------------------------------------------------- carrying

/// Mostly on the run's start qubits.
pub(crate) fn any_frame(dice: &mut Dice, bytes: &[u8]) -> Pauli {
    let start = bytes.get(3).map_or(0, |&n| n as usize);
    let q = draw::pauli(dice, start);
    damaged(dice, q)
}

/// Now and then no Pauli, or on other qubits.
fn damaged(dice: &mut Dice, p: Pauli) -> Pauli {
    let (mut q, n) = (p, p.n);
    if dice.once_in(4) {
        q = bad_pauli(dice, q);
    }
    if dice.once_in(8) {
        let more = |by| n.saturating_add(by);
        q.n = dice.pick(&[0, more(1), more(2), 64, 256, 257, usize::MAX]);
    }
    q
}

fn carry(lender: &Lender, dice: &mut Dice, who: Who, bytes: &[u8], seen: &mut Outcomes) {
    let name = &who.names().carry;
    let q = any_frame(dice, bytes);
    let room = match dice.once_in(3) {
        true => length_about(dice, bytes.len()),
        false => bytes.len(),
    };
    let before = filling_bytes(dice, room);
    let mut out = lender.lend(dice, &before);
    let answered = who.carry(bytes, active(q), &mut out);

    let input = || format!("{q:?}, room {room}, run {}", hex(bytes));
    let expected = carrying(bytes, who.caller(), q, room);
    let end = answer(expected.clone(), |(_, end)| active(end));
    seen.answered(name.of(&answered), &answered, &end, input);
    let written = expected.map_or(Vec::new(), |(carried, _)| carried);
    let right = written_at_start(&out, &written, &before);
    seen.holds(name.run, "out is as it should be", right, input);
}

// ------------------------------------------------------------------ seeking

/// Mostly on the run's last qubits, half of these by carrying a start.
fn any_end(dice: &mut Dice, bytes: &[u8], caller: Caller) -> Pauli {
    let end = match run::read(bytes, caller) {
        Ok(run) if dice.flip() => end_of(&run, draw::pauli(dice, run.width)),
        Ok(run) => draw::pauli(dice, run.survey().width),
        Err(_) => any_active(dice),
    };
    damaged(dice, end)
}

/// Nothing is lent for writing, and any start that serves is right.
fn seek(dice: &mut Dice, who: Who, bytes: &[u8], seen: &mut Outcomes) {
    let name = &who.names().seek;
    let end = any_end(dice, bytes, who.caller());
    let answered = who.seek(bytes, active(end));

    let input = || format!("{end:?}, run {}", hex(bytes));
    let sought = seeking(bytes, who.caller(), end);
    let row = answer(sought.as_ref().map_err(|refusal| *refusal), |_| ());
    seen.answered(name.of(&answered), &answered.map(|_| ()), &row, input);
    if let (Ok(start), Ok(run)) = (answered, sought) {
        let input = || format!("{start:?} for {}", input());
        let right = serves(&run, pauli(start), end);
        seen.holds(name.run, "its start is carried to the end", right, input);
    }
}

// ------------------------------------------------------------------ folding

/// About the folded run's length, or about the run's.
fn fold_room(dice: &mut Dice, bytes: &[u8], caller: Caller) -> usize {
    let folded = told(bytes, caller, usize::MAX).1;
    let about = [folded.len(), bytes.len()];
    let needed = dice.pick(&about);
    length_about(dice, needed)
}

fn fold(lender: &Lender, dice: &mut Dice, who: Who, bytes: &[u8], seen: &mut Outcomes) {
    let name = &who.names().fold;
    let room = fold_room(dice, bytes, who.caller());
    let before = filling_bytes(dice, room);
    let mut out = lender.lend(dice, &before);
    let answered = who.fold(bytes, &mut out);

    let input = || format!("room {room}, run {}", hex(bytes));
    let (expected, written) = told(bytes, who.caller(), room);
    seen.answered(name.of(&answered), &answered, &expected, input);
    let right = written_at_start(&out, &written, &before);
    seen.holds(name.run, "out is as it should be", right, input);
}

// ---------------------------------------------------------------- reporting

/// Mostly of a field of the run, or a little past the last.
fn any_number(dice: &mut Dice, bytes: &[u8]) -> usize {
    match dice.below(8) {
        0 => any_size(dice),
        _ => dice.below(places(bytes).len()),
    }
}

/// Nothing is lent for writing.
fn reports(dice: &mut Dice, who: Who, bytes: &[u8], seen: &mut Outcomes) {
    let name = &who.names().report;
    let (q, number) = (any_frame(dice, bytes), any_number(dice, bytes));
    let answered = who.report(bytes, active(q), number);

    let input = || format!("{q:?}, step {number}, run {}", hex(bytes));
    let expected = answer(reporting(bytes, who.caller(), q, number), report);
    seen.answered(name.of(&answered), &answered, &expected, input);
}

/// Every run has a text: its steps, or its refusal. The two are counted apart.
fn list_steps(lender: &Lender, dice: &mut Dice, bytes: &[u8], seen: &mut Outcomes) {
    let q = any_frame(dice, bytes);
    let text = step_list(bytes, q);
    let room = length_about(dice, text.len());
    let before = filling_bytes(dice, room);
    let mut out = lender.lend(dice, &before);
    let answered = naribhush::list_steps(bytes, active(q), &mut out);

    let input = || format!("{q:?}, room {room}, run {}", hex(bytes));
    let (expected, written) = listings::told(&text, room);
    let call = match text.starts_with("refused") {
        true => "list_steps, a refusal",
        false => "list_steps",
    };
    seen.answered(call, &answered, &expected, input);
    let right = written_at_start(&out, written, &before);
    seen.holds(call, "out is as it should be", right, input);
}
