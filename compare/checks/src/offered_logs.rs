//! Bytes offered to the calls that write a frame log and that judge one, with any numbers for the Pauli, outputs of any length and
//! any bytes for a log.

use crate::callers::Who;
use crate::convert::{active, answer};
use crate::lent::Lender;
use crate::logging::{flags, told};
use crate::mutate::damage_bytes;
use crate::offers::{any_frame, length_about};
use crate::outcomes::Outcomes;
use crate::patterns::{filling_bytes, hex, written_at_start};
use model::dice::Dice;
use model::log::{judging, logging};
use model::pauli::Pauli;
use model::run::Caller;
use naribhush::Answer;

/// About as many bytes as a log has of these fields, whatever stands in them.
fn any_length(dice: &mut Dice, bytes: &[u8]) -> usize {
    length_about(dice, flags(bytes).len() + 17)
}

pub fn log(lender: &Lender, dice: &mut Dice, who: Who, bytes: &[u8], seen: &mut Outcomes) {
    let name = &who.names().log;
    let (q, room) = (any_frame(dice, bytes), any_length(dice, bytes));
    let before = filling_bytes(dice, room);
    let mut out = lender.lend(dice, &before);
    let answered = who.log(bytes, active(q), &mut out);

    let input = || format!("{q:?}, room {room}, run {}", hex(bytes));
    let (expected, written) = told(bytes, who.caller(), q, room);
    seen.answered(name.of(&answered), &answered, &expected, input);
    let right = written_at_start(&out, &written, &before);
    seen.holds(name.run, "out is as it should be", right, input);
}

/// Where there is one, mostly the right log or that of another Pauli, and half of these damaged; else any bytes.
fn any_log(dice: &mut Dice, bytes: &[u8], caller: Caller, q: Pauli) -> Vec<u8> {
    let made_for = match dice.once_in(4) {
        true => any_frame(dice, bytes),
        false => q,
    };
    let made = logging(bytes, caller, made_for, usize::MAX);
    let length = any_length(dice, bytes);
    match (made, dice.below(8)) {
        (Ok(log), 0..=3) => log,
        (Ok(mut log), 4 | 5) => {
            let at = dice.below(log.len());
            log[at] ^= 1 << dice.below(8);
            log
        }
        (Ok(mut log), 6) => {
            damage_bytes(dice, &mut log);
            log
        }
        _ => filling_bytes(dice, length),
    }
}

/// Yes and no are counted apart.
fn name_of(who: Who, answered: &Answer<bool>) -> &'static str {
    match (who, answered) {
        (Who::Service, Ok(true)) => "judge, yes",
        (Who::Service, Ok(false)) => "judge, no",
        (Who::Emulator, Ok(true)) => "judge_emulated, yes",
        (Who::Emulator, Ok(false)) => "judge_emulated, no",
        (_, Err(_)) => who.names().judge.of(answered),
    }
}

/// Nothing is lent for writing, the log neither.
pub fn judge(lender: &Lender, dice: &mut Dice, who: Who, bytes: &[u8], seen: &mut Outcomes) {
    let q = any_frame(dice, bytes);
    let log = any_log(dice, bytes, who.caller(), q);
    let lent = lender.lend(dice, &log);
    let answered = who.judge(bytes, active(q), &lent);

    let input = || format!("{q:?}, log {}, run {}", hex(&log), hex(bytes));
    let expected = answer(judging(bytes, who.caller(), q, &log), |right| right);
    let name = name_of(who, &answered);
    seen.answered(name, &answered, &expected, input);
    seen.holds(name, "the lent log is unchanged", lent[..] == log, input);
}
