//! The whole listing of a run: the model's refusal, or the state that running leaves, written out here with one zero. A buffer
//! that is too short for it stays as it was, and so does what lies past the text.

use crate::lent::Lender;
use crate::offers::length_about;
use crate::outcomes::Outcomes;
use crate::patterns::{filling_bytes, hex, written_at_start};
use model::dice::Dice;
use model::run::{SERVICE, check};
use naribhush::{Answer, Refusal};

/// The state that a run leaves, re and im, from amplitude (1, 0) at basis 0; or the number of the row that refuses the run.
pub type Left = Result<[Vec<f64>; 2], u8>;

pub fn left(bytes: &[u8]) -> Left {
    let seen = check(bytes, SERVICE).map_err(|refusal| refusal.number)?;
    let [state, scratch] = [1 << seen.greatest, seen.scratch].map(|length| vec![0.0; length]);
    let [mut re, mut im] = [state.clone(), state];
    let [mut scratch_re, mut scratch_im] = [scratch.clone(), scratch];
    re[0] = 1.0;
    let answered =
        naribhush::run_contiguous(bytes, &mut re, &mut im, &mut scratch_re, &mut scratch_im);
    assert_eq!(answered.map(|ending| ending.width), Ok(seen.width));
    Ok([re, im].map(|mut part| {
        part.truncate(1 << seen.width);
        part
    }))
}

/// The bits of a float, every NaN having the same, and either zero those of +0.
fn bits(value: f64) -> u64 {
    match value {
        _ if value.is_nan() => 0x7ff8000000000000,
        _ if value == 0.0 => 0,
        _ => value.to_bits(),
    }
}

/// `qubits` and the last width, then each basis with its two parts; or `refused` and the number.
pub fn text(left: &Left) -> String {
    let [re, im] = match left {
        Err(number) => return format!("refused {number}\n"),
        Ok(parts) => parts,
    };
    let mut text = format!("qubits {}\n", re.len().trailing_zeros());
    for (b, (&re, &im)) in re.iter().zip(im).enumerate() {
        text += &format!("{b} {:016x} {:016x}\n", bits(re), bits(im));
    }
    text
}

/// What a call that writes this text answers with so much room for it, and what it writes.
pub fn told(text: &str, room: usize) -> (Answer<usize>, &[u8]) {
    let too_short = Refusal {
        number: 16,
        place: None,
    };
    match room < text.len() {
        true => (Err(too_short), &[]),
        false => (Ok(text.len()), text.as_bytes()),
    }
}

pub fn listing(lender: &Lender, dice: &mut Dice, bytes: &[u8], seen: &mut Outcomes) {
    let text = text(&left(bytes));
    let room = length_about(dice, text.len());
    let (expected, written) = told(&text, room);
    let before = filling_bytes(dice, room);
    let mut out = lender.lend(dice, &before);
    let answered = naribhush::list_run(bytes, &mut out);

    let input = || format!("room {room}, run {}", hex(bytes));
    seen.answered("listing", &answered, &expected, input);
    let right = written_at_start(&out, written, &before);
    seen.holds("listing", "out is as it should be", right, input);
}

#[cfg(test)]
mod tests {
    use super::*;

    /// By hand: either zero, a NaN of either sign, an infinity, a refusal.
    #[test]
    fn texts() {
        let left = Ok([vec![-0.0, 1.0], vec![-f64::NAN, f64::NEG_INFINITY]]);
        let told =
            "qubits 1\n0 0000000000000000 7ff8000000000000\n1 3ff0000000000000 fff0000000000000\n";
        assert_eq!(text(&left), told);
        let none = Ok([vec![0.0], vec![-0.0]]);
        assert_eq!(
            text(&none),
            "qubits 0\n0 0000000000000000 0000000000000000\n"
        );
        assert_eq!(text(&Err(14)), "refused 14\n");
    }
}
