//! The calls on bits, Paulis and text, with any numbers: value or row is the expected one, and a buffer that
//! is lent for text is written only where the text goes.

use crate::convert::active;
use crate::lent::Lender;
use crate::numbers::{
    any_active, any_flag, any_partner, any_qubit, any_size, any_text, any_wide, any_width,
    on_qubits,
};
use crate::outcomes::Outcomes;
use crate::patterns::filling_bytes;
use crate::wide::{self, of_pauli, of_qubit, unless};
use model::dice::Dice;
use model::pauli::Pauli;
use model::rows::{flagged, lowest};

pub fn call_all(lender: &Lender, dice: &mut Dice, seen: &mut Outcomes) {
    bits(dice, seen);
    one_pauli(dice, seen);
    two_paulis(dice, seen);
    one_active(dice, seen);
    two_actives(dice, seen);
    read_text(lender, dice, seen);
    show(lender, dice, seen);
}

fn bits(dice: &mut Dice, seen: &mut Outcomes) {
    let (packed, place) = (dice.word() as usize, any_qubit(dice, 64));
    let opened = || {
        let low = (1 << place) - 1;
        packed & low | (packed & !low) << 1
    };
    let expected = unless(lowest(&[(place > 63, 5)]), opened);
    let answered = naribhush::insert_zero_bit(packed, place);
    let input = || format!("{packed:#x}, bit {place}");
    seen.answered("insert_zero_bit", &answered, &expected, input);

    let odd = naribhush::is_odd_popcount(packed as u64);
    let right = odd == (packed.count_ones() % 2 == 1);
    seen.holds("is_odd_popcount", "parity", right, input);

    let words: [u64; 4] = std::array::from_fn(|_| dice.word());
    let (at, value) = (any_qubit(dice, 256), any_flag(dice));
    let input = || format!("{words:x?}, bit {at}, {value}");
    let right = naribhush::packed_bit(&words, at) == wide::bit(&words, at);
    seen.holds("packed_bit", "the bit", right, input);
    let (mut set, mut expected) = (words, words);
    let answered = naribhush::set_packed_bit(&mut set, at, value);
    let row = unless(flagged(0, value), || {
        wide::set_bit(&mut expected, at, value == 1)
    });
    seen.answered("set_packed_bit", &answered, &row, input);
    seen.holds("set_packed_bit", "the words", set == expected, input);
}

fn one_pauli(dice: &mut Dice, seen: &mut Outcomes) {
    let width = any_width(dice);
    let identity = naribhush::PauliString {
        nqubits: width,
        ..Default::default()
    };
    let expected = of_pauli(identity, || identity);
    let answered = naribhush::pauli_identity(width);
    seen.answered("pauli_identity", &answered, &expected, || {
        format!("{width}")
    });

    let p = any_wide(dice);
    let (q, x, z) = (any_qubit(dice, p.nqubits), any_flag(dice), any_flag(dice));
    let input = || format!("{p:?}, qubit {q}, {x} {z}");
    let (has_x, has_z) = (wide::bit(&p.x, q), wide::bit(&p.z, q));
    let letter = usize::from(has_x) + 2 * usize::from(has_z);
    seen.answered(
        "x_bit",
        &naribhush::x_bit(p, q),
        &of_qubit(p, q, || has_x),
        input,
    );
    seen.answered(
        "z_bit",
        &naribhush::z_bit(p, q),
        &of_qubit(p, q, || has_z),
        input,
    );
    seen.answered(
        "get",
        &naribhush::get(p, q),
        &of_qubit(p, q, || letter),
        input,
    );
    seen.answered(
        "set",
        &naribhush::set(p, q, x, z),
        &wide::set(p, q, x, z),
        input,
    );

    let expected = of_pauli(p, || wide::coefficient(p));
    seen.answered(
        "coefficient_phase",
        &naribhush::coefficient_phase(p),
        &expected,
        input,
    );
    let expected = of_pauli(p, || wide::is_hermitian(p));
    let answered = naribhush::pauli_squares_to_identity(p);
    seen.answered("pauli_squares_to_identity", &answered, &expected, input);
    seen.answered(
        "max_support",
        &naribhush::max_support(p),
        &wide::max_support(p),
        input,
    );
    let answered = naribhush::measurement_phase_sign(p);
    seen.answered(
        "measurement_phase_sign",
        &answered,
        &wide::measurement_sign(p),
        input,
    );
}

fn two_paulis(dice: &mut Dice, seen: &mut Outcomes) {
    let a = any_wide(dice);
    let b = match dice.once_in(6) {
        true => any_wide(dice),
        false => on_qubits(dice, a.nqubits),
    };
    let input = || format!("{a:?}, {b:?}");
    seen.answered("mul", &naribhush::mul(a, b), &wide::product(a, b), input);
    let answered = naribhush::pauli_anticommutes(a, b);
    seen.answered(
        "pauli_anticommutes",
        &answered,
        &wide::anticommutes(a, b),
        input,
    );
}

fn one_active(dice: &mut Dice, seen: &mut Outcomes) {
    let p = any_active(dice);
    let (q, exponent) = (any_qubit(dice, p.n), dice.word() as u8);
    let input = || format!("{p:?}, qubit {q}, exponent {exponent}");
    let of_pauli = lowest(&[(!p.is_pauli(), 3)]);
    let of_qubit = lowest(&[(!p.is_pauli(), 3), (q >= p.n, 5)]);
    let bit = |mask: u64| q < 64 && mask >> q & 1 == 1;

    let answered = naribhush::active_x_bit(active(p), q);
    seen.answered(
        "active x_bit",
        &answered,
        &unless(of_qubit, || bit(p.x)),
        input,
    );
    let answered = naribhush::active_z_bit(active(p), q);
    seen.answered(
        "active z_bit",
        &answered,
        &unless(of_qubit, || bit(p.z)),
        input,
    );
    let answered = naribhush::active_dropped(active(p), q);
    let expected = unless(of_qubit, || active(p.dropped(q)));
    seen.answered("dropped", &answered, &expected, input);

    let k = (p.k % 4 + exponent % 4) % 4;
    let answered = naribhush::active_raised(active(p), exponent);
    let expected = unless(of_pauli, || active(Pauli { k, ..p }));
    seen.answered("raised", &answered, &expected, input);
    let answered = naribhush::active_is_hermitian(active(p));
    let expected = unless(of_pauli, || p.is_hermitian());
    seen.answered("active is_hermitian", &answered, &expected, input);
}

fn two_actives(dice: &mut Dice, seen: &mut Outcomes) {
    let a = any_active(dice);
    let b = any_partner(dice, a);
    let input = || format!("{a:?}, {b:?}");
    let none = !a.is_pauli() || !b.is_pauli();
    let row = lowest(&[(none, 3), (a.n != b.n, 4)]);
    let answered = naribhush::active_mul(active(a), active(b));
    let expected = unless(row, || active(a.times(b)));
    seen.answered("active mul", &answered, &expected, input);
    let answered = naribhush::active_anticommutes(active(a), active(b));
    let expected = unless(row, || a.anticommutes(b));
    seen.answered("active anticommutes", &answered, &expected, input);
}

fn read_text(lender: &Lender, dice: &mut Dice, seen: &mut Outcomes) {
    let text = any_text(dice);
    let lent = lender.lend(dice, &text);
    let answered = naribhush::pauli_string(&lent);
    let input = || format!("{:?}", String::from_utf8_lossy(&text));
    seen.answered("pauli_string", &answered, &wide::read_text(&text), input);
    seen.holds(
        "pauli_string",
        "the text is unchanged",
        lent[..] == text,
        input,
    );
}

fn show(lender: &Lender, dice: &mut Dice, seen: &mut Outcomes) {
    let p = any_wide(dice);
    let needed = wide::display(p, usize::MAX).unwrap_or(0);
    let room = match dice.below(4) {
        0 => needed.saturating_sub(1),
        1 => any_size(dice) % 300,
        2 => needed + 1,
        _ => needed,
    };
    let mut expected = filling_bytes(dice, room);
    let mut out = lender.lend(dice, &expected);
    let answered = naribhush::display(p, &mut out);
    let input = || format!("{p:?}, room {room}");
    let length = wide::display(p, room);
    seen.answered("display", &answered, &length, input);
    if let Ok(length) = length {
        expected[..length].copy_from_slice(&wide::text(p));
    }
    seen.holds(
        "display",
        "out is as it should be",
        out[..] == expected,
        input,
    );
}
