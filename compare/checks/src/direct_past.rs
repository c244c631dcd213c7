//! A Pauli taken past a step, both with any numbers: the value or the row is the expected one.

use crate::convert::{active, field};
use crate::floats;
use crate::numbers::{any_active, any_flag, any_partner, any_qubit};
use crate::outcomes::Outcomes;
use crate::wide::unless;
use model::carry::carry_step;
use model::dice::Dice;
use model::pauli::Pauli;
use model::rows::{flagged, lowest};
use model::run::Step;
use naribhush::{GivenStep, Past};

pub fn call(dice: &mut Dice, seen: &mut Outcomes) {
    let q = any_active(dice);
    let p = any_partner(dice, q);
    let given = GivenStep {
        tag: any_tag(dice),
        pauli: active(p),
        flag: any_flag(dice),
        pivot: any_qubit(dice, q.n),
        first: any_number(dice),
        second: any_number(dice),
    };
    let answered = naribhush::past(active(q), given);
    let expected = unless(row(q, p, given), || past(q, p, given));
    let input = || format!("{q:?}, {given:?}");
    let call = match given.tag {
        7 => "past a quarter turn",
        _ => "past",
    };
    seen.answered(call, &answered, &expected, input);
}

fn any_tag(dice: &mut Dice) -> u8 {
    match dice.below(12) {
        0 => dice.pick(&[0, 1, 6, 8, 255]),
        1 => dice.word() as u8,
        _ => dice.pick(&[2, 3, 4, 5, 7]),
    }
}

/// Any float but a NaN, which is equal to none.
fn any_number(dice: &mut Dice) -> f64 {
    Some(floats::any(dice))
        .filter(|value| !value.is_nan())
        .unwrap_or(0.5)
}

/// 3 where one of the two has no Pauli, or there is none behind a promotion; 4 where they are not on the same
/// qubits; 10 where the pivot is none of them; 14 for a flag that is no bit, and for a tag that no step has.
fn row(q: Pauli, p: Pauli, given: GivenStep) -> u8 {
    let pair = [(!q.is_pauli() || !p.is_pauli(), 3), (q.n != p.n, 4)];
    match given.tag {
        2 => flagged(lowest(&pair), given.flag),
        3 => lowest(&[(!q.is_pauli() || q.n >= 256, 3)]),
        4 => {
            let own = lowest(&[pair[0], pair[1], (given.pivot >= q.n, 10)]);
            flagged(own, given.flag)
        }
        5 | 7 => lowest(&pair),
        _ => 14,
    }
}

fn past(q: Pauli, p: Pauli, given: GivenStep) -> Past {
    let (first, second) = (given.first.to_bits(), given.second.to_bits());
    let step = match given.tag {
        2 => Step::Rotation {
            pauli: p,
            sign: given.flag,
            c: first,
            s: second,
        },
        3 => Step::Promotion {
            c: first,
            q: second,
        },
        4 => Step::Projection {
            pauli: p,
            pivot: given.pivot as u8,
            branch: given.flag,
            invnorm: first,
        },
        5 => Step::Correction { pauli: p },
        _ => Step::QuarterTurn { pauli: p },
    };
    let (left, behind) = carry_step(q, step);
    Past {
        field: field(Some(left)),
        pauli: active(behind),
    }
}
