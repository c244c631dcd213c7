//! Floats of every kind.

use model::dice::Dice;

/// 1/sqrt 2.
pub const H: f64 = f64::from_bits(0x3fe6_a09e_667f_3bcd);
const LEAST: f64 = f64::from_bits(1);
const NEXT_TO_ONE: f64 = f64::from_bits(0x3ff0_0000_0000_0001);
const BELOW_ONE: f64 = f64::from_bits(0x3fef_ffff_ffff_ffff);

fn either_sign(dice: &mut Dice, value: f64) -> f64 {
    if dice.flip() { -value } else { value }
}

fn one_of(dice: &mut Dice, values: &[f64]) -> f64 {
    let value = dice.pick(values);
    either_sign(dice, value)
}

pub fn denormal(dice: &mut Dice) -> f64 {
    let bits = dice.word() >> (12 + dice.below(52));
    either_sign(dice, f64::from_bits(bits))
}

/// Near the greatest float, some of them so near that a sum of two overflows.
pub fn huge(dice: &mut Dice) -> f64 {
    let scale = dice.pick(&[1e150, 1e290, 1e300, 1e307, 1.7e308, f64::MAX]);
    scale * dice.unit()
}

/// Any value in -1..1, both ends too.
pub fn unit(dice: &mut Dice) -> f64 {
    match dice.below(12) {
        0 => either_sign(dice, 0.0),
        1 => either_sign(dice, 1.0),
        2 => either_sign(dice, H),
        3 => denormal(dice),
        4 => one_of(dice, &[LEAST, BELOW_ONE, 0.5]),
        _ => dice.unit(),
    }
}

/// A cosine and a sine; once in four times two numbers that belong to no angle.
pub fn cosine_and_sine(dice: &mut Dice) -> (f64, f64) {
    if dice.once_in(4) {
        return (unit(dice), unit(dice));
    }
    let eighth = std::f64::consts::FRAC_PI_4;
    let angle = match dice.flip() {
        true => dice.unit() * 8.0,
        false => dice.below(9) as f64 * eighth - 4.0 * eighth,
    };
    (angle.cos(), angle.sin())
}

pub fn finite(dice: &mut Dice) -> f64 {
    match dice.below(8) {
        0 => either_sign(dice, 0.0),
        1 => denormal(dice),
        2 => huge(dice),
        3 => one_of(dice, &[1.0, NEXT_TO_ONE, BELOW_ONE, 2.0]),
        4 => Some(f64::from_bits(dice.word()))
            .filter(|value| value.is_finite())
            .unwrap_or(1.0),
        _ => dice.unit(),
    }
}

pub fn not_finite(dice: &mut Dice) -> f64 {
    let payload = 1 + dice.word() % ((1 << 52) - 1);
    let infinity = f64::INFINITY.to_bits();
    let bits = dice.pick(&[
        infinity,
        infinity | payload,
        infinity | 1,
        infinity | 1 << 51,
    ]);
    either_sign(dice, f64::from_bits(bits))
}

pub fn any(dice: &mut Dice) -> f64 {
    match dice.below(6) {
        0 => not_finite(dice),
        1 => f64::from_bits(dice.word()),
        2 => unit(dice),
        _ => finite(dice),
    }
}

/// A norm's inverse as a run would have it, or another finite number.
pub fn invnorm(dice: &mut Dice) -> f64 {
    match dice.below(8) {
        0 => finite(dice),
        1 => either_sign(dice, 0.0),
        2 | 3 => 1.0,
        4 => std::f64::consts::SQRT_2,
        _ => 1.0 + dice.unit().abs(),
    }
}
