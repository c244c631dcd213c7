//! One-word Paulis, actions and kernels.

use model::dice::Dice;
use model::pauli::Pauli;
use model::rows::{self, lowest};
use naribhush::{self as here, ActivePauli, PauliString};
use ticit::active as rust;
use ticit::pauli::{pauli_anticommutes, pauli_squares_to_identity};

use crate::inputs;
use crate::paulis::{self, coefficient, every, is_pauli};
use crate::published::{
    self, Theirs, Turn, asked, narrowed, of, rotation_kernel, to_rust, try_of, widened,
};
use crate::tally::{Call, NO_ID, Tally};

pub fn modelled(p: ActivePauli) -> Pauli {
    Pauli {
        n: p.nqubits,
        k: p.phase,
        x: p.x,
        z: p.z,
    }
}

/// The difference where the Rust takes what this row refuses.
pub fn id_of(row: u8, p: ActivePauli) -> &'static str {
    match row {
        8 => "coefficient-out-of-range",
        _ => paulis::id_of(row, &widened(p)),
    }
}

// --------------------------------------------------------- one-word Paulis

pub fn pair(tally: &mut Tally, a: ActivePauli, b: ActivePauli) {
    let (ma, mb) = (modelled(a), modelled(b));
    let both = to_rust(&widened(a)).zip(to_rust(&widened(b)));
    let row = lowest(&[(!ma.is_pauli() || !mb.is_pauli(), 3), (ma.n != mb.n, 4)]);
    let id = |row| id_of(row, if ma.is_pauli() { b } else { a });
    let input = || format!("{a:x?}, {b:x?}");
    let (product, anticommute) = match &both {
        None => (Theirs::NotAsked, Theirs::NotAsked),
        Some((a, b)) => (
            asked(|| narrowed(&(a * b))),
            asked(|| pauli_anticommutes(a, b)),
        ),
    };
    let ours = here::active_mul(a, b);
    tally.plain(Call::ActiveMul, row, ours, product, id, input);
    let ours = here::active_anticommutes(a, b);
    tally.plain(Call::ActiveAnticommutes, row, ours, anticommute, id, input);
}

pub fn single(tally: &mut Tally, p: ActivePauli, q: usize, exponent: u8) {
    let model = modelled(p);
    let theirs = to_rust(&widened(p));
    let row = lowest(&[(!model.is_pauli(), 3)]);
    let row_at_qubit = lowest(&[(row != 0, row), (q >= p.nqubits, 5)]);
    let id = |row| id_of(row, p);
    let input = || format!("{p:x?}, qubit {q}, exponent {exponent}");
    let hermitian = of(&theirs, pauli_squares_to_identity);
    let ours = here::active_is_hermitian(p);
    tally.plain(Call::ActiveIsHermitian, row, ours, hermitian, id, input);
    let raised = of(&theirs, |t| {
        let mut t = t.clone();
        t.phase_shift(exponent.into());
        narrowed(&t)
    });
    let ours = here::active_raised(p, exponent);
    tally.plain(Call::ActiveRaised, row, ours, raised, id, input);
    tally.plain(
        Call::ActiveXBit,
        row_at_qubit,
        here::active_x_bit(p, q),
        of(&theirs, |t| t.xbit(q)),
        id,
        input,
    );
    tally.plain(
        Call::ActiveZBit,
        row_at_qubit,
        here::active_z_bit(p, q),
        of(&theirs, |t| t.zbit(q)),
        id,
        input,
    );
    let dropped = match row_at_qubit {
        0 => Theirs::Accepted(dropped(model, q)),
        _ => Theirs::NotAsked,
    };
    let ours = here::active_dropped(p, q);
    tally.plain(Call::ActiveDropped, row_at_qubit, ours, dropped, id, input);
}

/// A mask has 64 bits, and a qubit past them has none to drop.
fn dropped(p: Pauli, q: usize) -> ActivePauli {
    let (x, z) = match q {
        0..=63 => {
            let p = p.dropped(q);
            (p.x, p.z)
        }
        _ => (p.x, p.z),
    };
    ActivePauli {
        nqubits: p.n - 1,
        x,
        z,
        phase: p.k,
    }
}

// ----------------------------------------------------- actions and kernels

pub fn phase_factor(tally: &mut Tally, phase: u8) {
    tally.plain(
        Call::PhaseFactor,
        0,
        Ok(here::phase_factor(phase)),
        asked(|| published::complex(rust::phase_factor(phase.into()))),
        |_| NO_ID,
        || phase.to_string(),
    );
}

pub fn action(tally: &mut Tally, p: PauliString) {
    let row = lowest(&[
        (!is_pauli(&p), 3),
        (p.nqubits > 62, 6),
        (coefficient(&p) % 2 == 1, 7),
    ]);
    let theirs = try_of(&to_rust(&p), |t| {
        Ok(published::action(&rust::ActivePauliAction::new(t)?))
    });
    let ours = here::action(p);
    let input = || format!("{p:x?}");
    let id = |row| paulis::id_of(row, &p);
    tally.plain(Call::Action, row, ours, theirs, id, input);
}

pub fn rotation(tally: &mut Tally, p: ActivePauli, turn: Turn) {
    let (c, s) = turn.cosine_and_sine();
    let theirs = try_of(&to_rust(&widened(p)), |t| {
        Ok(published::rotation_fields(&rotation_kernel(t, turn)?))
    });
    tally.plain(
        Call::RotationKernel,
        rows::rotation_kernel(modelled(p), c, s),
        here::rotation_kernel(p, c, s),
        theirs,
        |row| id_of(row, p),
        || format!("{p:x?}, {turn:?}"),
    );
}

/// The pivot that a measurement kernel has if none is given: the highest bit of x, or of z where x is 0.
fn own_pivot(p: Pauli) -> usize {
    rows::pivot_mask(p).checked_ilog2().unwrap_or(0) as usize
}

pub fn measurement(tally: &mut Tally, p: ActivePauli, pivot: usize) {
    let model = modelled(p);
    let theirs = to_rust(&widened(p));
    tally.plain(
        Call::FromPauli,
        rows::measurement_kernel(model, own_pivot(model)),
        here::from_pauli(p),
        try_of(&theirs, |t| {
            let kernel = rust::PrecomputedActivePauliMeasurementKernel::from_pauli(t)?;
            Ok(published::measurement_fields(&kernel))
        }),
        |row| id_of(row, p),
        || format!("{p:x?}"),
    );
    tally.plain(
        Call::WithPivot,
        rows::measurement_kernel(model, pivot),
        here::with_pivot(p, pivot),
        try_of(&theirs, |t| {
            let kernel = published::measurement_kernel(t, pivot)?;
            Ok(published::measurement_fields(&kernel))
        }),
        |row| id_of(row, p),
        || format!("{p:x?}, pivot {pivot}"),
    );
}

// ------------------------------------------------------------------- cases

pub fn every_active(n: usize, bits: usize, phases: u8) -> impl Iterator<Item = ActivePauli> {
    every(n, bits, phases).map(|p| ActivePauli {
        nqubits: p.nqubits,
        x: p.x[0],
        z: p.z[0],
        phase: p.phase,
    })
}

/// Paulis of widths 0 to 4, all of them: with every second operand, qubit, exponent modulo 16, pivot.
pub fn exhaustive(tally: &mut Tally) {
    (0..=255).for_each(|phase| phase_factor(tally, phase));
    for n in 0..=4 {
        for a in every_active(n, n, 4) {
            every_active(n, n, 4).for_each(|b| pair(tally, a, b));
        }
        let wider = usize::from(n < 3);
        for p in every_active(n, n + wider, 4 + wider as u8) {
            action(tally, widened(p));
            for q in (0..n + 2).chain([63, 64, usize::MAX]) {
                measurement(tally, p, q);
                (0..16).for_each(|exponent| single(tally, p, q, exponent));
            }
            for c in inputs::UNITS.into_iter().chain(inputs::NO_UNITS) {
                for s in inputs::UNITS.into_iter().chain(inputs::NO_UNITS) {
                    rotation(tally, p, Turn::Pair(c, s));
                }
            }
            for angle in inputs::ANGLES {
                rotation(tally, p, Turn::Angle(angle));
            }
        }
    }
    for a in (0..=2).flat_map(|n| every_active(n, n + 1, 5)) {
        for b in (0..=2).flat_map(|n| every_active(n, n, 1)) {
            pair(tally, a, b);
            pair(tally, b, a);
        }
    }
}

/// A width for kernels and actions: the limits 60 to 64 above all.
fn width(dice: &mut Dice) -> usize {
    match dice.below(8) {
        0..=2 => 60 + dice.below(5),
        3 => dice.pick(&[65, 128, 255, 256, 257, 300]),
        _ => dice.below(65),
    }
}

pub fn turn(dice: &mut Dice) -> Turn {
    match dice.below(8) {
        0 => Turn::Angle(dice.pick(&inputs::ANGLES)),
        1..=3 => Turn::Angle(7.0 * dice.unit()),
        4 if dice.once_in(4) => Turn::Angle(dice.pick(&inputs::NO_INVNORMS)),
        5 if dice.once_in(4) => Turn::Pair(inputs::unit(dice), dice.pick(&inputs::NO_UNITS)),
        6 if dice.once_in(4) => Turn::Pair(dice.pick(&inputs::NO_UNITS), inputs::unit(dice)),
        _ => Turn::Pair(inputs::unit(dice), inputs::unit(dice)),
    }
}

pub fn random(tally: &mut Tally, dice: &mut Dice, rounds: usize) {
    for _ in 0..rounds {
        let n = width(dice);
        let mut p = match dice.once_in(4) {
            true => inputs::active(dice, n),
            false => inputs::hermitian(dice, n),
        };
        if dice.once_in(8) {
            p = inputs::spoiled_active(dice, p);
        }
        let q = inputs::qubit(dice, n);
        single(tally, p, q, dice.word() as u8);
        let other_n = if dice.once_in(16) { width(dice) } else { n };
        let other = inputs::active(dice, other_n);
        pair(tally, p, other);
        pair(tally, other, p);
        rotation(tally, p, turn(dice));
        let pivot = match dice.once_in(4) {
            true => q,
            false => inputs::pivot(dice, p),
        };
        measurement(tally, p, pivot);
        let mut wide = widened(p);
        if dice.once_in(16) {
            wide = inputs::spoiled(dice, wide);
        }
        action(tally, wide);
    }
}
