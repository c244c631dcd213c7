//! The published Rust: its values made of ours and ours of its, and its calls with their panics caught.

use std::cell::Cell;
use std::panic::{self, AssertUnwindSafe};

use naribhush::{ActivePauli, ActivePauliAction, Complex64, PauliString};
use ticit::active as rust;
use ticit::errors::TicitError;
use ticit::pauli::PauliString as RustPauli;

/// What the Rust does with a case.
#[derive(Debug)]
pub enum Theirs<T> {
    Accepted(T),
    Error,
    Panicked,
    /// It has no such call, or no such input, or would take too long: the row alone is held to the scope.
    NotAsked,
}

/// Widths past which the Rust is not asked to make a Pauli: it takes any, and its memory.
const WIDEST: usize = 4096;

thread_local! {
    static CAUGHT: Cell<bool> = const { Cell::new(false) };
}

/// Panics of the Rust are answers and print nothing; all others print as ever.
pub fn quiet_while_asking() {
    let loud = panic::take_hook();
    panic::set_hook(Box::new(move |panic| {
        if !CAUGHT.get() {
            loud(panic);
        }
    }));
}

pub fn tried<T>(call: impl FnOnce() -> Result<T, TicitError>) -> Theirs<T> {
    CAUGHT.set(true);
    let answer = panic::catch_unwind(AssertUnwindSafe(call));
    CAUGHT.set(false);
    match answer {
        Ok(Ok(value)) => Theirs::Accepted(value),
        Ok(Err(_)) => Theirs::Error,
        Err(_) => Theirs::Panicked,
    }
}

pub fn asked<T>(call: impl FnOnce() -> T) -> Theirs<T> {
    tried(|| Ok(call()))
}

// ------------------------------------------------------------------ Paulis

/// Words past the width stay, so that the Rust sees the same masks.
pub fn to_rust(p: &PauliString) -> Option<RustPauli> {
    if p.nqubits > WIDEST {
        return None;
    }
    let mut out = RustPauli::new(p.nqubits);
    let used = (0..4).rev().find(|&w| p.x[w] | p.z[w] != 0);
    let words = out.x.len().max(used.map_or(0, |w| w + 1));
    for (theirs, ours) in [(&mut out.x, &p.x), (&mut out.z, &p.z)] {
        theirs.resize(words, 0);
        for (word, &mask) in theirs.iter_mut().zip(ours) {
            *word = mask;
        }
    }
    out.set_phase(p.phase.into());
    Some(out)
}

pub fn from_rust(p: &RustPauli) -> PauliString {
    let words = |from: &[u64]| [0, 1, 2, 3].map(|w| from.get(w).copied().unwrap_or(0));
    PauliString {
        nqubits: p.nqubits,
        x: words(&p.x),
        z: words(&p.z),
        phase: p.phase_exponent() as u8,
    }
}

/// A one-word Pauli as one of four words.
pub fn widened(p: ActivePauli) -> PauliString {
    PauliString {
        nqubits: p.nqubits,
        x: [p.x, 0, 0, 0],
        z: [p.z, 0, 0, 0],
        phase: p.phase,
    }
}

pub fn narrowed(p: &RustPauli) -> ActivePauli {
    let p = from_rust(p);
    ActivePauli {
        nqubits: p.nqubits,
        x: p.x[0],
        z: p.z[0],
        phase: p.phase,
    }
}

/// Asks about a Pauli, if the Rust can be given it.
pub fn of<T>(p: &Option<RustPauli>, call: impl FnOnce(&RustPauli) -> T) -> Theirs<T> {
    match p {
        Some(p) => asked(|| call(p)),
        None => Theirs::NotAsked,
    }
}

pub fn try_of<T>(
    p: &Option<RustPauli>,
    call: impl FnOnce(&RustPauli) -> Result<T, TicitError>,
) -> Theirs<T> {
    match p {
        Some(p) => tried(|| call(p)),
        None => Theirs::NotAsked,
    }
}

// ----------------------------------------------------------------- kernels

/// How a rotation gets its c and s.
#[derive(Clone, Copy, Debug)]
pub enum Turn {
    /// As the Rust's kernel has them from an angle.
    Angle(f64),
    /// Any two, written over the Rust's kernel.
    Pair(f64, f64),
}

impl Turn {
    pub fn cosine_and_sine(self) -> (f64, f64) {
        match self {
            Turn::Pair(c, s) => (c, s),
            Turn::Angle(angle) => {
                let on_nothing = rust::ActivePauliAction::default();
                let kernel = rust::PrecomputedActivePauliRotationKernel::new(&on_nothing, angle);
                let kernel = kernel.expect("width 0");
                (kernel.cos_kernel_angle, kernel.sin_kernel_angle)
            }
        }
    }
}

pub fn rotation_kernel(
    p: &RustPauli,
    turn: Turn,
) -> Result<rust::PrecomputedActivePauliRotationKernel, TicitError> {
    let action = rust::ActivePauliAction::new(p)?;
    match turn {
        Turn::Angle(angle) => rust::PrecomputedActivePauliRotationKernel::new(&action, angle),
        Turn::Pair(c, s) => {
            let mut kernel = rust::PrecomputedActivePauliRotationKernel::new(&action, 0.0)?;
            kernel.cos_kernel_angle = c;
            kernel.sin_kernel_angle = s;
            // As the Rust's own constructor has it.
            kernel.minus_even_coefficient = ticit::Complex64::new(0.0, -s) * action.even_phase;
            Ok(kernel)
        }
    }
}

pub fn measurement_kernel(
    p: &RustPauli,
    pivot: usize,
) -> Result<rust::PrecomputedActivePauliMeasurementKernel, TicitError> {
    let action = rust::ActivePauliAction::new(p)?;
    rust::PrecomputedActivePauliMeasurementKernel::with_pivot(&action, pivot)
}

pub fn complex(c: ticit::Complex64) -> Complex64 {
    Complex64 { re: c.re, im: c.im }
}

pub fn action(a: &rust::ActivePauliAction) -> ActivePauliAction {
    ActivePauliAction {
        nqubits: a.nqubits,
        xmask: a.xmask,
        zmask: a.zmask,
        even_phase: complex(a.even_phase),
        odd_phase: complex(a.odd_phase),
        xz_overlap_odd: a.xz_overlap_odd,
    }
}

pub fn rotation_fields(
    k: &rust::PrecomputedActivePauliRotationKernel,
) -> naribhush::PrecomputedActivePauliRotationKernel {
    naribhush::PrecomputedActivePauliRotationKernel {
        action: action(&k.action),
        is_diagonal: k.is_diagonal,
        uniform_imag_pairs: k.uniform_imag_pairs,
        pair_bit: k.pair_bit as usize,
        cos_kernel_angle: k.cos_kernel_angle,
        sin_kernel_angle: k.sin_kernel_angle,
        minus_even_coefficient: complex(k.minus_even_coefficient),
    }
}

pub fn measurement_fields(
    k: &rust::PrecomputedActivePauliMeasurementKernel,
) -> naribhush::PrecomputedActivePauliMeasurementKernel {
    naribhush::PrecomputedActivePauliMeasurementKernel {
        action: action(&k.action),
        pivot: k.pivot,
        is_diagonal: k.is_diagonal,
        diagonal_phase_bit: k.diagonal_phase_bit != 0,
        out_dim: k.out_dim,
        nondiagonal_coefficient1_even: complex(k.nondiagonal_coefficient1_even),
    }
}
