//! What a Pauli does at a step that it is carried past, by names to count it by.

use model::carry::{carry_step, takes_product};
use model::pauli::Pauli;
use model::run::{Run, Step};

/// Those of steps that are no corrections.
pub const STEPS: [&str; 13] = [
    "rotation, sign kept",
    "rotation, sign flipped",
    "promotion",
    "diagonal projection, branch kept",
    "diagonal projection, branch flipped",
    "diagonal projection, Z part at the pivot",
    "diagonal projection, no Z part at the pivot",
    "nondiagonal projection, branch kept",
    "nondiagonal projection, branch flipped",
    "nondiagonal projection, X part at the pivot",
    "nondiagonal projection, no X part at the pivot",
    "quarter turn, frame kept",
    "quarter turn, frame turned",
];

/// Those of each step of a run, in turn.
pub fn along(run: &Run, q: Pauli) -> Vec<&'static str> {
    let mut frame = q;
    let at_step = |&step| {
        let names = names(frame, step);
        frame = carry_step(frame, step).1;
        names
    };
    run.steps.iter().flat_map(at_step).collect()
}

/// One name for each step, and a second one for a projection.
pub fn names(frame: Pauli, step: Step) -> Vec<&'static str> {
    let mut names = vec![kind(frame, step)];
    if let Step::Projection { pauli, pivot, .. } = step {
        names.push(at_pivot(frame, pauli, pivot));
    }
    names
}

fn kind(frame: Pauli, step: Step) -> &'static str {
    let flipped = carry_step(frame, step).0 != step;
    match step {
        Step::Rotation { .. } if flipped => "rotation, sign flipped",
        Step::Rotation { .. } => "rotation, sign kept",
        Step::Promotion { .. } => "promotion",
        Step::Projection { pauli, .. } => match (pauli.x != 0, flipped) {
            (false, false) => "diagonal projection, branch kept",
            (false, true) => "diagonal projection, branch flipped",
            (true, false) => "nondiagonal projection, branch kept",
            (true, true) => "nondiagonal projection, branch flipped",
        },
        Step::Correction { pauli } if frame.anticommutes(pauli) => "correction, phase raised",
        Step::Correction { .. } => "correction, phase kept",
        Step::QuarterTurn { pauli } if frame.anticommutes(pauli) => "quarter turn, frame turned",
        Step::QuarterTurn { .. } => "quarter turn, frame kept",
    }
}

fn at_pivot(frame: Pauli, m: Pauli, pivot: u8) -> &'static str {
    match (m.x != 0, takes_product(frame, m, pivot)) {
        (false, false) => "diagonal projection, no Z part at the pivot",
        (false, true) => "diagonal projection, Z part at the pivot",
        (true, false) => "nondiagonal projection, no X part at the pivot",
        (true, true) => "nondiagonal projection, X part at the pivot",
    }
}
