//! docs/DIFFERENCES.md: what it lists, and the very input of each of its rows.
//!
//! A row of its table is: id, call, input, the book and the scope, the Rust, here, seen. Of `the Rust` and
//! `here` the first words in backquotes are the answer. `seen` is `cases` where inputs of the comparison fall
//! under the id, or `input` where the row's own input alone shows it.

use std::fmt::Display;

use naribhush::{self as here, ActivePauli, Answer, PauliString};
use ticit::active as kernels;
use ticit::contiguous as rust;
use ticit::pauli as paulis;

use crate::published::{
    Theirs, Turn, asked, measurement_kernel, of, rotation_kernel, to_rust, tried, try_of, widened,
};
use crate::same::same_bits;

pub struct Listed {
    pub id: String,
    /// Inputs of the comparison fall under it.
    pub by_cases: bool,
    rust: String,
    here: String,
}

/// The rows of the file.
pub fn read(text: &str) -> Vec<Listed> {
    text.lines().filter_map(listed).collect()
}

fn listed(line: &str) -> Option<Listed> {
    let cells: Vec<_> = line.split('|').map(str::trim).collect();
    let ["", id, _, _, _, rust, here, seen, ""] = cells[..] else {
        return None;
    };
    let id = quoted(id)?;
    assert!(["cases", "input"].contains(&seen), "{id}: seen by {seen}");
    Some(Listed {
        id,
        by_cases: seen == "cases",
        rust: quoted(rust).expect("the Rust's answer in backquotes"),
        here: quoted(here).expect("the answer here in backquotes"),
    })
}

/// The first words in backquotes.
fn quoted(cell: &str) -> Option<String> {
    cell.split('`').nth(1).map(String::from)
}

/// Runs each row's own input; answers what does not come out as the file has it.
pub fn faults(rows: &[Listed]) -> Vec<String> {
    let mut faults = Vec::new();
    for row in rows {
        let id = &row.id;
        let Some((_, answers)) = OWN_INPUTS.iter().find(|(known, _)| known == id) else {
            faults.push(format!(
                "{id} is listed, and the program has no input for it"
            ));
            continue;
        };
        let (rust, here) = answers();
        if rust != row.rust {
            faults.push(format!("{id}: the Rust `{rust}`, listed `{}`", row.rust));
        }
        if here != row.here {
            faults.push(format!("{id}: here `{here}`, listed `{}`", row.here));
        }
    }
    for (id, _) in OWN_INPUTS {
        if !rows.iter().any(|row| row.id == *id) {
            faults.push(format!("{id} is not listed"));
        }
    }
    faults
}

// ----------------------------------------------------------------- answers

fn told<T: Display>(answer: Answer<T>) -> String {
    match answer {
        Ok(value) => value.to_string(),
        Err(refusal) => {
            let place = refusal
                .place
                .map_or(String::new(), |at| format!(" at {at}"));
            format!("refused {}{place}", refusal.number)
        }
    }
}

fn heard<T: Display>(theirs: Theirs<T>) -> String {
    match theirs {
        Theirs::Accepted(value) => value.to_string(),
        Theirs::Error => "error".into(),
        Theirs::Panicked => "panics".into(),
        Theirs::NotAsked => "not asked".into(),
    }
}

/// Amplitudes as (re, im) pairs.
fn amplitudes(re: &[f64], im: &[f64]) -> String {
    let each = re.iter().zip(im).map(|(re, im)| format!("({re}, {im})"));
    each.collect::<Vec<_>>().join(", ")
}

/// What a refused call says, and whether it left its buffers alone.
fn refusal_of(answer: Answer<()>, before: [&[f64]; 2], after: [&[f64]; 2]) -> String {
    let kept = same_bits(before[0], after[0]) && same_bits(before[1], after[1]);
    let said = told(answer.map(|()| "done"));
    if kept {
        said
    } else {
        format!("{said}, and written")
    }
}

// ------------------------------------------------------------------ inputs

fn pauli(nqubits: usize, phase: u8, x: u64, z: u64) -> PauliString {
    PauliString {
        nqubits,
        x: [x, 0, 0, 0],
        z: [z, 0, 0, 0],
        phase,
    }
}

fn active(nqubits: usize, phase: u8, x: u64, z: u64) -> ActivePauli {
    ActivePauli {
        nqubits,
        x,
        z,
        phase,
    }
}

/// The Rust's answer and ours.
type Answers = (String, String);

/// A row's id, and both sides asked with the row's own input.
type OwnInput = (&'static str, fn() -> Answers);

const OWN_INPUTS: &[OwnInput] = &[
    ("bit-over-63", || {
        (
            heard(asked(|| kernels::insert_zero_bit(5, 64))),
            told(here::insert_zero_bit(5, 64)),
        )
    }),
    ("mask-past-width", || max_support(pauli(3, 0, 8, 0))),
    ("hidden-y", || shown(pauli(3, 0, 8, 8), 300)),
    ("hidden-x-in-action", || action(pauli(3, 0, 8, 0))),
    ("phase-over-3", || coefficient(pauli(1, 4, 0, 0))),
    ("width-over-256", || {
        (
            heard(asked(|| paulis::pauli_identity(257).nqubits)),
            told(here::pauli_identity(257).map(|p| p.nqubits)),
        )
    }),
    ("widths-differ", || {
        product(pauli(2, 0, 0, 0), pauli(3, 0, 0, 0))
    }),
    ("no-such-qubit", || letter(pauli(1, 0, 0, 0), 1)),
    ("text-over-256", || read_text(&"X".repeat(257))),
    ("bad-letter", || read_text("XQ")),
    ("sign-of-ix", || sign(pauli(1, 1, 1, 0))),
    ("no-room-for-text", || shown(pauli(1, 0, 1, 0), 0)),
    ("set-past-the-mask", set_past_the_mask),
    ("limits-in-comments", limits),
    ("action-of-ix", || action(pauli(1, 1, 1, 0))),
    ("nan-angle", nan_angle),
    ("coefficient-out-of-range", || promotion(f64::NAN, 2.0)),
    ("measuring-no-qubits", || with_pivot(active(0, 0, 0, 0), 0)),
    ("pivot-past-width", || with_pivot(active(2, 0, 1, 0), 2)),
    ("measuring-identity", || with_pivot(active(2, 0, 0, 0), 0)),
    ("pivot-without-part", || with_pivot(active(2, 0, 1, 0), 1)),
    ("pivot-and-width-past-limits", || {
        with_pivot(active(62, 0, 1, 0), 62)
    }),
    ("own-pivot-of-no-qubits", || from_pauli(active(0, 0, 0, 0))),
    ("invnorm-not-finite", || {
        projection(active(1, 0, 0, 1), &[1.0, 2.0], f64::INFINITY)
    }),
    ("short-state-taken", || {
        projection(active(2, 0, 0, 1), &[1.0, 2.0, 3.0], 1.0)
    }),
    ("short-state", short_rotation),
    ("short-scratch", short_scratch),
];

fn max_support(p: PauliString) -> Answers {
    let text = |q: Option<usize>| q.map_or("none".into(), |q| q.to_string());
    (
        heard(of(&to_rust(&p), |t| text(t.max_support()))),
        told(here::max_support(p).map(text)),
    )
}

fn shown(p: PauliString, length: usize) -> Answers {
    let mut out = vec![0; length];
    let answer = here::display(p, &mut out);
    let kept = out.iter().all(|&byte| byte == 0);
    let ours = told(answer);
    (
        heard(of(&to_rust(&p), |t| t.to_string())),
        if kept {
            ours
        } else {
            format!("{ours}, and written")
        },
    )
}

fn action(p: PauliString) -> Answers {
    (
        heard(try_of(&to_rust(&p), |t| {
            Ok(format!(
                "xmask {}",
                kernels::ActivePauliAction::new(t)?.xmask
            ))
        })),
        told(here::action(p).map(|action| format!("xmask {}", action.xmask))),
    )
}

fn coefficient(p: PauliString) -> Answers {
    let theirs = of(&to_rust(&p), |t| {
        (t.phase_exponent() - paulis::pauli_body_y_count(t)) & 3
    });
    (heard(theirs), told(here::coefficient_phase(p)))
}

fn product(a: PauliString, b: PauliString) -> Answers {
    let both = to_rust(&a).zip(to_rust(&b)).expect("short Paulis");
    (
        heard(asked(|| (&both.0 * &both.1).nqubits)),
        told(here::mul(a, b).map(|p| p.nqubits)),
    )
}

fn letter(p: PauliString, q: usize) -> Answers {
    (
        heard(of(&to_rust(&p), |t| t.get(q) as usize)),
        told(here::get(p, q)),
    )
}

fn read_text(text: &str) -> Answers {
    let width = |n: usize| format!("width {n}");
    (
        heard(tried(|| Ok(width(paulis::pauli_string(text)?.nqubits)))),
        told(here::pauli_string(text.as_bytes()).map(|p| width(p.nqubits))),
    )
}

fn sign(p: PauliString) -> Answers {
    (
        heard(try_of(&to_rust(&p), paulis::measurement_phase_sign)),
        told(here::measurement_phase_sign(p)),
    )
}

fn set_past_the_mask() -> Answers {
    let text = |words: &[u64]| {
        let each: Vec<_> = words.iter().map(u64::to_string).collect();
        each.join(" ")
    };
    let mut ours = [0; 4];
    let answer = here::set_packed_bit(&mut ours, 256, 1);
    let theirs = asked(|| {
        let mut theirs = vec![0; 4];
        ticit::set_packed_bit(&mut theirs, 256, true);
        text(&theirs)
    });
    (heard(theirs), told(answer.map(|()| text(&ours))))
}

/// Z on qubit 0 of 61, 62 and 63 qubits.
fn limits() -> Answers {
    let made = |kernel: bool, action: bool| match (kernel, action) {
        (true, _) => "kernel",
        (_, true) => "action",
        _ => "neither",
    };
    let each = |n: usize| {
        let p = active(n, 0, 0, 1);
        let t = to_rust(&widened(p)).expect("a short Pauli");
        let theirs = made(
            rotation_kernel(&t, Turn::Angle(0.5)).is_ok(),
            kernels::ActivePauliAction::new(&t).is_ok(),
        );
        let ours = made(
            here::rotation_kernel(p, 1.0, 0.0).is_ok(),
            here::action(widened(p)).is_ok(),
        );
        (theirs, ours)
    };
    let seen = [61, 62, 63].map(each);
    (
        seen.map(|(theirs, _)| theirs).join(", "),
        seen.map(|(_, ours)| ours).join(", "),
    )
}

fn nan_angle() -> Answers {
    let p = active(1, 0, 0, 1);
    let turn = Turn::Angle(f64::NAN);
    let (c, s) = turn.cosine_and_sine();
    let text = |c: f64| format!("c {c}");
    let theirs = try_of(&to_rust(&widened(p)), |t| {
        Ok(text(rotation_kernel(t, turn)?.cos_kernel_angle))
    });
    let ours = here::rotation_kernel(p, c, s);
    (heard(theirs), told(ours.map(|k| text(k.cos_kernel_angle))))
}

/// Of the state (1, 0).
fn promotion(c: f64, q: f64) -> Answers {
    let (before_re, before_im) = ([1.0, 5.0], [0.0, 5.0]);
    let (mut re, mut im) = (before_re, before_im);
    let theirs = asked(|| {
        let (mut re, mut im) = (before_re, before_im);
        rust::promote_contiguous_active(&mut re, &mut im, 1, c, q);
        amplitudes(&re, &im)
    });
    let ours = here::promote(&mut re, &mut im, 0, c, q);
    let ours = refusal_of(ours, [&before_re, &before_im], [&re, &im]);
    (heard(theirs), ours)
}

fn with_pivot(p: ActivePauli, pivot: usize) -> Answers {
    let theirs = try_of(&to_rust(&widened(p)), |t| {
        Ok(measurement_kernel(t, pivot)?.pivot)
    });
    (
        heard(theirs),
        told(here::with_pivot(p, pivot).map(|k| k.pivot)),
    )
}

fn from_pauli(p: ActivePauli) -> Answers {
    let theirs = try_of(&to_rust(&widened(p)), |t| {
        Ok(kernels::PrecomputedActivePauliMeasurementKernel::from_pauli(t)?.pivot)
    });
    (heard(theirs), told(here::from_pauli(p).map(|k| k.pivot)))
}

/// A diagonal projection at pivot 0, branch 0, of real amplitudes; the outputs.
fn projection(p: ActivePauli, state: &[f64], invnorm: f64) -> Answers {
    let zeros = vec![0.0; state.len()];
    let theirs = try_of(&to_rust(&widened(p)), |t| {
        let kernel = measurement_kernel(t, 0)?;
        let (mut re, mut im) = (state.to_vec(), zeros.clone());
        rust::project_diagonal_contiguous(&mut re, &mut im, &kernel, false, invnorm);
        let outputs = kernel.out_dim;
        Ok(amplitudes(&re[..outputs], &im[..outputs]))
    });
    let (mut re, mut im) = (state.to_vec(), zeros.clone());
    let ours = here::project(&mut re, &mut im, &mut [], &mut [], p, 0, 0, invnorm);
    (heard(theirs), refusal_of(ours, [state, &zeros], [&re, &im]))
}

/// Z on qubit 0 of 2, in buffers of three entries.
fn short_rotation() -> Answers {
    let p = active(2, 0, 0, 1);
    let (before_re, before_im) = ([1.0, 2.0, 3.0], [4.0, 5.0, 6.0]);
    let (mut re, mut im) = (before_re, before_im);
    let turn = Turn::Pair(0.6, 0.8);
    let theirs = try_of(&to_rust(&widened(p)), |t| {
        let kernel = rotation_kernel(t, turn)?;
        rust::rotate_contiguous_active(&mut re, &mut im, 4, &kernel, false);
        Ok("done")
    });
    let rotated = (0..3).filter(|&b| re[b] != before_re[b] && im[b] != before_im[b]);
    let theirs = format!("{} after {} entries", heard(theirs), rotated.count());
    let (mut re, mut im) = (before_re, before_im);
    let ours = here::rotate(&mut re, &mut im, p, 0, 0.6, 0.8);
    (
        theirs,
        refusal_of(ours, [&before_re, &before_im], [&re, &im]),
    )
}

/// X on 1 qubit, the scratch empty.
fn short_scratch() -> Answers {
    let p = active(1, 0, 1, 0);
    let before = [1.0, 2.0];
    let theirs = try_of(&to_rust(&widened(p)), |t| {
        let kernel = measurement_kernel(t, 0)?;
        let (mut re, mut im) = (before, before);
        let scratch = &mut [];
        rust::project_nondiagonal_contiguous(
            &mut re,
            &mut im,
            scratch,
            &mut [],
            &kernel,
            false,
            1.0,
        );
        Ok("done")
    });
    let (mut re, mut im) = (before, before);
    let ours = here::project(&mut re, &mut im, &mut [], &mut [], p, 0, 0, 1.0);
    (
        heard(theirs),
        refusal_of(ours, [&before, &before], [&re, &im]),
    )
}
