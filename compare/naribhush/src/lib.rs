//! The proved calls, as crates/*_exports hand them out. Nothing checks these declarations against the
//! Rattle source: they are its functions and structs word for word, a slice being a pointer and a length.
//!
//! An answer is a `Result`: the value, or the refusal. What the promises say of the fields that an answer
//! does not use (a fixed value beside a refusal, 0 for a place that is none) is asserted on every call.
//! Signs, branches and other bits go in as numbers, any of them, and come out as bools.

use std::fmt::Debug;

/// A row of the scope's table, with its place where the call answers one.
#[derive(Clone, Copy, Debug, PartialEq, Eq)]
pub struct Refusal {
    pub number: u8,
    pub place: Option<usize>,
}

pub type Answer<T> = Result<T, Refusal>;

#[repr(C)]
#[derive(Clone, Copy, Debug, PartialEq, Eq, Default)]
pub struct PauliString {
    pub nqubits: usize,
    pub x: [u64; 4],
    pub z: [u64; 4],
    pub phase: u8,
}

/// A Pauli with one word a mask.
#[repr(C)]
#[derive(Clone, Copy, Debug, PartialEq, Eq, Default)]
pub struct ActivePauli {
    pub nqubits: usize,
    pub x: u64,
    pub z: u64,
    pub phase: u8,
}

#[repr(C)]
#[derive(Clone, Copy, Debug, PartialEq, Default)]
pub struct Complex64 {
    pub re: f64,
    pub im: f64,
}

#[repr(C)]
#[derive(Clone, Copy, Debug, PartialEq, Default)]
pub struct ActivePauliAction {
    pub nqubits: usize,
    pub xmask: u64,
    pub zmask: u64,
    pub even_phase: Complex64,
    pub odd_phase: Complex64,
    pub xz_overlap_odd: bool,
}

#[repr(C)]
#[derive(Clone, Copy, Debug, PartialEq, Default)]
pub struct PrecomputedActivePauliRotationKernel {
    pub action: ActivePauliAction,
    pub is_diagonal: bool,
    pub uniform_imag_pairs: bool,
    pub pair_bit: usize,
    pub cos_kernel_angle: f64,
    pub sin_kernel_angle: f64,
    pub minus_even_coefficient: Complex64,
}

#[repr(C)]
#[derive(Clone, Copy, Debug, PartialEq, Default)]
pub struct PrecomputedActivePauliMeasurementKernel {
    pub action: ActivePauliAction,
    pub pivot: usize,
    pub is_diagonal: bool,
    pub diagonal_phase_bit: bool,
    pub out_dim: usize,
    pub nondiagonal_coefficient1_even: Complex64,
}

/// A field of a run by its tag: 2 to 5 and 7 a step, 6 the end. `flag` is a sign or a branch. What the field does
/// not have is 0; a projection's one float is the first.
#[repr(C)]
#[derive(Clone, Copy, Debug, PartialEq, Default)]
pub struct Field {
    pub tag: u8,
    pub pauli: ActivePauli,
    pub flag: bool,
    pub pivot: usize,
    pub first: f64,
    pub second: f64,
}

/// What reading at a cursor answers: the field, and the cursor behind it.
#[repr(C)]
#[derive(Clone, Copy, Debug, PartialEq, Default)]
pub struct Read {
    pub field: Field,
    pub at: usize,
    pub width: usize,
}

/// A step by its tag, 2 to 5 or 7, as it is handed over: its sign or branch is a number. What the step does not
/// have is not looked at.
#[repr(C)]
#[derive(Clone, Copy, Debug, PartialEq, Default)]
pub struct GivenStep {
    pub tag: u8,
    pub pauli: ActivePauli,
    pub flag: u8,
    pub pivot: usize,
    pub first: f64,
    pub second: f64,
}

/// What taking a Pauli past a step answers: the step that is left behind, and the Pauli then.
#[repr(C)]
#[derive(Clone, Copy, Debug, PartialEq, Default)]
pub struct Past {
    pub field: Field,
    pub pauli: ActivePauli,
}

/// What checking a run answers.
#[repr(C)]
#[derive(Clone, Copy, Debug, PartialEq, Eq, Default)]
pub struct Survey {
    pub width: usize,
    pub steps: usize,
    pub greatest: usize,
    pub scratch: usize,
}

/// What running answers: the last width and the number of steps done.
#[derive(Clone, Copy, Debug, PartialEq, Eq, Default)]
pub struct Ending {
    pub width: usize,
    pub steps: usize,
}

/// What folding answers: the end Pauli, and the folded run's length in bytes.
#[derive(Clone, Copy, Debug, PartialEq, Eq, Default)]
pub struct Folding {
    pub end: ActivePauli,
    pub size: usize,
}

/// What is reported of a step: whether carrying changed its sign or branch, and the mask of the qubits on which the Pauli carried
/// so far and the step's anticommute.
#[derive(Clone, Copy, Debug, PartialEq, Eq, Default)]
pub enum Report {
    #[default]
    NoFlag,
    Flagged {
        changed: bool,
        mask: u64,
    },
}

#[repr(C)]
#[derive(Clone, Copy, Debug, PartialEq, Eq, Default)]
pub struct Ledger {
    pub offered: u64,
    pub finished: u64,
    pub refused: u64,
}

// ------------------------------------------------------------ what crosses

#[repr(C)]
#[derive(Clone, Copy, Debug)]
struct Verdict {
    kind: u8,
    number: u8,
    place: usize,
}

#[repr(C)]
struct Seen<T> {
    verdict: Verdict,
    value: T,
}

/// A letter by its X and its Z part.
#[repr(C)]
#[derive(Clone, Copy, Debug, PartialEq, Eq, Default)]
struct Parts {
    x: bool,
    z: bool,
}

#[repr(C)]
#[derive(Clone, Copy, Debug, PartialEq, Eq, Default)]
struct Support {
    found: bool,
    qubit: usize,
}

#[repr(C)]
struct SeenEnding {
    verdict: Verdict,
    width: usize,
    steps: usize,
}

#[repr(C)]
struct SeenFolding {
    verdict: Verdict,
    end: ActivePauli,
    size: usize,
}

/// A report's kind is 0 for no flag, 1 for one that was kept and 2 for one that was changed.
#[repr(C)]
struct SeenReport {
    verdict: Verdict,
    kind: u8,
    mask: u64,
}

#[repr(C)]
struct SeenServed {
    ending: SeenEnding,
    ledger: Ledger,
}

impl Verdict {
    fn answer<T: Debug + Default + PartialEq>(self, value: T) -> Answer<T> {
        let Verdict {
            kind,
            number,
            place,
        } = self;
        assert!(kind <= 2, "no verdict: {self:?}");
        assert!(kind == 2 || place == 0, "a place beside {self:?}");
        if kind == 0 {
            assert_eq!(number, 0, "a number beside {self:?}");
            return Ok(value);
        }
        assert!(number != 0, "refused by no row: {self:?}");
        assert_eq!(value, T::default(), "beside {self:?}");
        let place = (kind == 2).then_some(place);
        Err(Refusal { number, place })
    }
}

impl<T: Debug + Default + PartialEq> Seen<T> {
    fn answer(self) -> Answer<T> {
        self.verdict.answer(self.value)
    }
}

impl SeenEnding {
    fn answer(self) -> Answer<Ending> {
        self.verdict.answer(Ending {
            width: self.width,
            steps: self.steps,
        })
    }
}

impl SeenFolding {
    fn answer(self) -> Answer<Folding> {
        self.verdict.answer(Folding {
            end: self.end,
            size: self.size,
        })
    }
}

impl SeenReport {
    fn answer(self) -> Answer<Report> {
        let (kind, mask) = (self.kind, self.mask);
        assert!(kind <= 2, "no kind of report: {kind}");
        assert!(kind != 0 || mask == 0, "a mask beside no flag: {mask}");
        self.verdict.answer(match kind {
            0 => Report::NoFlag,
            _ => Report::Flagged {
                changed: kind == 2,
                mask,
            },
        })
    }
}

#[rustfmt::skip]
unsafe extern "C" {
    fn naribhush_is_odd_popcount(value: u64) -> bool;
    fn naribhush_insert_zero_bit(packed: usize, bit: usize) -> Seen<usize>;
    fn naribhush_packed_bit(words: *const [u64; 4], bit_index: usize) -> bool;
    fn naribhush_set_packed_bit(words: *mut [u64; 4], bit_index: usize, value: u8) -> Verdict;
    fn naribhush_pauli_identity(nqubits: usize) -> Seen<PauliString>;
    fn naribhush_x_bit(pauli: PauliString, q: usize) -> Seen<bool>;
    fn naribhush_z_bit(pauli: PauliString, q: usize) -> Seen<bool>;
    fn naribhush_get(pauli: PauliString, q: usize) -> Seen<Parts>;
    fn naribhush_set(pauli: PauliString, q: usize, x: u8, z: u8) -> Seen<PauliString>;
    fn naribhush_max_support(pauli: PauliString) -> Seen<Support>;
    fn naribhush_mul(lhs: PauliString, rhs: PauliString) -> Seen<PauliString>;
    fn naribhush_pauli_anticommutes(a: PauliString, b: PauliString) -> Seen<bool>;
    fn naribhush_coefficient_phase(pauli: PauliString) -> Seen<usize>;
    fn naribhush_pauli_squares_to_identity(pauli: PauliString) -> Seen<bool>;
    fn naribhush_measurement_phase_sign(pauli: PauliString) -> Seen<bool>;
    fn naribhush_pauli_string(ops: *const u8, len: usize) -> Seen<PauliString>;
    fn naribhush_display(pauli: PauliString, out: *mut u8, len: usize) -> Seen<usize>;

    fn naribhush_active_mul(lhs: ActivePauli, rhs: ActivePauli) -> Seen<ActivePauli>;
    fn naribhush_active_anticommutes(a: ActivePauli, b: ActivePauli) -> Seen<bool>;
    fn naribhush_active_is_hermitian(pauli: ActivePauli) -> Seen<bool>;
    fn naribhush_active_raised(pauli: ActivePauli, exponent: u8) -> Seen<ActivePauli>;
    fn naribhush_active_dropped(pauli: ActivePauli, q: usize) -> Seen<ActivePauli>;
    fn naribhush_active_x_bit(pauli: ActivePauli, q: usize) -> Seen<bool>;
    fn naribhush_active_z_bit(pauli: ActivePauli, q: usize) -> Seen<bool>;
    fn naribhush_phase_factor(phase: u8) -> Complex64;
    fn naribhush_action(pauli: PauliString) -> Seen<ActivePauliAction>;
    fn naribhush_rotation_kernel(pauli: ActivePauli, c: f64, s: f64) -> Seen<PrecomputedActivePauliRotationKernel>;
    fn naribhush_from_pauli(pauli: ActivePauli) -> Seen<PrecomputedActivePauliMeasurementKernel>;
    fn naribhush_with_pivot(pauli: ActivePauli, pivot: usize) -> Seen<PrecomputedActivePauliMeasurementKernel>;
    fn naribhush_rotate(re: *mut f64, re_len: usize, im: *mut f64, im_len: usize, pauli: ActivePauli, sign: u8, c: f64, s: f64) -> Verdict;
    fn naribhush_promote(re: *mut f64, re_len: usize, im: *mut f64, im_len: usize, nqubits: usize, c: f64, q: f64) -> Verdict;
    fn naribhush_probability(re: *const f64, re_len: usize, im: *const f64, im_len: usize, pauli: ActivePauli, pivot: usize, branch: u8) -> Seen<f64>;
    fn naribhush_project(re: *mut f64, re_len: usize, im: *mut f64, im_len: usize, scratch_re: *mut f64, scratch_re_len: usize, scratch_im: *mut f64, scratch_im_len: usize, pauli: ActivePauli, pivot: usize, branch: u8, invnorm: f64) -> Verdict;
    fn naribhush_correct(re: *mut f64, re_len: usize, im: *mut f64, im_len: usize, pauli: ActivePauli) -> Verdict;

    fn naribhush_read(run: *const u8, len: usize, at: usize, width: usize, limit: usize) -> Seen<Read>;
    fn naribhush_check_run(run: *const u8, len: usize) -> Seen<Survey>;
    fn naribhush_check_within(run: *const u8, len: usize, limit: usize) -> Seen<Survey>;
    fn naribhush_run(run: *const u8, len: usize, re: *mut f64, re_len: usize, im: *mut f64, im_len: usize, scratch_re: *mut f64, scratch_re_len: usize, scratch_im: *mut f64, scratch_im_len: usize) -> SeenEnding;
    fn naribhush_carry(run: *const u8, len: usize, pauli: ActivePauli, out: *mut u8, out_len: usize) -> Seen<ActivePauli>;
    fn naribhush_seek(run: *const u8, len: usize, end: ActivePauli) -> Seen<ActivePauli>;
    fn naribhush_fold(run: *const u8, len: usize, out: *mut u8, out_len: usize) -> SeenFolding;
    fn naribhush_report(run: *const u8, len: usize, pauli: ActivePauli, number: usize) -> SeenReport;
    fn naribhush_list_steps(run: *const u8, len: usize, pauli: ActivePauli, out: *mut u8, out_len: usize) -> Seen<usize>;
    fn naribhush_log(run: *const u8, len: usize, pauli: ActivePauli, out: *mut u8, out_len: usize) -> Seen<usize>;
    fn naribhush_judge(run: *const u8, len: usize, pauli: ActivePauli, log: *const u8, log_len: usize) -> Seen<bool>;
    fn naribhush_past(pauli: ActivePauli, step: GivenStep) -> Seen<Past>;
    fn naribhush_listing(run: *const u8, len: usize, out: *mut u8, out_len: usize) -> Seen<usize>;
    fn naribhush_serve(ledger: Ledger, run: *const u8, len: usize, re: *mut f64, re_len: usize, im: *mut f64, im_len: usize, scratch_re: *mut f64, scratch_re_len: usize, scratch_im: *mut f64, scratch_im_len: usize) -> SeenServed;

    fn naribhush_read_emulated(run: *const u8, len: usize, at: usize, width: usize) -> Seen<Read>;
    fn naribhush_check_emulated(run: *const u8, len: usize) -> Seen<Survey>;
    fn naribhush_run_emulated(run: *const u8, len: usize, re: *mut f64, re_len: usize, im: *mut f64, im_len: usize, scratch_re: *mut f64, scratch_re_len: usize, scratch_im: *mut f64, scratch_im_len: usize) -> SeenEnding;
    fn naribhush_carry_emulated(run: *const u8, len: usize, pauli: ActivePauli, out: *mut u8, out_len: usize) -> Seen<ActivePauli>;
    fn naribhush_seek_emulated(run: *const u8, len: usize, end: ActivePauli) -> Seen<ActivePauli>;
    fn naribhush_fold_emulated(run: *const u8, len: usize, out: *mut u8, out_len: usize) -> SeenFolding;
    fn naribhush_report_emulated(run: *const u8, len: usize, pauli: ActivePauli, number: usize) -> SeenReport;
    fn naribhush_log_emulated(run: *const u8, len: usize, pauli: ActivePauli, out: *mut u8, out_len: usize) -> Seen<usize>;
    fn naribhush_judge_emulated(run: *const u8, len: usize, pauli: ActivePauli, log: *const u8, log_len: usize) -> Seen<bool>;
    fn naribhush_serve_emulated(ledger: Ledger, run: *const u8, len: usize, re: *mut f64, re_len: usize, im: *mut f64, im_len: usize, scratch_re: *mut f64, scratch_re_len: usize, scratch_im: *mut f64, scratch_im_len: usize) -> SeenServed;
}

// -------------------------------------------------------- bits and Paulis
//
// A lent slice is a pointer and its own length, and no two of them overlap, since Rust lends them so.

pub fn is_odd_popcount(value: u64) -> bool {
    unsafe { naribhush_is_odd_popcount(value) }
}

pub fn insert_zero_bit(packed: usize, bit: usize) -> Answer<usize> {
    unsafe { naribhush_insert_zero_bit(packed, bit) }.answer()
}

pub fn packed_bit(words: &[u64; 4], bit_index: usize) -> bool {
    unsafe { naribhush_packed_bit(words, bit_index) }
}

pub fn set_packed_bit(words: &mut [u64; 4], bit_index: usize, value: u8) -> Answer<()> {
    unsafe { naribhush_set_packed_bit(words, bit_index, value) }.answer(())
}

pub fn pauli_identity(nqubits: usize) -> Answer<PauliString> {
    unsafe { naribhush_pauli_identity(nqubits) }.answer()
}

pub fn x_bit(pauli: PauliString, q: usize) -> Answer<bool> {
    unsafe { naribhush_x_bit(pauli, q) }.answer()
}

pub fn z_bit(pauli: PauliString, q: usize) -> Answer<bool> {
    unsafe { naribhush_z_bit(pauli, q) }.answer()
}

/// 0 for I, 1 for X, 2 for Z, 3 for Y.
pub fn get(pauli: PauliString, q: usize) -> Answer<usize> {
    let parts = unsafe { naribhush_get(pauli, q) }.answer()?;
    Ok(usize::from(parts.x) + 2 * usize::from(parts.z))
}

/// The letter by its X and its Z part.
pub fn set(pauli: PauliString, q: usize, x: u8, z: u8) -> Answer<PauliString> {
    unsafe { naribhush_set(pauli, q, x, z) }.answer()
}

/// The highest qubit, none for the identity.
pub fn max_support(pauli: PauliString) -> Answer<Option<usize>> {
    let support = unsafe { naribhush_max_support(pauli) }.answer()?;
    assert!(support.found || support.qubit == 0, "beside {support:?}");
    Ok(support.found.then_some(support.qubit))
}

pub fn mul(lhs: PauliString, rhs: PauliString) -> Answer<PauliString> {
    unsafe { naribhush_mul(lhs, rhs) }.answer()
}

pub fn pauli_anticommutes(a: PauliString, b: PauliString) -> Answer<bool> {
    unsafe { naribhush_pauli_anticommutes(a, b) }.answer()
}

pub fn coefficient_phase(pauli: PauliString) -> Answer<usize> {
    unsafe { naribhush_coefficient_phase(pauli) }.answer()
}

pub fn pauli_squares_to_identity(pauli: PauliString) -> Answer<bool> {
    unsafe { naribhush_pauli_squares_to_identity(pauli) }.answer()
}

pub fn measurement_phase_sign(pauli: PauliString) -> Answer<bool> {
    unsafe { naribhush_measurement_phase_sign(pauli) }.answer()
}

pub fn pauli_string(ops: &[u8]) -> Answer<PauliString> {
    unsafe { naribhush_pauli_string(ops.as_ptr(), ops.len()) }.answer()
}

pub fn display(pauli: PauliString, out: &mut [u8]) -> Answer<usize> {
    unsafe { naribhush_display(pauli, out.as_mut_ptr(), out.len()) }.answer()
}

// ---------------------------------------------------------------- kernels

pub fn active_mul(lhs: ActivePauli, rhs: ActivePauli) -> Answer<ActivePauli> {
    unsafe { naribhush_active_mul(lhs, rhs) }.answer()
}

pub fn active_anticommutes(a: ActivePauli, b: ActivePauli) -> Answer<bool> {
    unsafe { naribhush_active_anticommutes(a, b) }.answer()
}

pub fn active_is_hermitian(pauli: ActivePauli) -> Answer<bool> {
    unsafe { naribhush_active_is_hermitian(pauli) }.answer()
}

pub fn active_raised(pauli: ActivePauli, exponent: u8) -> Answer<ActivePauli> {
    unsafe { naribhush_active_raised(pauli, exponent) }.answer()
}

pub fn active_dropped(pauli: ActivePauli, q: usize) -> Answer<ActivePauli> {
    unsafe { naribhush_active_dropped(pauli, q) }.answer()
}

pub fn active_x_bit(pauli: ActivePauli, q: usize) -> Answer<bool> {
    unsafe { naribhush_active_x_bit(pauli, q) }.answer()
}

pub fn active_z_bit(pauli: ActivePauli, q: usize) -> Answer<bool> {
    unsafe { naribhush_active_z_bit(pauli, q) }.answer()
}

pub fn phase_factor(phase: u8) -> Complex64 {
    unsafe { naribhush_phase_factor(phase) }
}

pub fn action(pauli: PauliString) -> Answer<ActivePauliAction> {
    unsafe { naribhush_action(pauli) }.answer()
}

pub fn rotation_kernel(
    pauli: ActivePauli,
    c: f64,
    s: f64,
) -> Answer<PrecomputedActivePauliRotationKernel> {
    unsafe { naribhush_rotation_kernel(pauli, c, s) }.answer()
}

pub fn from_pauli(pauli: ActivePauli) -> Answer<PrecomputedActivePauliMeasurementKernel> {
    unsafe { naribhush_from_pauli(pauli) }.answer()
}

pub fn with_pivot(
    pauli: ActivePauli,
    pivot: usize,
) -> Answer<PrecomputedActivePauliMeasurementKernel> {
    unsafe { naribhush_with_pivot(pauli, pivot) }.answer()
}

pub fn rotate(
    re: &mut [f64],
    im: &mut [f64],
    pauli: ActivePauli,
    sign: u8,
    c: f64,
    s: f64,
) -> Answer<()> {
    let verdict = unsafe {
        naribhush_rotate(
            re.as_mut_ptr(),
            re.len(),
            im.as_mut_ptr(),
            im.len(),
            pauli,
            sign,
            c,
            s,
        )
    };
    verdict.answer(())
}

pub fn promote(re: &mut [f64], im: &mut [f64], nqubits: usize, c: f64, q: f64) -> Answer<()> {
    let verdict = unsafe {
        naribhush_promote(
            re.as_mut_ptr(),
            re.len(),
            im.as_mut_ptr(),
            im.len(),
            nqubits,
            c,
            q,
        )
    };
    verdict.answer(())
}

pub fn probability(
    re: &[f64],
    im: &[f64],
    pauli: ActivePauli,
    pivot: usize,
    branch: u8,
) -> Answer<f64> {
    let seen = unsafe {
        naribhush_probability(
            re.as_ptr(),
            re.len(),
            im.as_ptr(),
            im.len(),
            pauli,
            pivot,
            branch,
        )
    };
    seen.answer()
}

#[allow(clippy::too_many_arguments)]
pub fn project(
    re: &mut [f64],
    im: &mut [f64],
    scratch_re: &mut [f64],
    scratch_im: &mut [f64],
    pauli: ActivePauli,
    pivot: usize,
    branch: u8,
    invnorm: f64,
) -> Answer<()> {
    let verdict = unsafe {
        naribhush_project(
            re.as_mut_ptr(),
            re.len(),
            im.as_mut_ptr(),
            im.len(),
            scratch_re.as_mut_ptr(),
            scratch_re.len(),
            scratch_im.as_mut_ptr(),
            scratch_im.len(),
            pauli,
            pivot,
            branch,
            invnorm,
        )
    };
    verdict.answer(())
}

pub fn correct(re: &mut [f64], im: &mut [f64], pauli: ActivePauli) -> Answer<()> {
    let verdict =
        unsafe { naribhush_correct(re.as_mut_ptr(), re.len(), im.as_mut_ptr(), im.len(), pauli) };
    verdict.answer(())
}

// ------------------------------------------------------------------- runs

/// The field whose tag stands at `at`, the state having `width` qubits there.
pub fn read(run: &[u8], at: usize, width: usize, limit: usize) -> Answer<Read> {
    unsafe { naribhush_read(run.as_ptr(), run.len(), at, width, limit) }.answer()
}

pub fn check_run(run: &[u8]) -> Answer<Survey> {
    unsafe { naribhush_check_run(run.as_ptr(), run.len()) }.answer()
}

pub fn check_within(run: &[u8], limit: usize) -> Answer<Survey> {
    unsafe { naribhush_check_within(run.as_ptr(), run.len(), limit) }.answer()
}

#[rustfmt::skip]
type RunCall = unsafe extern "C" fn(*const u8, usize, *mut f64, usize, *mut f64, usize, *mut f64, usize, *mut f64, usize) -> SeenEnding;

/// The service's run, or the emulator's.
fn ran(
    call: RunCall,
    run: &[u8],
    re: &mut [f64],
    im: &mut [f64],
    scratch_re: &mut [f64],
    scratch_im: &mut [f64],
) -> Answer<Ending> {
    let seen = unsafe {
        call(
            run.as_ptr(),
            run.len(),
            re.as_mut_ptr(),
            re.len(),
            im.as_mut_ptr(),
            im.len(),
            scratch_re.as_mut_ptr(),
            scratch_re.len(),
            scratch_im.as_mut_ptr(),
            scratch_im.len(),
        )
    };
    seen.answer()
}

pub fn run_contiguous(
    run: &[u8],
    re: &mut [f64],
    im: &mut [f64],
    scratch_re: &mut [f64],
    scratch_im: &mut [f64],
) -> Answer<Ending> {
    ran(naribhush_run, run, re, im, scratch_re, scratch_im)
}

pub fn carry_run(run: &[u8], pauli: ActivePauli, out: &mut [u8]) -> Answer<ActivePauli> {
    let seen =
        unsafe { naribhush_carry(run.as_ptr(), run.len(), pauli, out.as_mut_ptr(), out.len()) };
    seen.answer()
}

/// Some Pauli on the start qubits that is carried to this end.
pub fn seek_start(run: &[u8], end: ActivePauli) -> Answer<ActivePauli> {
    unsafe { naribhush_seek(run.as_ptr(), run.len(), end) }.answer()
}

/// The run without its corrections, to the start of `out`.
pub fn fold_run(run: &[u8], out: &mut [u8]) -> Answer<Folding> {
    unsafe { naribhush_fold(run.as_ptr(), run.len(), out.as_mut_ptr(), out.len()) }.answer()
}

/// What is reported of the step of this number, from 0.
pub fn report_step(run: &[u8], pauli: ActivePauli, number: usize) -> Answer<Report> {
    unsafe { naribhush_report(run.as_ptr(), run.len(), pauli, number) }.answer()
}

/// A line for each step and for the end, to the start of `out`.
pub fn list_steps(run: &[u8], pauli: ActivePauli, out: &mut [u8]) -> Answer<usize> {
    let seen = unsafe {
        naribhush_list_steps(run.as_ptr(), run.len(), pauli, out.as_mut_ptr(), out.len())
    };
    seen.answer()
}

/// The right frame log, to the start of `out`: its length.
pub fn log_run(run: &[u8], pauli: ActivePauli, out: &mut [u8]) -> Answer<usize> {
    let seen =
        unsafe { naribhush_log(run.as_ptr(), run.len(), pauli, out.as_mut_ptr(), out.len()) };
    seen.answer()
}

/// Whether a frame log agrees with carrying.
pub fn judge_log(run: &[u8], pauli: ActivePauli, log: &[u8]) -> Answer<bool> {
    unsafe { naribhush_judge(run.as_ptr(), run.len(), pauli, log.as_ptr(), log.len()) }.answer()
}

/// The Pauli past one step.
pub fn past(pauli: ActivePauli, step: GivenStep) -> Answer<Past> {
    unsafe { naribhush_past(pauli, step) }.answer()
}

/// What the program `bench` prints of a run, to the start of `out`.
pub fn list_run(run: &[u8], out: &mut [u8]) -> Answer<usize> {
    let seen = unsafe { naribhush_listing(run.as_ptr(), run.len(), out.as_mut_ptr(), out.len()) };
    seen.answer()
}

#[rustfmt::skip]
type ServeCall = unsafe extern "C" fn(Ledger, *const u8, usize, *mut f64, usize, *mut f64, usize, *mut f64, usize, *mut f64, usize) -> SeenServed;

/// The service's run and the ledger behind it, or the emulator's.
fn served(
    call: ServeCall,
    ledger: Ledger,
    run: &[u8],
    re: &mut [f64],
    im: &mut [f64],
    scratch_re: &mut [f64],
    scratch_im: &mut [f64],
) -> (Answer<Ending>, Ledger) {
    let served = unsafe {
        call(
            ledger,
            run.as_ptr(),
            run.len(),
            re.as_mut_ptr(),
            re.len(),
            im.as_mut_ptr(),
            im.len(),
            scratch_re.as_mut_ptr(),
            scratch_re.len(),
            scratch_im.as_mut_ptr(),
            scratch_im.len(),
        )
    };
    (served.ending.answer(), served.ledger)
}

/// The run's answer, and the ledger behind it.
pub fn serve(
    ledger: Ledger,
    run: &[u8],
    re: &mut [f64],
    im: &mut [f64],
    scratch_re: &mut [f64],
    scratch_im: &mut [f64],
) -> (Answer<Ending>, Ledger) {
    served(naribhush_serve, ledger, run, re, im, scratch_re, scratch_im)
}

// ------------------------------------------------------------ the emulator

/// As `read`, within the emulator's widest state.
pub fn read_emulated(run: &[u8], at: usize, width: usize) -> Answer<Read> {
    unsafe { naribhush_read_emulated(run.as_ptr(), run.len(), at, width) }.answer()
}

pub fn check_emulated(run: &[u8]) -> Answer<Survey> {
    unsafe { naribhush_check_emulated(run.as_ptr(), run.len()) }.answer()
}

pub fn run_emulated(
    run: &[u8],
    re: &mut [f64],
    im: &mut [f64],
    scratch_re: &mut [f64],
    scratch_im: &mut [f64],
) -> Answer<Ending> {
    ran(naribhush_run_emulated, run, re, im, scratch_re, scratch_im)
}

pub fn carry_emulated(run: &[u8], pauli: ActivePauli, out: &mut [u8]) -> Answer<ActivePauli> {
    let seen = unsafe {
        naribhush_carry_emulated(run.as_ptr(), run.len(), pauli, out.as_mut_ptr(), out.len())
    };
    seen.answer()
}

pub fn seek_emulated(run: &[u8], end: ActivePauli) -> Answer<ActivePauli> {
    unsafe { naribhush_seek_emulated(run.as_ptr(), run.len(), end) }.answer()
}

pub fn fold_emulated(run: &[u8], out: &mut [u8]) -> Answer<Folding> {
    let seen =
        unsafe { naribhush_fold_emulated(run.as_ptr(), run.len(), out.as_mut_ptr(), out.len()) };
    seen.answer()
}

pub fn report_emulated(run: &[u8], pauli: ActivePauli, number: usize) -> Answer<Report> {
    unsafe { naribhush_report_emulated(run.as_ptr(), run.len(), pauli, number) }.answer()
}

pub fn log_emulated(run: &[u8], pauli: ActivePauli, out: &mut [u8]) -> Answer<usize> {
    let seen = unsafe {
        naribhush_log_emulated(run.as_ptr(), run.len(), pauli, out.as_mut_ptr(), out.len())
    };
    seen.answer()
}

pub fn judge_emulated(run: &[u8], pauli: ActivePauli, log: &[u8]) -> Answer<bool> {
    unsafe { naribhush_judge_emulated(run.as_ptr(), run.len(), pauli, log.as_ptr(), log.len()) }.answer()
}

/// The run's answer, and the ledger behind it, which counts none of these.
pub fn serve_emulated(
    ledger: Ledger,
    run: &[u8],
    re: &mut [f64],
    im: &mut [f64],
    scratch_re: &mut [f64],
    scratch_im: &mut [f64],
) -> (Answer<Ending>, Ledger) {
    served(
        naribhush_serve_emulated,
        ledger,
        run,
        re,
        im,
        scratch_re,
        scratch_im,
    )
}
