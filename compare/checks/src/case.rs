//! The case at hand, so that a panic or an access outside a lent buffer names it, and the arguments.

use std::ffi::{c_int, c_void};
use std::sync::atomic::{AtomicU64, Ordering};

static CASE: AtomicU64 = AtomicU64::new(0);

const SIGBUS: c_int = 7;
const SIGSEGV: c_int = 11;

unsafe extern "C" {
    fn signal(number: c_int, handler: extern "C" fn(c_int)) -> usize;
    fn write(file: c_int, bytes: *const c_void, length: usize) -> isize;
    fn _exit(status: c_int) -> !;
}

/// From here on the dice of this seed are thrown.
pub fn begin(seed: u64) {
    CASE.store(seed, Ordering::Relaxed);
}

pub fn name_faults() {
    unsafe {
        signal(SIGSEGV, faulted);
        signal(SIGBUS, faulted);
    }
    let usual = std::panic::take_hook();
    std::panic::set_hook(Box::new(move |panic| {
        eprintln!("in the case of seed {}:", CASE.load(Ordering::Relaxed));
        usual(panic);
    }));
}

extern "C" fn faulted(_: c_int) {
    say(b"access outside the lent buffers in the case of seed ");
    say_number(CASE.load(Ordering::Relaxed));
    say(b"\n");
    unsafe { _exit(1) }
}

fn say(text: &[u8]) {
    unsafe { write(2, text.as_ptr().cast(), text.len()) };
}

/// In decimal, without an allocation, which a signal handler may not make.
fn say_number(number: u64) {
    if number > 9 {
        say_number(number / 10);
    }
    say(&[b'0' + (number % 10) as u8]);
}

/// [COUNT] [SEED] [heap]. Case i throws the dice of SEED + i, so that COUNT 1 repeats a single one.
pub struct Arguments {
    pub count: u64,
    pub seed: u64,
    pub heap: bool,
}

impl Arguments {
    pub fn read(count: u64, seed: u64) -> Self {
        let all: Vec<String> = std::env::args().skip(1).collect();
        let number = |at: usize| {
            let text = all.get(at).filter(|text| *text != "heap")?;
            Some(text.parse().expect("a number"))
        };
        Self {
            count: number(0).unwrap_or(count),
            seed: number(1).unwrap_or(seed),
            heap: all.iter().any(|text| text == "heap"),
        }
    }
}
