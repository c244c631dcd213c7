//! The two callers of a run: the calls that each has, and the names that they are counted by.

use crate::state::Buffers;
use model::run::{Caller, EMULATOR, SERVICE};
use naribhush::{ActivePauli, Answer, Ending, Folding, Ledger, Refusal, Report, Survey};

#[derive(Clone, Copy, Debug, PartialEq, Eq)]
pub enum Who {
    Service,
    Emulator,
}

pub const BOTH: [Who; 2] = [Who::Service, Who::Emulator];

/// A call's name where the answer is a value or one of the run's own rows, which have a place; and where it is one of the rows
/// that come from what else was lent.
pub struct Name {
    pub run: &'static str,
    pub caller: &'static str,
}

impl Name {
    pub fn of<T>(&self, answer: &Answer<T>) -> &'static str {
        match answer {
            Err(Refusal { place: None, .. }) => self.caller,
            _ => self.run,
        }
    }
}

macro_rules! name {
    ($call:literal) => {
        Name {
            run: $call,
            caller: concat!($call, ", the call's own"),
        }
    };
}

pub struct Names {
    pub run: Name,
    pub serve: Name,
    pub carry: Name,
    pub seek: Name,
    pub fold: Name,
    pub report: Name,
    pub log: Name,
    pub judge: Name,
}

const SERVICES: Names = Names {
    run: name!("run"),
    serve: name!("serve"),
    carry: name!("carry"),
    seek: name!("seek"),
    fold: name!("fold"),
    report: name!("report"),
    log: name!("log"),
    judge: name!("judge"),
};

const EMULATORS: Names = Names {
    run: name!("run_emulated"),
    serve: name!("serve_emulated"),
    carry: name!("carry_emulated"),
    seek: name!("seek_emulated"),
    fold: name!("fold_emulated"),
    report: name!("report_emulated"),
    log: name!("log_emulated"),
    judge: name!("judge_emulated"),
};

impl Who {
    pub fn name(self) -> &'static str {
        match self {
            Who::Service => "service",
            Who::Emulator => "emulator",
        }
    }

    /// As the model has it.
    pub fn caller(self) -> Caller {
        match self {
            Who::Service => SERVICE,
            Who::Emulator => EMULATOR,
        }
    }

    pub fn names(self) -> &'static Names {
        match self {
            Who::Service => &SERVICES,
            Who::Emulator => &EMULATORS,
        }
    }

    pub fn check(self, bytes: &[u8]) -> Answer<Survey> {
        match self {
            Who::Service => naribhush::check_run(bytes),
            Who::Emulator => naribhush::check_emulated(bytes),
        }
    }

    pub fn run(self, bytes: &[u8], buffers: &mut Buffers) -> Answer<Ending> {
        let [re, im, scratch_re, scratch_im] = &mut buffers.0;
        match self {
            Who::Service => naribhush::run_contiguous(bytes, re, im, scratch_re, scratch_im),
            Who::Emulator => naribhush::run_emulated(bytes, re, im, scratch_re, scratch_im),
        }
    }

    pub fn carry(self, bytes: &[u8], q: ActivePauli, out: &mut [u8]) -> Answer<ActivePauli> {
        match self {
            Who::Service => naribhush::carry_run(bytes, q, out),
            Who::Emulator => naribhush::carry_emulated(bytes, q, out),
        }
    }

    pub fn seek(self, bytes: &[u8], end: ActivePauli) -> Answer<ActivePauli> {
        match self {
            Who::Service => naribhush::seek_start(bytes, end),
            Who::Emulator => naribhush::seek_emulated(bytes, end),
        }
    }

    pub fn fold(self, bytes: &[u8], out: &mut [u8]) -> Answer<Folding> {
        match self {
            Who::Service => naribhush::fold_run(bytes, out),
            Who::Emulator => naribhush::fold_emulated(bytes, out),
        }
    }

    pub fn report(self, bytes: &[u8], q: ActivePauli, number: usize) -> Answer<Report> {
        match self {
            Who::Service => naribhush::report_step(bytes, q, number),
            Who::Emulator => naribhush::report_emulated(bytes, q, number),
        }
    }

    pub fn log(self, bytes: &[u8], q: ActivePauli, out: &mut [u8]) -> Answer<usize> {
        match self {
            Who::Service => naribhush::log_run(bytes, q, out),
            Who::Emulator => naribhush::log_emulated(bytes, q, out),
        }
    }

    pub fn judge(self, bytes: &[u8], q: ActivePauli, log: &[u8]) -> Answer<bool> {
        match self {
            Who::Service => naribhush::judge_log(bytes, q, log),
            Who::Emulator => naribhush::judge_emulated(bytes, q, log),
        }
    }

    pub fn serve(
        self,
        ledger: Ledger,
        bytes: &[u8],
        buffers: &mut Buffers,
    ) -> (Answer<Ending>, Ledger) {
        let [re, im, scratch_re, scratch_im] = &mut buffers.0;
        match self {
            Who::Service => naribhush::serve(ledger, bytes, re, im, scratch_re, scratch_im),
            Who::Emulator => {
                naribhush::serve_emulated(ledger, bytes, re, im, scratch_re, scratch_im)
            }
        }
    }

    /// The ledger behind a call: the service's count, the emulator's do not.
    pub fn counted(self, ledger: Ledger, finished: bool) -> Ledger {
        match self {
            Who::Service => Ledger {
                offered: ledger.offered.wrapping_add(1),
                finished: ledger.finished.wrapping_add(u64::from(finished)),
                refused: ledger.refused.wrapping_add(u64::from(!finished)),
            },
            Who::Emulator => ledger,
        }
    }
}
