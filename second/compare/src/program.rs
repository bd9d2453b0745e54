//! What the library's header promises its callers, as a trait, and the second program's
//! answers in that form: every field is said, those without a meaning are nought.

use second::check;
use second::compiling::{table_of, within};
use second::positive::Sense;
use second::run::{self, Run};
use second::Refusal;

/// What compiling answers.
#[repr(C)]
#[derive(Clone, Copy, Debug, Default, PartialEq, Eq)]
pub struct Compiled {
    pub refusal: u8,
    pub at: usize,
    pub length: usize,
}

/// What starting and feeding answer.
#[repr(C)]
#[derive(Clone, Copy, Debug, Default, PartialEq, Eq)]
pub struct Moved {
    pub refusal: u8,
    pub at: usize,
    pub gate: usize,
    pub label: u8,
}

/// What asking the answer gives.
#[repr(C)]
#[derive(Clone, Copy, Debug, Default, PartialEq, Eq)]
pub struct Answered {
    pub refusal: u8,
    pub at: usize,
    pub truth: u8,
}

/// What the reader of a table's header answers.
#[repr(C)]
#[derive(Clone, Copy, Debug, Default, PartialEq, Eq)]
pub struct Counts {
    pub refusal: u8,
    pub at: usize,
    pub gates: usize,
    pub labels: u8,
    pub first_label: u8,
}

/// What the reader of a gate's record answers.
#[repr(C)]
#[derive(Clone, Copy, Debug, Default, PartialEq, Eq)]
pub struct Recorded {
    pub refusal: u8,
    pub at: usize,
    pub primitive: u16,
    pub complemented: u8,
    pub own: u8,
    pub on_true: u8,
    pub on_false: u8,
}

/// What the reader of the end labels answers.
#[repr(C)]
#[derive(Clone, Copy, Debug, Default, PartialEq, Eq)]
pub struct EndLabels {
    pub refusal: u8,
    pub at: usize,
    pub on_true: u8,
    pub on_false: u8,
}

/// A run as its holder may have altered it, with the truth byte to feed.
#[derive(Clone, Copy, Debug, PartialEq, Eq)]
pub struct Fed {
    pub gate: usize,
    pub label: u8,
    pub truth: u8,
}

impl Fed {
    fn run(self) -> Run {
        Run {
            gate: self.gate as u64,
            label: self.label,
        }
    }
}

/// A program with the four entry points and the three readers of a table.
pub trait Program {
    fn compile(&self, text: &[u8], out: &mut [u8]) -> Compiled;
    fn start(&self, table: &[u8]) -> Moved;
    fn feed(&self, fed: Fed, table: &[u8]) -> Moved;
    /// The truth byte is not looked at.
    fn answer(&self, fed: Fed, table: &[u8]) -> Answered;
    fn header(&self, table: &[u8]) -> Counts;
    fn gate(&self, table: &[u8], gate: usize) -> Recorded;
    fn ends(&self, table: &[u8]) -> EndLabels;
}

/// The second program.
pub struct Second;

/// What compiling is to answer, by the second program's table or refusal of the text, and
/// the bytes at the start of the lent buffer that it is to write.
pub fn expected(table: &Result<Vec<u8>, Refusal>, room: usize) -> (Compiled, Vec<u8>) {
    let answer = table.clone().and_then(|table| within(room, table));
    let written = answer.clone().unwrap_or_default();
    let compiled = match answer {
        Ok(table) => Compiled {
            length: table.len(),
            ..Compiled::default()
        },
        Err(refusal) => Compiled {
            refusal: refusal.number,
            at: refusal.at as usize,
            length: 0,
        },
    };
    (compiled, written)
}

impl Program for Second {
    fn compile(&self, text: &[u8], out: &mut [u8]) -> Compiled {
        let (compiled, written) = expected(&table_of(text), out.len());
        out[..written.len()].copy_from_slice(&written);
        compiled
    }

    fn start(&self, table: &[u8]) -> Moved {
        moved(run::start(table), 0, 0)
    }

    fn feed(&self, fed: Fed, table: &[u8]) -> Moved {
        let run = run::feed(fed.run(), table, fed.truth != 0);
        moved(run, fed.gate, fed.label)
    }

    fn answer(&self, fed: Fed, table: &[u8]) -> Answered {
        match run::answer(fed.run(), table) {
            Ok(truth) => Answered {
                truth: u8::from(truth),
                ..Answered::default()
            },
            Err(refusal) => Answered {
                refusal: refusal.number,
                at: refusal.at as usize,
                truth: 0,
            },
        }
    }

    fn header(&self, table: &[u8]) -> Counts {
        match check::header(table) {
            Ok(header) => Counts {
                gates: header.gates,
                labels: header.labels,
                ..Counts::default()
            },
            Err(refusal) => Counts {
                refusal: refusal.number,
                at: refusal.at as usize,
                ..Counts::default()
            },
        }
    }

    fn gate(&self, table: &[u8], gate: usize) -> Recorded {
        match run::gate(table, gate as u64) {
            Ok(record) => Recorded {
                refusal: 0,
                at: 0,
                primitive: record.primitive,
                complemented: u8::from(record.sense == Sense::Complemented),
                own: record.own,
                on_true: record.true_label,
                on_false: record.false_label,
            },
            Err(refusal) => Recorded {
                refusal: refusal.number,
                at: refusal.at as usize,
                ..Recorded::default()
            },
        }
    }

    fn ends(&self, table: &[u8]) -> EndLabels {
        match run::ends(table) {
            Ok((_, end)) => EndLabels {
                refusal: 0,
                at: 0,
                on_true: end.true_label,
                on_false: end.false_label,
            },
            Err(refusal) => EndLabels {
                refusal: refusal.number,
                at: refusal.at as usize,
                ..EndLabels::default()
            },
        }
    }
}

/// A run moved on; or a refusal, with the gate and label that the header has stand there.
fn moved(run: Result<Run, Refusal>, gate: usize, label: u8) -> Moved {
    match run {
        Ok(run) => Moved {
            refusal: 0,
            at: 0,
            gate: run.gate as usize,
            label: run.label,
        },
        Err(refusal) => Moved {
            refusal: refusal.number,
            at: refusal.at as usize,
            gate,
            label,
        },
    }
}
