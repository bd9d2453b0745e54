//! The run: start, feed and answer with refusals 9 to 12, over any bytes and any altered
//! run; and what one gate or the ends of a table say, by the same checks.

use crate::check;
use crate::layout::{End, Header, Record};
use crate::positive::Sense;
use crate::refusal::Refusal;

/// A run: the gate number it stands at and the label it carries.
#[derive(Clone, Copy, Debug, PartialEq, Eq)]
pub struct Run {
    pub gate: u64,
    pub label: u8,
}

pub fn start(table: &[u8]) -> Result<Run, Refusal> {
    check::whole(table)?;
    Ok(Run { gate: 0, label: 0 })
}

/// The record of this gate: header and length or 9, then 11, then the record or 9.
pub fn gate(table: &[u8], gate: u64) -> Result<Record, Refusal> {
    let header = check::header(table)?;
    if gate >= header.gates as u64 {
        return Err(Refusal {
            number: 11,
            at: gate,
        });
    }
    check::record(table, header, gate as usize)
}

/// The header and the last record, or 9.
pub fn ends(table: &[u8]) -> Result<(Header, End), Refusal> {
    let header = check::header(table)?;
    Ok((header, check::end(table, header)?))
}

/// The run after the next gate, given the truth of that gate's primitive.
pub fn feed(run: Run, table: &[u8], truth: bool) -> Result<Run, Refusal> {
    let record = gate(table, run.gate)?;
    let holds = truth == (record.sense == Sense::Plain);
    let label = match (run.label == record.own, holds) {
        (false, _) => run.label,
        (true, true) => record.true_label,
        (true, false) => record.false_label,
    };
    Ok(Run {
        gate: run.gate + 1,
        label,
    })
}

/// The truth that a finished run has come to.
pub fn answer(run: Run, table: &[u8]) -> Result<bool, Refusal> {
    let (header, end) = ends(table)?;
    if run.gate != header.gates as u64 {
        return Err(Refusal {
            number: 10,
            at: run.gate,
        });
    }
    if run.label != end.true_label && run.label != end.false_label {
        return Err(Refusal {
            number: 12,
            at: u64::from(run.label),
        });
    }
    Ok(run.label == end.true_label)
}
