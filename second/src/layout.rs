//! The table's bytes: where its records stand, what they hold, and how they are written.

use crate::positive::Sense;
use crate::weaving::{Gate, Labels, Place};

pub const MOST_LABELS: usize = 15;
pub const HEADER: usize = 4;
pub const GATE: usize = 6;
pub const END: usize = 3;

/// Where a gate's record starts; for the number of gates, the last record.
pub fn record_start(gate: usize) -> usize {
    HEADER + GATE * gate
}

/// The length of a table of so many gates.
pub fn length(gates: usize) -> usize {
    record_start(gates) + END
}

/// The table of gates whose labels pass refusal 7.
pub fn write(gates: &[Gate], labels: &Labels) -> Vec<u8> {
    let label = |place| labels.of(place) as u8;
    let [low, high] = (gates.len() as u16).to_le_bytes();
    let mut bytes = vec![b'H', low, high, labels.count as u8];
    for (k, gate) in gates.iter().enumerate() {
        let kind = match gate.literal.sense {
            Sense::Plain => b'P',
            Sense::Complemented => b'N',
        };
        let [low, high] = gate.literal.primitive.to_le_bytes();
        let (yes, no) = (label(gate.true_place), label(gate.false_place));
        bytes.extend([kind, low, high, label(Place::Gate(k)), yes, no]);
    }
    bytes.extend([b'E', label(Place::True), label(Place::False)]);
    bytes
}

/// What a table's header says, once header and length are found without fault.
#[derive(Clone, Copy, Debug, PartialEq, Eq)]
pub struct Header {
    pub gates: usize,
    pub labels: u8,
}

/// A gate's record.
#[derive(Clone, Copy, Debug, PartialEq, Eq)]
pub struct Record {
    pub sense: Sense,
    pub primitive: u16,
    pub own: u8,
    pub true_label: u8,
    pub false_label: u8,
}

/// The last record: True's and False's labels.
#[derive(Clone, Copy, Debug, PartialEq, Eq)]
pub struct End {
    pub true_label: u8,
    pub false_label: u8,
}
