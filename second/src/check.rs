//! The check of a table's bytes, which may be any: header and length, one gate's record,
//! the last record, or all of them; refusal 9 with the start of the first record at fault.

use crate::layout::{length, record_start, End, Header, Record, GATE, HEADER, MOST_LABELS};
use crate::positive::Sense;
use crate::refusal::Refusal;
use crate::text::{MOST_LITERALS, MOST_PRIMITIVE};

fn refuse<T>(part: Option<T>, start: usize) -> Result<T, Refusal> {
    part.ok_or(Refusal::new(9, start))
}

/// Checks the header, then the length.
pub fn header(table: &[u8]) -> Result<Header, Refusal> {
    refuse(
        header_part(table).filter(|header| table.len() == length(header.gates)),
        0,
    )
}

fn header_part(table: &[u8]) -> Option<Header> {
    let (low, high, labels) = match table.get(..HEADER)? {
        &[b'H', low, high, labels] => (low, high, labels),
        _ => return None,
    };
    let gates = usize::from(u16::from_le_bytes([low, high]));
    let sound =
        (1..=MOST_LITERALS).contains(&gates) && (2..=MOST_LABELS).contains(&usize::from(labels));
    sound.then_some(Header { gates, labels })
}

/// Checks and reads the record of a gate below the header's number of gates.
pub fn record(table: &[u8], header: Header, gate: usize) -> Result<Record, Refusal> {
    let start = record_start(gate);
    refuse(
        record_part(&table[start..start + GATE], header, gate),
        start,
    )
}

fn record_part(bytes: &[u8], header: Header, gate: usize) -> Option<Record> {
    let (sense, body) = match bytes {
        [b'P', body @ ..] => (Sense::Plain, body),
        [b'N', body @ ..] => (Sense::Complemented, body),
        _ => return None,
    };
    let &[low, high, own, true_label, false_label] = <&[u8; GATE - 1]>::try_from(body).ok()?;
    let primitive = u16::from_le_bytes([low, high]);
    let sound = primitive <= MOST_PRIMITIVE
        && [own, true_label, false_label]
            .iter()
            .all(|&label| label < header.labels)
        && (gate > 0 || own == 0);
    sound.then_some(Record {
        sense,
        primitive,
        own,
        true_label,
        false_label,
    })
}

/// Checks and reads the last record.
pub fn end(table: &[u8], header: Header) -> Result<End, Refusal> {
    let start = record_start(header.gates);
    refuse(end_part(&table[start..], header), start)
}

fn end_part(bytes: &[u8], header: Header) -> Option<End> {
    let (true_label, false_label) = match bytes {
        &[b'E', true_label, false_label] => (true_label, false_label),
        _ => return None,
    };
    let below = true_label < header.labels && false_label < header.labels;
    (below && true_label != false_label).then_some(End {
        true_label,
        false_label,
    })
}

/// Checks a whole table.
pub fn whole(table: &[u8]) -> Result<Header, Refusal> {
    let header = header(table)?;
    for gate in 0..header.gates {
        record(table, header, gate)?;
    }
    end(table, header)?;
    Ok(header)
}
