//! What several tests share: tables and refusals by short names.

#![allow(dead_code)]

use second::compiling::ample_room;
use second::{compile, Refusal};

pub fn table(text: &str) -> Vec<u8> {
    compile(text.as_bytes(), ample_room()).unwrap_or_else(|refusal| panic!("{text}: {refusal}"))
}

/// The number and place of the refusal of a text.
pub fn refused(text: &[u8]) -> (u8, u64) {
    match compile(text, ample_room()) {
        Err(Refusal { number, at }) => (number, at),
        Ok(table) => panic!("a table of {} bytes", table.len()),
    }
}

/// The records of a table's gates.
pub fn records(table: &[u8]) -> Vec<&[u8]> {
    table[4..table.len() - 3].chunks(6).collect()
}

/// The primitives of a table's gates, in order.
pub fn order(text: &str) -> Vec<u16> {
    records(&table(text))
        .iter()
        .map(|gate| u16::from_le_bytes([gate[1], gate[2]]))
        .collect()
}

/// The own, true and false labels of a table's gates, in order.
pub fn gate_labels(text: &str) -> Vec<[u8; 3]> {
    records(&table(text))
        .iter()
        .map(|gate| [gate[3], gate[4], gate[5]])
        .collect()
}

pub fn label_count(text: &str) -> u8 {
    table(text)[3]
}

/// True's and False's labels.
pub fn end_labels(text: &str) -> [u8; 2] {
    let table = table(text);
    [table[table.len() - 2], table[table.len() - 1]]
}
