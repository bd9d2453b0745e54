//! Compiling: refusals 1 to 8 in order, or the table; and the listing of a text's table.

use crate::positive::{positive, Node, Sense};
use crate::refusal::Refusal;
use crate::{check, layout, reading, text, turning, weaving};
use std::fmt::Write;

/// The turned expression of a text that refusals 1 to 6 let pass.
pub fn turned(text: &[u8]) -> Result<Node, Refusal> {
    let mut node = positive(&reading::read(text)?);
    turning::turn(&mut node);
    Ok(node)
}

/// The table of a text that refusals 1 to 7 let pass.
pub fn table_of(text: &[u8]) -> Result<Vec<u8>, Refusal> {
    let gates = weaving::gates(&turned(text)?);
    let labels = weaving::labels(&gates);
    if labels.count > layout::MOST_LABELS {
        return Err(Refusal::new(7, 0));
    }
    Ok(layout::write(&gates, &labels))
}

/// The table again, if a lent buffer with room for so many bytes holds it.
pub fn within(room: usize, table: Vec<u8>) -> Result<Vec<u8>, Refusal> {
    if room < table.len() {
        return Err(Refusal::new(8, table.len()));
    }
    Ok(table)
}

/// The table of a text, for a lent buffer with room for so many bytes.
pub fn compile(text: &[u8], room: usize) -> Result<Vec<u8>, Refusal> {
    within(room, table_of(text)?)
}

/// The room that holds every table.
pub fn ample_room() -> usize {
    layout::length(text::MOST_LITERALS)
}

/// What the listing program writes for a text.
pub fn listing(text: &[u8]) -> String {
    compile(text, ample_room())
        .and_then(|table| lines(&table))
        .unwrap_or_else(|refusal| format!("{refusal}\n"))
}

fn lines(table: &[u8]) -> Result<String, Refusal> {
    let header = check::whole(table)?;
    let mut out = format!("gates {} labels {}\n", header.gates, header.labels);
    for gate in 0..header.gates {
        let record = check::record(table, header, gate)?;
        let sense = match record.sense {
            Sense::Plain => '+',
            Sense::Complemented => '-',
        };
        let (own, yes, no) = (record.own, record.true_label, record.false_label);
        writeln!(out, "{gate} {} {sense} {own} {yes} {no}", record.primitive).unwrap();
    }
    let end = check::end(table, header)?;
    writeln!(out, "true {} false {}", end.true_label, end.false_label).unwrap();
    Ok(out)
}
