//! A safe wrapper over the library's C functions: slices in, `Result` out. `include/blist.h` is the manual.
//!
//! The borrow rules give what the manual asks of a caller: pointer and length belong together, and the text
//! and the lent buffer do not overlap.

mod raw;
mod refusal;

pub use refusal::Refusal;

/// The most literals that a text may have.
pub const MOST_LITERALS: usize = 1024;

/// The bytes of a table of so many literals.
pub const fn table_bytes(literals: usize) -> usize {
    6 * literals + 7
}

/// The room that holds every table.
pub const ROOM: usize = table_bytes(MOST_LITERALS);

/// The version of the library: 10,000 times its major number, 100 times its minor number, and its patch number.
pub fn version() -> u32 {
    // SAFETY: the function takes nothing.
    unsafe { raw::blist_version() }
}

/// Compiles a text to a table at the start of the lent buffer. A refused compile has written nothing.
///
/// Its stack is measured, not proved: 1,024 literals in one chain, the worst that was found, take 102,527 bytes. Give a thread that
/// compiles 128 KB over what it needs itself. (A thread of Rust's has 2 MB unless it is told otherwise.) All else takes under 1 KB.
pub fn compile<'a>(text: &[u8], out: &'a mut [u8]) -> Result<&'a [u8], Refusal> {
    // SAFETY: both pointers come from slices with these lengths, which do not overlap.
    let made =
        unsafe { raw::blist_compile(text.as_ptr(), text.len(), out.as_mut_ptr(), out.len()) };
    or_refusal(made.refusal, made.at)?;
    Ok(&out[..made.length])
}

/// What a table says of itself as a whole. Three bits hold a label where there are at most 8: always up to 381 literals.
#[derive(Clone, Copy, Debug, PartialEq, Eq)]
pub struct Header {
    pub gates: usize,
    pub labels: u8,
    pub first_label: u8,
}

/// What the record of a gate says: a run on the label `own` is moved to `on_true` or `on_false`.
#[derive(Clone, Copy, Debug, PartialEq, Eq)]
pub struct Gate {
    pub primitive: usize,
    pub complemented: bool,
    pub own: u8,
    pub on_true: u8,
    pub on_false: u8,
}

/// The labels on which a run ends.
#[derive(Clone, Copy, Debug, PartialEq, Eq)]
pub struct Ends {
    pub on_true: u8,
    pub on_false: u8,
}

/// The number of gates, the label count and the first label. Header and length of the table are checked.
pub fn header(table: &[u8]) -> Result<Header, Refusal> {
    // SAFETY: the pointer comes from a slice with this length.
    let said = unsafe { raw::blist_header(table.as_ptr(), table.len()) };
    or_refusal(said.refusal, said.at)?;
    Ok(Header {
        gates: said.gates,
        labels: said.labels,
        first_label: said.first_label,
    })
}

/// What a gate's record says. Header, length and that record are checked.
pub fn gate(table: &[u8], gate: usize) -> Result<Gate, Refusal> {
    // SAFETY: the pointer comes from a slice with this length.
    let said = unsafe { raw::blist_gate(table.as_ptr(), table.len(), gate) };
    or_refusal(said.refusal, said.at)?;
    Ok(Gate {
        primitive: said.primitive as usize,
        complemented: said.complemented != 0,
        own: said.own,
        on_true: said.on_true,
        on_false: said.on_false,
    })
}

/// True's label and False's. Header, length and the last record are checked.
pub fn ends(table: &[u8]) -> Result<Ends, Refusal> {
    // SAFETY: the pointer comes from a slice with this length.
    let said = unsafe { raw::blist_ends(table.as_ptr(), table.len()) };
    or_refusal(said.refusal, said.at)?;
    Ok(Ends {
        on_true: said.on_true,
        on_false: said.on_false,
    })
}

/// How many gates a table has, if it is one.
pub fn gates(table: &[u8]) -> Option<usize> {
    header(table).ok().map(|header| header.gates)
}

/// The primitive whose truth a gate asks for, if the table has such a gate.
pub fn primitive(table: &[u8], at: usize) -> Option<usize> {
    gate(table, at).ok().map(|gate| gate.primitive)
}

/// A run over a table: the gate that the next truth is for, and a label. It is a value, to be copied and kept.
#[derive(Clone, Copy, Debug, PartialEq, Eq)]
pub struct Run {
    pub gate: usize,
    pub label: u8,
}

impl Run {
    /// Starts a run over a table that may have come from anywhere: the whole table is checked.
    pub fn start(table: &[u8]) -> Result<Run, Refusal> {
        // SAFETY: the pointer comes from a slice with this length.
        Run::taken(unsafe { raw::blist_start(table.as_ptr(), table.len()) })
    }

    /// The run after one more gate, which takes the truth of its primitive.
    pub fn feed(self, table: &[u8], truth: bool) -> Result<Run, Refusal> {
        // SAFETY: the pointer comes from a slice with this length.
        Run::taken(unsafe {
            raw::blist_feed(
                self.gate,
                self.label,
                table.as_ptr(),
                table.len(),
                truth as u8,
            )
        })
    }

    /// The truth of the expression, once every gate is passed.
    pub fn answer(self, table: &[u8]) -> Result<bool, Refusal> {
        // SAFETY: the pointer comes from a slice with this length.
        let end = unsafe { raw::blist_answer(self.gate, self.label, table.as_ptr(), table.len()) };
        or_refusal(end.refusal, end.at)?;
        Ok(end.truth != 0)
    }

    fn taken(run: raw::Run) -> Result<Run, Refusal> {
        or_refusal(run.refusal, run.at)?;
        Ok(Run {
            gate: run.gate,
            label: run.label,
        })
    }
}

fn or_refusal(number: u8, at: usize) -> Result<(), Refusal> {
    match number {
        0 => Ok(()),
        _ => Err(Refusal { number, at }),
    }
}
