//! The proved library, called as its header (include/blist.h) says.

use crate::program::{Answered, Compiled, Counts, EndLabels, Fed, Moved, Program, Recorded};

#[link(name = "blist", kind = "static")]
extern "C" {
    fn blist_compile(
        text: *const u8,
        text_length: usize,
        out: *mut u8,
        out_length: usize,
    ) -> Compiled;
    fn blist_start(table: *const u8, table_length: usize) -> Moved;
    fn blist_feed(
        gate: usize,
        label: u8,
        table: *const u8,
        table_length: usize,
        truth: u8,
    ) -> Moved;
    fn blist_answer(gate: usize, label: u8, table: *const u8, table_length: usize) -> Answered;
    fn blist_header(table: *const u8, table_length: usize) -> Counts;
    fn blist_gate(table: *const u8, table_length: usize, gate: usize) -> Recorded;
    fn blist_ends(table: *const u8, table_length: usize) -> EndLabels;
}

/// The library. Slices of length nought are handed over as null pointers, as allowed.
pub struct Library;

fn lent(bytes: &[u8]) -> *const u8 {
    match bytes {
        [] => std::ptr::null(),
        _ => bytes.as_ptr(),
    }
}

fn lent_to_write(bytes: &mut [u8]) -> *mut u8 {
    match bytes {
        [] => std::ptr::null_mut(),
        _ => bytes.as_mut_ptr(),
    }
}

impl Program for Library {
    fn compile(&self, text: &[u8], out: &mut [u8]) -> Compiled {
        // Safety: each pointer goes with its own slice's length, and the slices do not overlap.
        unsafe { blist_compile(lent(text), text.len(), lent_to_write(out), out.len()) }
    }

    fn start(&self, table: &[u8]) -> Moved {
        // Safety: the pointer goes with its slice's length.
        unsafe { blist_start(lent(table), table.len()) }
    }

    fn feed(&self, fed: Fed, table: &[u8]) -> Moved {
        // Safety: as for `start`.
        unsafe { blist_feed(fed.gate, fed.label, lent(table), table.len(), fed.truth) }
    }

    fn answer(&self, fed: Fed, table: &[u8]) -> Answered {
        // Safety: as for `start`.
        unsafe { blist_answer(fed.gate, fed.label, lent(table), table.len()) }
    }

    fn header(&self, table: &[u8]) -> Counts {
        // Safety: as for `start`.
        unsafe { blist_header(lent(table), table.len()) }
    }

    fn gate(&self, table: &[u8], gate: usize) -> Recorded {
        // Safety: as for `start`.
        unsafe { blist_gate(lent(table), table.len(), gate) }
    }

    fn ends(&self, table: &[u8]) -> EndLabels {
        // Safety: as for `start`.
        unsafe { blist_ends(lent(table), table.len()) }
    }
}
