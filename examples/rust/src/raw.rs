//! What the library returns and its functions, as `include/blist.h` has them; the layout of each struct is asserted below.

#[repr(C)]
pub struct Table {
    pub refusal: u8,
    pub at: usize,
    pub length: usize,
}

#[repr(C)]
pub struct Run {
    pub refusal: u8,
    pub at: usize,
    pub gate: usize,
    pub label: u8,
}

#[repr(C)]
pub struct Truth {
    pub refusal: u8,
    pub at: usize,
    pub truth: u8,
}

#[repr(C)]
pub struct Counts {
    pub refusal: u8,
    pub at: usize,
    pub gates: usize,
    pub labels: u8,
    pub first_label: u8,
}

#[repr(C)]
pub struct Record {
    pub refusal: u8,
    pub at: usize,
    pub primitive: u16,
    pub complemented: u8,
    pub own: u8,
    pub on_true: u8,
    pub on_false: u8,
}

#[repr(C)]
pub struct EndLabels {
    pub refusal: u8,
    pub at: usize,
    pub on_true: u8,
    pub on_false: u8,
}

extern "C" {
    pub fn blist_compile(text: *const u8, length: usize, out: *mut u8, room: usize) -> Table;
    pub fn blist_start(table: *const u8, length: usize) -> Run;
    pub fn blist_feed(gate: usize, label: u8, table: *const u8, length: usize, truth: u8) -> Run;
    pub fn blist_answer(gate: usize, label: u8, table: *const u8, length: usize) -> Truth;
    pub fn blist_header(table: *const u8, length: usize) -> Counts;
    pub fn blist_gate(table: *const u8, length: usize, gate: usize) -> Record;
    pub fn blist_ends(table: *const u8, length: usize) -> EndLabels;
    pub fn blist_version() -> u32;
}

// Sizes and places of the fields, when this is compiled: a struct is read from bytes that hold their own places, so each field
// shows where it stands. A struct of another size is refused by the compiler.
const fn places<const N: usize>() -> [u8; N] {
    let mut bytes = [0; N];
    let mut at = 0;
    while at < N {
        bytes[at] = at as u8;
        at += 1;
    }
    bytes
}

const fn word(at: usize) -> usize {
    0x0706_0504_0302_0100 + at * 0x0101_0101_0101_0101
}

const _: () = {
    use std::mem::transmute;
    // SAFETY: every row of bytes is a value of these structs, which hold numbers alone.
    let table: Table = unsafe { transmute(places::<24>()) };
    assert!(table.refusal == 0 && table.at == word(8) && table.length == word(16));
    let run: Run = unsafe { transmute(places::<32>()) };
    assert!(run.refusal == 0 && run.at == word(8) && run.gate == word(16) && run.label == 24);
    let truth: Truth = unsafe { transmute(places::<24>()) };
    assert!(truth.refusal == 0 && truth.at == word(8) && truth.truth == 16);
    let counts: Counts = unsafe { transmute(places::<32>()) };
    assert!(counts.refusal == 0 && counts.at == word(8) && counts.gates == word(16));
    assert!(counts.labels == 24 && counts.first_label == 25);
    let record: Record = unsafe { transmute(places::<24>()) };
    assert!(record.refusal == 0 && record.at == word(8) && record.primitive == 0x1110);
    assert!(record.complemented == 18 && record.own == 19);
    assert!(record.on_true == 20 && record.on_false == 21);
    let ends: EndLabels = unsafe { transmute(places::<24>()) };
    assert!(ends.refusal == 0 && ends.at == word(8) && ends.on_true == 16 && ends.on_false == 17);
};
