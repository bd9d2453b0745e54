//! Comparing compilers: answers and every byte of the lent buffer, on texts of all sorts,
//! with room just too small, exact, just too large and otherwise.

use crate::difference::{shortest, shown};
use crate::program::{expected, Program};
use second::compiling::{ample_room, table_of};
use second::random::Random;
use second::{stored, Refusal};

/// Bytes before and after the lent buffer, which no compiler may touch.
const FENCE: usize = 64;

/// What was compared.
#[derive(Clone, Copy, Debug, Default)]
pub struct Count {
    pub texts: usize,
    pub accepted: usize,
    pub compiles: usize,
}

/// Compares the other program with the second on the scope's examples, on the chains of mixed
/// signs, on all texts of at most four bytes, and on so many random texts; answers the first
/// difference.
pub fn compare(other: &impl Program, seed: u64, count: usize) -> Result<Count, String> {
    let mut done = Count::default();
    for (text, _) in stored::examples().into_iter().chain(stored::chains()) {
        try_text(other, &text, &mut done)?;
    }
    for text in short_texts() {
        try_text(other, &text, &mut done)?;
    }
    for number in 0..count as u64 {
        let text = Random::new(seed.wrapping_add(number)).text();
        try_text(other, &text, &mut done)?;
    }
    Ok(done)
}

/// All texts of at most four bytes over eleven bytes, one of them not allowed.
fn short_texts() -> impl Iterator<Item = Vec<u8>> {
    const BYTES: &[u8] = b"17+*-!() \n&";
    (0..=4u32).flat_map(|length| {
        (0..BYTES.len().pow(length)).map(move |number| {
            let digit = |place| BYTES[number / BYTES.len().pow(place) % BYTES.len()];
            (0..length).map(digit).collect()
        })
    })
}

fn try_text(other: &impl Program, text: &[u8], done: &mut Count) -> Result<(), String> {
    let table = table_of(text);
    let rooms = rooms(text.len(), &table);
    done.texts += 1;
    done.accepted += usize::from(table.is_ok());
    done.compiles += rooms.len();
    let faulty = |room: usize| fault(other, text, &table, room).is_some();
    if rooms.into_iter().any(faulty) {
        return Err(report(other, text));
    }
    Ok(())
}

type Table = Result<Vec<u8>, Refusal>;

/// Rooms one too small, exact, one too large and another; any two where nothing fits.
fn rooms(text_length: usize, table: &Table) -> Vec<usize> {
    match table.as_ref().map(Vec::len) {
        Ok(length) => vec![length - 1, length, length + 1, text_length % length],
        Err(_) => vec![0, text_length % ample_room()],
    }
}

/// What is wrong with the other program's answer or with the bytes it has left, if any.
fn fault(other: &impl Program, text: &[u8], table: &Table, room: usize) -> Option<String> {
    let (answer, written) = expected(table, room);
    let mut bytes = vec![filling(text.len() + room); room + 2 * FENCE];
    let mut right = bytes.clone();
    right[FENCE..FENCE + written.len()].copy_from_slice(&written);
    let handed = text.to_vec();
    let given = other.compile(&handed, &mut bytes[FENCE..FENCE + room]);
    if given != answer {
        return Some(format!("it answered {given:?}, the second {answer:?}"));
    }
    if bytes != right {
        let at = (0..bytes.len()).find(|&at| bytes[at] != right[at])?;
        let (byte, second) = (bytes[at], right[at]);
        let at = at as isize - FENCE as isize;
        return Some(format!("byte {at} of the buffer is {byte}, not {second}"));
    }
    (handed != text).then(|| "it has written to the text".to_string())
}

/// The byte that stands in a buffer beforehand: another one from case to case.
fn filling(number: usize) -> u8 {
    (number.wrapping_mul(167) >> 3) as u8
}

fn first_fault(other: &impl Program, text: &[u8]) -> Option<(usize, String)> {
    let table = table_of(text);
    let mut rooms = rooms(text.len(), &table);
    rooms.push(ample_room());
    rooms
        .into_iter()
        .find_map(|room| fault(other, text, &table, room).map(|fault| (room, fault)))
}

fn report(other: &impl Program, text: &[u8]) -> String {
    let text = shortest(text.to_vec(), |shorter| {
        first_fault(other, shorter).is_some()
    });
    let (room, fault) = first_fault(other, &text).expect("the text found differs");
    format!("text of {}, room {room}: {fault}", shown(&text))
}
