//! A difference between two programs, and the shortest input found that shows it.

use std::fmt::Write;

/// Deletes pieces of the input, large ones first, as long as what is left still differs.
pub fn shortest(mut input: Vec<u8>, differs: impl Fn(&[u8]) -> bool) -> Vec<u8> {
    let mut piece = input.len();
    while piece > 0 {
        let before = input.len();
        input = without_pieces(input, piece, &differs);
        if piece > 1 || input.len() == before {
            piece /= 2;
        }
    }
    input
}

/// Goes once over the input, leaving out each piece of this length that can be spared.
fn without_pieces(mut input: Vec<u8>, piece: usize, differs: impl Fn(&[u8]) -> bool) -> Vec<u8> {
    let mut at = 0;
    while at < input.len() {
        let end = input.len().min(at + piece);
        let shorter = [&input[..at], &input[end..]].concat();
        if differs(&shorter) {
            input = shorter;
        } else {
            at += piece;
        }
    }
    input
}

/// Bytes in decimal, and as a text where each of them prints.
pub fn shown(bytes: &[u8]) -> String {
    let printed = bytes.iter().all(|byte| matches!(byte, b' '..=b'~' | b'\n'));
    let mut out = format!("{} bytes", bytes.len());
    if printed {
        write!(out, " {:?}", String::from_utf8_lossy(bytes)).unwrap();
    }
    write!(out, " {bytes:?}").unwrap();
    out
}
