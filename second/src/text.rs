//! The text: its limits, and refusals 1 to 6 with their places, each tested over the whole
//! text before the next.

use crate::refusal::Refusal;
use std::ops::Range;

pub const MOST_BYTES: usize = 16_384;
pub const MOST_DIGITS: usize = 4;
pub const MOST_PRIMITIVE: u16 = 1_023;
pub const MOST_OPEN: i64 = 64;
pub const MOST_LITERALS: usize = 1_024;

/// A test answers the place of the fault it looks for, if the text has it.
type Test = fn(&[u8]) -> Option<usize>;

const TESTS: [(u8, Test); 6] = [
    (1, too_long),
    (2, byte_not_allowed),
    (3, number_too_large),
    (4, too_many_open),
    (5, not_a_sum),
    (6, too_many_literals),
];

/// The first of refusals 1 to 6 that holds, if any does.
pub fn test(text: &[u8]) -> Result<(), Refusal> {
    for (number, test) in TESTS {
        if let Some(at) = test(text) {
            return Err(Refusal::new(number, at));
        }
    }
    Ok(())
}

fn too_long(text: &[u8]) -> Option<usize> {
    (text.len() > MOST_BYTES).then_some(MOST_BYTES)
}

fn byte_not_allowed(text: &[u8]) -> Option<usize> {
    text.iter()
        .position(|byte| !b"0123456789+*-!() \n".contains(byte))
}

fn number_too_large(text: &[u8]) -> Option<usize> {
    digit_runs(text)
        .into_iter()
        .find(|run| run.len() > MOST_DIGITS || value(&text[run.clone()]) > MOST_PRIMITIVE)
        .map(|run| run.start)
}

fn too_many_open(text: &[u8]) -> Option<usize> {
    let mut open = 0i64;
    text.iter().position(|byte| {
        open += match byte {
            b'(' => 1,
            b')' => -1,
            _ => 0,
        };
        open > MOST_OPEN
    })
}

fn too_many_literals(text: &[u8]) -> Option<usize> {
    digit_runs(text).get(MOST_LITERALS).map(|run| run.start)
}

/// The whole runs of digits, from left to right.
fn digit_runs(text: &[u8]) -> Vec<Range<usize>> {
    let mut runs: Vec<Range<usize>> = Vec::new();
    for at in (0..text.len()).filter(|&at| text[at].is_ascii_digit()) {
        match runs.last_mut() {
            Some(run) if run.end == at => run.end += 1,
            _ => runs.push(at..at + 1),
        }
    }
    runs
}

/// The value of a run of at most four digits.
pub fn value(digits: &[u8]) -> u16 {
    digits
        .iter()
        .fold(0, |sum, digit| sum * 10 + u16::from(digit - b'0'))
}

/// Refusal 5's place: the length of the longest beginning that some ending would complete.
fn not_a_sum(text: &[u8]) -> Option<usize> {
    let mut beginning = Beginning {
        stand: Stand::BeforeFactor,
        open: 0,
    };
    for (at, &byte) in text.iter().enumerate() {
        match beginning.followed_by(byte) {
            Some(longer) => beginning = longer,
            None => return Some(at),
        }
    }
    (!beginning.is_sum()).then_some(text.len())
}

#[derive(Clone, Copy, PartialEq)]
enum Stand {
    BeforeFactor,
    InNumber,
    AfterFactor,
}

/// All that matters of a beginning which some ending would complete: a factor if one is
/// due, then one `)` for each parenthesis still open, is such an ending.
#[derive(Clone, Copy)]
struct Beginning {
    stand: Stand,
    open: usize,
}

impl Beginning {
    /// The beginning one byte longer, or nothing if no ending would complete it.
    fn followed_by(self, byte: u8) -> Option<Beginning> {
        use Stand::*;
        let (stand, open) = match (self.stand, byte) {
            (BeforeFactor, b' ' | b'\n' | b'!') => (BeforeFactor, self.open),
            (BeforeFactor, b'(') => (BeforeFactor, self.open + 1),
            (BeforeFactor | InNumber, b'0'..=b'9') => (InNumber, self.open),
            (InNumber | AfterFactor, b' ' | b'\n') => (AfterFactor, self.open),
            (InNumber | AfterFactor, b'+' | b'*' | b'-') => (BeforeFactor, self.open),
            (InNumber | AfterFactor, b')') => (AfterFactor, self.open.checked_sub(1)?),
            _ => return None,
        };
        Some(Beginning { stand, open })
    }

    fn is_sum(self) -> bool {
        self.stand != Stand::BeforeFactor && self.open == 0
    }
}

#[cfg(test)]
mod tests {
    use super::*;

    const BYTES: &[u8] = b"1+!() ";

    /// The grammar read off the scope by trying every split; it knows nothing of beginnings.
    fn is_sum(text: &[u8]) -> bool {
        is_product(text) || joined(text, b"+-", is_sum, is_product)
    }

    fn is_product(text: &[u8]) -> bool {
        is_factor(text) || joined(text, b"*", is_product, is_factor)
    }

    fn is_factor(text: &[u8]) -> bool {
        match text {
            [b' ' | b'\n', rest @ ..] | [rest @ .., b' ' | b'\n'] => is_factor(rest),
            [b'!', rest @ ..] => is_factor(rest),
            [b'(', inner @ .., b')'] => is_sum(inner),
            _ => !text.is_empty() && text.iter().all(u8::is_ascii_digit),
        }
    }

    type Judge = fn(&[u8]) -> bool;

    fn joined(text: &[u8], signs: &[u8], left: Judge, right: Judge) -> bool {
        (0..text.len())
            .any(|at| signs.contains(&text[at]) && left(&text[..at]) && right(&text[at + 1..]))
    }

    /// All texts over the bytes given of at most so many bytes, short ones first.
    fn texts(bytes: &[u8], most: usize) -> Vec<Vec<u8>> {
        let mut all = vec![Vec::new()];
        let mut done = 0;
        while all[done].len() < most {
            for &byte in bytes {
                let longer = [all[done].as_slice(), &[byte]].concat();
                all.push(longer);
            }
            done += 1;
        }
        all
    }

    #[test]
    fn place_of_refusal_5_by_trying_all_endings() {
        let endings = texts(BYTES, 5);
        let mut beginnings = std::collections::HashMap::new();
        for text in texts(BYTES, 4) {
            let completed = endings
                .iter()
                .any(|ending| is_sum(&[text.as_slice(), ending].concat()));
            let longest = match completed {
                true => text.len(),
                false => beginnings[&text[..text.len() - 1]],
            };
            let expected = (!is_sum(&text)).then_some(longest);
            assert_eq!(
                not_a_sum(&text),
                expected,
                "{:?}",
                String::from_utf8_lossy(&text)
            );
            beginnings.insert(text, longest);
        }
    }

    #[test]
    fn sums_by_trying_every_split() {
        for text in texts(b"12+*-!() \n", 5) {
            assert_eq!(not_a_sum(&text).is_none(), is_sum(&text), "{text:?}");
        }
    }
}
