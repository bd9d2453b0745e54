//! The stored corpus: texts with their expected answers, as bytes that a small program can
//! read from its standard input. Two-byte numbers have their low byte first. A record is
//!
//!   length of the text, room, length of the answer (two bytes each), text, answer
//!
//! and the last record ends the input. The answer is a table's bytes, or `R` (82), the
//! refusal's number and, in two bytes, its place. A table starts with `H`, never with `R`.

use crate::compiling::{ample_room, compile};
use crate::random::Random;
use crate::text::{MOST_BYTES, MOST_LITERALS};
use std::convert::TryFrom;

/// A text and the room lent for its table.
type Case = (Vec<u8>, usize);

/// The stored corpus of this seed.
pub fn bytes(seed: u64) -> Vec<u8> {
    let mut random = Random::new(seed);
    let mut cases = examples();
    cases.extend(chains());
    cases.extend(expressions(&mut random));
    cases.extend(faulty(&mut random));
    cases
        .iter()
        .flat_map(|(text, room)| record(text, *room))
        .collect()
}

fn record(text: &[u8], room: usize) -> Vec<u8> {
    let answer = match compile(text, room) {
        Ok(table) => table,
        Err(refusal) => [&[b'R', refusal.number], &two_bytes(refusal.at as usize)[..]].concat(),
    };
    let mut record = Vec::new();
    for number in [text.len(), room, answer.len()] {
        record.extend(two_bytes(number));
    }
    record.extend(text);
    record.extend(answer);
    record
}

fn two_bytes(number: usize) -> [u8; 2] {
    let number = u16::try_from(number).expect("the number fits in two bytes");
    number.to_le_bytes()
}

/// The scope's examples, and texts on both sides of its limits.
pub fn examples() -> Vec<Case> {
    let listed = [
        "5",
        "1-2",
        "!(1+2)",
        "!!5",
        "1*2+3*4",
        "1+2*3",
        "1+2*3\n",
        "1+2-3",
        "1-2*3",
        "1*2-3",
        "1-2-3",
        "1-2+3",
        "1-(2-3)",
        "",
        "1+",
        "1-",
        "1 2",
        "()",
        "1024 &",
        "1024",
        "1023",
        "00001",
        "(1*2+3*4)*5+(6*7+8*9)*10",
        "(1+2)*((3+4)*5)+(6*7+(8+9)*(10+11*12))",
        "1*2",
        "5*5",
    ];
    let nested = |count: usize| format!("{}1{}", "(".repeat(count), ")".repeat(count));
    let sum = |count: usize| vec!["7"; count].join("+");
    let complements = |count: usize| "!".repeat(count) + "5";
    let mut texts: Vec<String> = listed.iter().map(ToString::to_string).collect();
    texts.extend([64, 65].map(nested));
    texts.extend([MOST_LITERALS, MOST_LITERALS + 1].map(sum));
    texts.extend([MOST_BYTES - 1, MOST_BYTES].map(complements));
    let ample = texts
        .into_iter()
        .map(|text| (text.into_bytes(), ample_room()));
    let rooms = [12, 13, 14].map(|room| (b"5".to_vec(), room));
    ample.chain(rooms).collect()
}

/// Chains with the signs `+`, `-` and `*` in all mixtures, bare or with parentheses and
/// complements, one of the most literals, and some with a `-` at fault. A reader that binds
/// or groups otherwise reads many of them otherwise.
pub fn chains() -> Vec<Case> {
    let mixed = [
        "1?2?3",
        "1?2?3?4",
        "1?2?3?4?5",
        "(1?2)?3",
        "1?(2?3)",
        "(1?2)?3?4",
        "1?(2?3)?4",
        "1?2?(3?4)",
        "(1?2?3)?4",
        "1?(2?3?4)",
        "1?(2?3)?(4?5)",
        "!1?2?3",
        "1?!2?3",
        "1?2?!3",
        "!(1?2)?3",
        "1?!(2?3)",
        "!(1?2?3)",
    ];
    let others = ["1 -2\n* 3 - 4\n", "-1", "1--2", "1+-2", "1*2-*3", "(1-)"];
    let mut texts: Vec<String> = mixed.iter().flat_map(|text| with_all_signs(text)).collect();
    texts.extend(others.iter().map(ToString::to_string));
    texts.push("1".to_string() + &"+2-3*4".repeat(MOST_LITERALS / 3));
    let texts = texts.into_iter();
    texts
        .map(|text| (text.into_bytes(), ample_room()))
        .collect()
}

/// The text with each of `+`, `-` and `*` at every `?`.
fn with_all_signs(text: &str) -> Vec<String> {
    let mut texts = vec![text.to_string()];
    while texts[0].contains('?') {
        let signs = |text: String| ["+", "-", "*"].map(|sign| text.replacen('?', sign, 1));
        texts = texts.into_iter().flat_map(signs).collect();
    }
    texts
}

/// Expressions of every number of literals up to 48, and of some more up to the most.
fn expressions(random: &mut Random) -> Vec<Case> {
    let mut sizes: Vec<usize> = (1..=48).flat_map(|size| [size; 40]).collect();
    sizes.extend((0..60).map(|_| random.between(49, 300)));
    sizes.extend((0..24).map(|_| random.between(301, MOST_LITERALS)));
    sizes.extend([MOST_LITERALS - 1, MOST_LITERALS, MOST_LITERALS]);
    sizes
        .into_iter()
        .map(|size| {
            let room = random.pick(&[ample_room(), ample_room(), 6 * size + 7, 6 * size + 6]);
            (random.expression(size), room)
        })
        .collect()
}

/// Damaged texts and random bytes, and some of too many literals, as a rule refused.
fn faulty(random: &mut Random) -> Vec<Case> {
    let mut texts: Vec<Vec<u8>> = (0..1_600).map(|_| random.damaged_text()).collect();
    texts.extend((0..800).map(|_| random.any_bytes()));
    texts.extend((0..3).map(|extra| random.expression(MOST_LITERALS + 1 + extra)));
    texts.into_iter().map(|text| (text, ample_room())).collect()
}
