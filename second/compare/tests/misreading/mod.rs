//! A reader with a slip: other signs at a level than the scope's, or a level grouped from the
//! right. Without a slip it reads as the second program does.

use second::positive::positive;
use second::text;
use second::typed::{Sign, Typed};
use second::{layout, turning, weaving, Refusal};

/// How sums, at level 0, and products, at level 1, are read.
#[derive(Clone, Copy, PartialEq)]
pub struct Reading {
    signs: [&'static [u8]; 2],
    from_the_right: [bool; 2],
}

pub const RIGHT: Reading = Reading {
    signs: [b"+-", b"*"],
    from_the_right: [false, false],
};

pub const MINUS_WITH_TIMES: Reading = Reading {
    signs: [b"+", b"*-"],
    ..RIGHT
};

pub const ONE_LEVEL: Reading = Reading {
    signs: [b"+-*", b""],
    ..RIGHT
};

pub const SUMS_FROM_THE_RIGHT: Reading = Reading {
    from_the_right: [true, false],
    ..RIGHT
};

pub const PRODUCTS_FROM_THE_RIGHT: Reading = Reading {
    from_the_right: [false, true],
    ..RIGHT
};

impl Reading {
    /// The table of a text by this reading; refused as the scope says.
    pub fn table(self, text: &[u8]) -> Result<Vec<u8>, Refusal> {
        text::test(text)?;
        let mut reader = Reader {
            reading: self,
            rest: text.iter().rev().copied().filter(is_no_blank).collect(),
            occurrences: 0,
        };
        let mut node = positive(&reader.level(0));
        turning::turn(&mut node);
        let gates = weaving::gates(&node);
        Ok(layout::write(&gates, &weaving::labels(&gates)))
    }
}

fn is_no_blank(byte: &u8) -> bool {
    !b" \n".contains(byte)
}

/// What is left of the text, without blanks, its next byte last.
struct Reader {
    reading: Reading,
    rest: Vec<u8>,
    occurrences: usize,
}

impl Reader {
    fn next_of(&mut self, bytes: &[u8]) -> Option<u8> {
        let next = *self.rest.last()?;
        bytes.contains(&next).then(|| self.rest.pop())?
    }

    fn level(&mut self, level: usize) -> Typed {
        if level == self.reading.signs.len() {
            return self.factor();
        }
        let first = self.level(level + 1);
        let mut others = Vec::new();
        while let Some(byte) = self.next_of(self.reading.signs[level]) {
            others.push((byte, self.level(level + 1)));
        }
        if !self.reading.from_the_right[level] {
            let others = others.into_iter();
            return others.fold(first, |left, (sign, right)| joined(left, sign, right));
        }
        let others = others.into_iter().rev();
        let last =
            others.reduce(|(sign, right), (before, left)| (before, joined(left, sign, right)));
        match last {
            None => first,
            Some((sign, right)) => joined(first, sign, right),
        }
    }

    fn factor(&mut self) -> Typed {
        if self.next_of(b"!").is_some() {
            let mut times = 1;
            while self.next_of(b"!").is_some() {
                times += 1;
            }
            let of = Box::new(self.factor());
            return Typed::Complement { times, of };
        }
        if self.next_of(b"(").is_some() {
            let sum = self.level(0);
            assert_eq!(self.rest.pop(), Some(b')'), "a parenthesis is closed");
            return sum;
        }
        let mut digits = Vec::new();
        while let Some(digit) = self.next_of(b"0123456789") {
            digits.push(digit);
        }
        self.occurrences += 1;
        Typed::Number {
            primitive: text::value(&digits),
            occurrence: self.occurrences - 1,
        }
    }
}

fn joined(left: Typed, sign: u8, right: Typed) -> Typed {
    let sign = match sign {
        b'+' => Sign::Union,
        b'*' => Sign::Intersection,
        _ => Sign::Difference,
    };
    let (left, right) = (Box::new(left), Box::new(right));
    Typed::Joined { sign, left, right }
}
