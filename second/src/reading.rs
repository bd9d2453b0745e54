//! The reading of a text that refusals 1 to 6 let pass as a typed expression: a sum is products
//! joined by `+` or `-`, a product factors joined by `*`, both grouped from the left.

use crate::refusal::Refusal;
use crate::text::{self, value};
use crate::typed::{Sign, Typed};

/// The typed expression, or the first of refusals 1 to 6 that holds.
pub fn read(text: &[u8]) -> Result<Typed, Refusal> {
    text::test(text)?;
    Ok(parse(text))
}

fn parse(text: &[u8]) -> Typed {
    let mut reader = Reader {
        text,
        at: 0,
        occurrences: 0,
    };
    let sum = reader.sum();
    assert_eq!(reader.next(), None, "a sum is followed by nothing");
    sum
}

struct Reader<'a> {
    text: &'a [u8],
    at: usize,
    occurrences: usize,
}

impl Reader<'_> {
    /// The next byte that is neither space nor newline; the reader then stands on it.
    fn next(&mut self) -> Option<u8> {
        while matches!(self.text.get(self.at), Some(b' ' | b'\n')) {
            self.at += 1;
        }
        self.text.get(self.at).copied()
    }

    fn sum(&mut self) -> Typed {
        self.joined(Reader::product, |byte| match byte {
            b'+' => Some(Sign::Union),
            b'-' => Some(Sign::Difference),
            _ => None,
        })
    }

    fn product(&mut self) -> Typed {
        self.joined(Reader::factor, |byte| {
            (byte == b'*').then_some(Sign::Intersection)
        })
    }

    /// One or more parts joined by signs of one level, grouped from the left.
    fn joined(&mut self, part: fn(&mut Self) -> Typed, sign: fn(u8) -> Option<Sign>) -> Typed {
        let mut left = part(self);
        while let Some(sign) = self.next().and_then(sign) {
            self.at += 1;
            let right = Box::new(part(self));
            left = Typed::Joined {
                sign,
                left: Box::new(left),
                right,
            };
        }
        left
    }

    fn factor(&mut self) -> Typed {
        let mut times = 0;
        while self.next() == Some(b'!') {
            self.at += 1;
            times += 1;
        }
        let of = match self.next() {
            Some(b'(') => self.parenthesis(),
            _ => self.number(),
        };
        match times {
            0 => of,
            _ => Typed::Complement {
                times,
                of: Box::new(of),
            },
        }
    }

    fn parenthesis(&mut self) -> Typed {
        self.at += 1;
        let sum = self.sum();
        assert_eq!(self.next(), Some(b')'), "a parenthesis is closed");
        self.at += 1;
        sum
    }

    fn number(&mut self) -> Typed {
        let rest = &self.text[self.at..];
        let length = rest.iter().take_while(|byte| byte.is_ascii_digit()).count();
        assert!(length > 0, "a factor is due");
        let occurrence = self.occurrences;
        self.at += length;
        self.occurrences += 1;
        Typed::Number {
            primitive: value(&rest[..length]),
            occurrence,
        }
    }
}

#[cfg(test)]
mod tests {
    use super::*;

    type Part = fn(&[u8]) -> Option<String>;

    /// The grammar read off the scope by trying every split; every operation is written in
    /// parentheses. That no text has two readings is seen on the way.
    fn sum(text: &[u8]) -> Option<String> {
        product(text).or_else(|| split(text, b"+-", sum, product))
    }

    fn product(text: &[u8]) -> Option<String> {
        factor(text).or_else(|| split(text, b"*", product, factor))
    }

    fn factor(text: &[u8]) -> Option<String> {
        match text {
            [b'!', rest @ ..] => factor(rest).map(|of| format!("!{of}")),
            [b'(', inner @ .., b')'] => sum(inner),
            _ if text.is_empty() || !text.iter().all(u8::is_ascii_digit) => None,
            _ => Some(String::from_utf8_lossy(text).into_owned()),
        }
    }

    fn split(text: &[u8], signs: &[u8], left: Part, right: Part) -> Option<String> {
        let at = (0..text.len()).filter(|&at| signs.contains(&text[at]));
        let mut readings = at.filter_map(|at| {
            let (left, right) = (left(&text[..at])?, right(&text[at + 1..])?);
            Some(format!("({left}{}{right})", char::from(text[at])))
        });
        let reading = readings.next();
        assert_eq!(readings.next(), None, "a text has one reading");
        reading
    }

    /// A typed expression, every operation in parentheses.
    fn written(typed: &Typed) -> String {
        match typed {
            Typed::Number { primitive, .. } => primitive.to_string(),
            Typed::Complement { times, of } => "!".repeat(*times) + &written(of),
            Typed::Joined { sign, left, right } => {
                let sign = match sign {
                    Sign::Union => '+',
                    Sign::Intersection => '*',
                    Sign::Difference => '-',
                };
                format!("({}{sign}{})", written(left), written(right))
            }
        }
    }

    #[test]
    fn readings_by_trying_every_split() {
        const BYTES: &[u8] = b"1+*-!()";
        for length in 0..=7u32 {
            for number in 0..BYTES.len().pow(length) {
                let byte = |place| BYTES[number / BYTES.len().pow(place) % BYTES.len()];
                let text: Vec<u8> = (0..length).map(byte).collect();
                if let Ok(typed) = read(&text) {
                    let text = String::from_utf8_lossy(&text).into_owned();
                    assert_eq!(Some(written(&typed)), sum(text.as_bytes()), "{text}");
                }
            }
        }
    }
}
