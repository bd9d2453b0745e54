//! A small deterministic generator of texts: expressions of many shapes, damaged texts,
//! random bytes, and texts on both sides of every limit.

use crate::text::{MOST_BYTES, MOST_LITERALS, MOST_OPEN, MOST_PRIMITIVE};

/// Splitmix: equal seeds give equal texts.
pub struct Random(u64);

impl Random {
    pub fn new(seed: u64) -> Random {
        Random(seed)
    }

    pub fn word(&mut self) -> u64 {
        self.0 = self.0.wrapping_add(0x9E37_79B9_7F4A_7C15);
        let mut mixed = self.0;
        mixed = (mixed ^ (mixed >> 30)).wrapping_mul(0xBF58_476D_1CE4_E5B9);
        mixed = (mixed ^ (mixed >> 27)).wrapping_mul(0x94D0_49BB_1331_11EB);
        mixed ^ (mixed >> 31)
    }

    /// A number from 0 up to, but not including, the limit.
    pub fn below(&mut self, limit: usize) -> usize {
        (self.word() % limit as u64) as usize
    }

    /// A number from the first to the last, both included.
    pub fn between(&mut self, first: usize, last: usize) -> usize {
        first + self.below(last - first + 1)
    }

    pub fn one_in(&mut self, times: usize) -> bool {
        self.below(times) == 0
    }

    pub fn pick<T: Copy>(&mut self, from: &[T]) -> T {
        from[self.below(from.len())]
    }

    pub fn truths(&mut self, count: usize) -> Vec<bool> {
        (0..count).map(|_| self.one_in(2)).collect()
    }

    /// A text of any sort.
    pub fn text(&mut self) -> Vec<u8> {
        match self.below(8) {
            0..=3 => self.expression_of_any_size(),
            4..=5 => self.damaged_text(),
            6 => self.any_bytes(),
            _ => self.text_at_a_limit(),
        }
    }

    /// An expression of 1 to 1,024 literals, more often a small one.
    pub fn expression_of_any_size(&mut self) -> Vec<u8> {
        let most = self.pick(&[6, 12, 40, 120, MOST_LITERALS]);
        let literals = self.between(1, most);
        self.expression(literals)
    }

    /// An expression of so many literals, within every limit if that number is.
    pub fn expression(&mut self, literals: usize) -> Vec<u8> {
        let shape = self.pick(&SHAPES);
        let alternating = self.one_in(2);
        let bare = self.pick(&[10, 10, 10, 3, 1]);
        let mut writer = Writer {
            random: self,
            out: Vec::new(),
            shape,
            alternating,
            bare,
        };
        writer.part(literals, 0, 0);
        writer.out
    }

    /// An expression with some bytes lost, added, changed or repeated.
    pub fn damaged_text(&mut self) -> Vec<u8> {
        let literals = self.between(1, 12);
        let mut text = self.expression(literals);
        for _ in 0..self.between(1, 3) {
            self.damage(&mut text, b"0123456789+*-!() \n");
        }
        text
    }

    /// One small damage: bytes lost, added, changed, cut off or repeated.
    pub fn damage(&mut self, bytes: &mut Vec<u8>, alphabet: &[u8]) {
        let at = self.below(bytes.len() + 1);
        let new = if self.one_in(8) {
            self.word() as u8
        } else {
            self.pick(alphabet)
        };
        match self.below(6) {
            0 => bytes.truncate(at),
            1 => bytes.insert(at, new),
            2 => {
                let piece = bytes[at..].iter().copied().take(3).collect::<Vec<_>>();
                bytes.splice(at..at, piece);
            }
            3 if at < bytes.len() => drop(bytes.remove(at)),
            _ if at < bytes.len() => bytes[at] = new,
            _ => bytes.push(new),
        }
    }

    /// Random bytes, mostly allowed ones.
    pub fn any_bytes(&mut self) -> Vec<u8> {
        let alphabet = self.pick(&[&b"1+!() "[..], b"07+*-!() \n", b"0123456789+*-!() \n\t/:,"]);
        let wild = self.one_in(4);
        (0..self.below(24))
            .map(|_| {
                if wild {
                    self.word() as u8
                } else {
                    self.pick(alphabet)
                }
            })
            .collect()
    }

    /// A text just within or just beyond one limit, at times damaged as well.
    pub fn text_at_a_limit(&mut self) -> Vec<u8> {
        let mut text = match self.below(6) {
            0 => self.text_of_most_bytes(b' '),
            1 => self.text_of_most_bytes(b'!'),
            2 => self.number_at_the_limit(),
            3 => self.parentheses_at_the_limit(),
            4 => self.closings_first(),
            _ => {
                let literals = self.between(MOST_LITERALS - 1, MOST_LITERALS + 2);
                self.expression(literals)
            }
        };
        if self.one_in(4) {
            self.damage(&mut text, b"1+*-!()& \n");
        }
        text
    }

    fn text_of_most_bytes(&mut self, filling: u8) -> Vec<u8> {
        let literals = self.between(1, 4);
        let rest = [b"(", &self.expression(literals)[..], b")"].concat();
        let length = self.between(MOST_BYTES - 1, MOST_BYTES + 1);
        let mut text = vec![filling; length - rest.len()];
        text.extend(rest);
        text
    }

    fn number_at_the_limit(&mut self) -> Vec<u8> {
        let numbers = [
            "1023",
            "1024",
            "0000",
            "00000",
            "01023",
            "9999",
            "99999999999999999999",
        ];
        let number = self.pick(&numbers).as_bytes();
        let literals = self.between(1, 4);
        let second: &[u8] = if self.one_in(2) { b"*1024" } else { b"" };
        [&self.expression(literals)[..], b"+", number, second].concat()
    }

    fn parentheses_at_the_limit(&mut self) -> Vec<u8> {
        let inner = b"1".to_vec();
        let open = self.between(MOST_OPEN as usize - 1, MOST_OPEN as usize + 2);
        let close = if self.one_in(4) {
            self.below(open + 2)
        } else {
            open
        };
        [vec![b'('; open], inner, vec![b')'; close]].concat()
    }

    /// Closings that come too early lower the count of open parentheses.
    fn closings_first(&mut self) -> Vec<u8> {
        let closings = self.between(0, 5);
        let openings = self.between(MOST_OPEN as usize - 1, MOST_OPEN as usize + 6);
        [vec![b')'; closings], vec![b'('; openings], b"1".to_vec()].concat()
    }
}

#[derive(Clone, Copy)]
enum Shape {
    Even,
    Anywhere,
    LeftDeep,
    RightDeep,
    Zigzag,
    Clumps,
}

const SHAPES: [Shape; 6] = [
    Shape::Even,
    Shape::Anywhere,
    Shape::LeftDeep,
    Shape::RightDeep,
    Shape::Zigzag,
    Shape::Clumps,
];

/// Writes one expression of a chosen shape.
struct Writer<'a> {
    random: &'a mut Random,
    out: Vec<u8>,
    shape: Shape,
    /// Unions and intersections take turns from level to level; else they are random.
    alternating: bool,
    /// One part in so many goes without parentheses. With 1 all do, and the text is a chain in
    /// which binding and grouping alone say what is joined.
    bare: usize,
}

impl Writer<'_> {
    /// Writes so many literals, at this depth and within so many open parentheses.
    fn part(&mut self, literals: usize, depth: usize, open: i64) {
        if self.random.one_in(12) {
            self.out.push(self.random.pick(b" \n"));
        }
        let bare = depth > 0 && self.random.one_in(self.bare);
        let enclosed = literals > 1 && depth > 0 && open < MOST_OPEN && !bare;
        if (literals == 1 || enclosed) && self.random.one_in(5) {
            self.out.push(b'!');
        }
        match (literals, enclosed) {
            (1, _) => self.number(),
            (_, false) => self.joined(literals, depth, open),
            (_, true) => {
                self.out.push(b'(');
                self.joined(literals, depth, open + 1);
                self.out.push(b')');
            }
        }
    }

    fn joined(&mut self, literals: usize, depth: usize, open: i64) {
        let left = self.split(literals, depth);
        self.part(left, depth + 1, open);
        let signs: &[u8] = match (self.alternating, depth % 2) {
            (false, _) => b"+*-",
            (true, 0) => b"+",
            (true, _) => b"*-",
        };
        let sign = self.random.pick(signs);
        self.out.push(sign);
        self.part(literals - left, depth + 1, open);
    }

    /// How many of the literals go to the left child.
    fn split(&mut self, literals: usize, depth: usize) -> usize {
        match self.shape {
            Shape::Even => literals / 2,
            Shape::Anywhere => self.random.between(1, literals - 1),
            Shape::LeftDeep => literals - 1,
            Shape::RightDeep => 1,
            Shape::Zigzag if depth % 2 == 1 => 1,
            Shape::Zigzag => literals - 1,
            Shape::Clumps => self.random.between(1, 5.min(literals - 1)),
        }
    }

    fn number(&mut self) {
        let primitive = self.random.below(usize::from(MOST_PRIMITIVE) + 1);
        let digits = match self.random.below(8) {
            0 => format!("{primitive:04}"),
            1 => format!("{primitive:02}"),
            _ => primitive.to_string(),
        };
        self.out.extend(digits.bytes());
    }
}
