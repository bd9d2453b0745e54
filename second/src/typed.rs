//! The typed expression: what a text says, before positive form, and its truth. Each number
//! is an occurrence of its own, counted from 0.

#[derive(Clone, Copy, Debug, PartialEq, Eq)]
pub enum Sign {
    Union,
    Intersection,
    Difference,
}

#[derive(Clone, Debug, PartialEq, Eq)]
pub enum Typed {
    Number {
        primitive: u16,
        occurrence: usize,
    },
    /// A run of so many `!`, kept as one so that the longest run is no deep tree.
    Complement {
        times: usize,
        of: Box<Typed>,
    },
    Joined {
        sign: Sign,
        left: Box<Typed>,
        right: Box<Typed>,
    },
}

impl Typed {
    /// The truth of the expression, given one truth per occurrence.
    pub fn truth(&self, truths: &[bool]) -> bool {
        match self {
            Typed::Number { occurrence, .. } => truths[*occurrence],
            Typed::Complement { times, of } => of.truth(truths) ^ (times % 2 == 1),
            Typed::Joined { sign, left, right } => {
                let (left, right) = (left.truth(truths), right.truth(truths));
                match sign {
                    Sign::Union => left || right,
                    Sign::Intersection => left && right,
                    Sign::Difference => left && !right,
                }
            }
        }
    }
}
