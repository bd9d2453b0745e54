//! A refusal: its number in the scope's table (docs/scope.md, 7.1) and the place returned with it.

use std::fmt;

#[derive(Clone, Copy, Debug, PartialEq, Eq)]
pub struct Refusal {
    pub number: u8,
    pub at: u64,
}

impl Refusal {
    pub fn new(number: u8, at: usize) -> Refusal {
        Refusal {
            number,
            at: at as u64,
        }
    }
}

impl fmt::Display for Refusal {
    fn fmt(&self, out: &mut fmt::Formatter<'_>) -> fmt::Result {
        write!(out, "refused {} at {}", self.number, self.at)
    }
}
