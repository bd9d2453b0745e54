//! A numbered refusal with its place. `docs/refusals` has a page for each number.

use std::error::Error;
use std::fmt;

#[derive(Clone, Copy, Debug, PartialEq, Eq)]
pub struct Refusal {
    pub number: u8,
    pub at: usize,
}

impl Refusal {
    /// What the refusal means and what to do, in the words of `include/blist.h`.
    pub fn text(self) -> &'static str {
        match self.number {
            1 => {
                "The text is longer than 16,384 bytes. Shorten it: leave out spaces, or split the \
                solid."
            }
            2 => {
                "The text has a byte that is not allowed. Take out the byte at the place given; only \
                digits, + * - ! ( ) space and newline may stand there."
            }
            3 => {
                "A number has more than four digits or is over 1,023. Number the primitives from 0 to \
                1,023; the number starts at the place given."
            }
            4 => {
                "More than 64 parentheses are open at once. Take out parentheses that are not needed; \
                the one too many is at the place given."
            }
            5 => {
                "The text is not an expression. Up to the place given it could still become one; mend \
                what stands there."
            }
            6 => {
                "The text has more than 1,024 numbers. Split the solid; the first number too many is \
                at the place given."
            }
            7 => {
                "The table would need more than 15 labels. No text gives this refusal: please report \
                it with the text."
            }
            8 => {
                "The buffer is too short for the table. Lend as many bytes as the place says, or \
                BLIST_ROOM."
            }
            9 => {
                "The bytes are not a well-formed table. Check that the table and its length are those \
                that compiling gave; the first record at fault starts at the place given."
            }
            10 => {
                "The answer was asked before every gate was fed, or after too many. Feed one truth \
                for each gate first; the place is the run's gate number."
            }
            11 => {
                "There is no such gate: a truth was fed, or a record asked, past the last one. Ask \
                for the answer instead; the place is the gate number."
            }
            12 => {
                "The run's label is neither True's nor False's. Feed the run as the library gave it \
                back, over the table that it was started on."
            }
            _ => {
                "Not a refusal number. Take the header that belongs to the library."
            }
        }
    }
}

impl fmt::Display for Refusal {
    fn fmt(&self, out: &mut fmt::Formatter<'_>) -> fmt::Result {
        write!(
            out,
            "refused {} at {}: {}",
            self.number,
            self.at,
            self.text()
        )
    }
}

impl Error for Refusal {}
