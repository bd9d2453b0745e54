//! The comparison tried on programs with a slip of their own: each slip is found, with an
//! input that cannot be shortened; and the second program does not differ from itself.

mod misreading;

use compare::program::{
    expected, Answered, Compiled, Counts, EndLabels, Fed, Moved, Program, Recorded, Second,
};
use compare::{material, tables, texts};
use misreading::Reading;
use second::compiling::table_of;
use second::random::Random;

#[derive(Clone, Copy, PartialEq)]
enum Slip {
    None,
    Misreads(Reading),
    PlaceOfRefusal5,
    WritesOneByteMore,
    WritesBeforeRefusing,
    SwapsEnds,
    LongTableAccepted,
    LabelCutToSevenBits,
    GateCutTo32Bits,
    TruthIsOneOnly,
    EndReadAsGate,
    HeaderBeforeLength,
    EndsUnchecked,
}

impl Program for Slip {
    fn compile(&self, text: &[u8], out: &mut [u8]) -> Compiled {
        if let Slip::Misreads(reading) = self {
            let (answer, written) = expected(&reading.table(text), out.len());
            out[..written.len()].copy_from_slice(&written);
            return answer;
        }
        let mut answer = Second.compile(text, out);
        match self {
            Slip::PlaceOfRefusal5 if answer.refusal == 5 && text.contains(&b'!') => answer.at += 1,
            Slip::WritesOneByteMore if answer.refusal == 0 && out.len() > answer.length => {
                out[answer.length] ^= 1;
            }
            Slip::WritesBeforeRefusing if answer.refusal == 8 && !out.is_empty() => out[0] ^= 1,
            Slip::SwapsEnds if answer.length > 20 => out.swap(answer.length - 1, answer.length - 2),
            _ => {}
        }
        answer
    }

    fn start(&self, table: &[u8]) -> Moved {
        let kept = match table {
            [kept @ .., _] if *self == Slip::LongTableAccepted => kept,
            _ => table,
        };
        match Second.start(kept) {
            accepted if accepted.refusal == 0 => accepted,
            _ => Second.start(table),
        }
    }

    fn feed(&self, mut fed: Fed, table: &[u8]) -> Moved {
        match self {
            Slip::LabelCutToSevenBits => fed.label &= 127,
            Slip::GateCutTo32Bits => fed.gate &= 0xffff_ffff,
            Slip::TruthIsOneOnly => fed.truth = u8::from(fed.truth == 1),
            _ => {}
        }
        Second.feed(fed, table)
    }

    fn answer(&self, fed: Fed, table: &[u8]) -> Answered {
        Second.answer(fed, table)
    }

    fn header(&self, table: &[u8]) -> Counts {
        match (self, Second.header(table), table) {
            (Slip::HeaderBeforeLength, refused, &[b'H', 1, 0, labels, ..])
                if refused.refusal != 0 =>
            {
                Counts {
                    gates: 1,
                    labels,
                    ..Counts::default()
                }
            }
            (_, right, _) => right,
        }
    }

    fn gate(&self, table: &[u8], gate: usize) -> Recorded {
        match (self, Second.gate(table, gate)) {
            (Slip::EndReadAsGate, refused)
                if refused.refusal == 11 && table.len() == 6 * gate + 7 =>
            {
                Recorded {
                    primitive: 256,
                    ..Recorded::default()
                }
            }
            (_, right) => right,
        }
    }

    fn ends(&self, table: &[u8]) -> EndLabels {
        match (self, Second.ends(table), table) {
            (Slip::EndsUnchecked, refused, &[.., on_true, on_false]) if refused.at > 0 => {
                EndLabels {
                    refusal: 0,
                    at: 0,
                    on_true,
                    on_false,
                }
            }
            (_, right, _) => right,
        }
    }
}

#[test]
fn no_slip_no_difference() {
    assert!(texts::compare(&Slip::None, 1, 2_000).is_ok());
    assert!(tables::compare(&Slip::None, 1, 5_000).is_ok());
    assert!(material::compare(&Slip::None).is_ok());
}

#[test]
fn slips_of_compiling() {
    let slips = [
        (Slip::PlaceOfRefusal5, "text of 1 bytes \"!\""),
        (Slip::WritesOneByteMore, "text of 1 bytes \""),
        (Slip::WritesBeforeRefusing, "text of 1 bytes \""),
        (Slip::SwapsEnds, "text of 5 bytes \""),
    ];
    for (slip, shortest) in slips {
        let difference = texts::compare(&slip, 2, 20_000).unwrap_err();
        assert!(difference.starts_with(shortest), "{difference}");
    }
    assert!(material::compare(&Slip::SwapsEnds).is_err());
}

#[test]
fn slips_of_running() {
    let slips = [
        (Slip::LongTableAccepted, "table of 14 bytes", "start"),
        (Slip::LabelCutToSevenBits, "table of 0 bytes", "feed"),
        (Slip::GateCutTo32Bits, "table of 0 bytes", "feed"),
        (Slip::TruthIsOneOnly, "table of 1", "feed"),
        (Slip::EndReadAsGate, "table of 13 bytes", "gate"),
        (Slip::HeaderBeforeLength, "table of 4 bytes", "header"),
        (Slip::EndsUnchecked, "table of 13 bytes", "ends"),
    ];
    for (slip, shortest, part) in slips {
        let difference = tables::compare(&slip, 3, 20_000).unwrap_err();
        assert!(difference.starts_with(shortest), "{difference}");
        assert!(difference.contains(part), "{difference}");
    }
}

/// A misreading is found before any random text. Products of numbers alone come out alike
/// however they are grouped, so the text that tells them apart is longer.
#[test]
fn slips_of_reading() {
    assert!(texts::compare(&Slip::Misreads(misreading::RIGHT), 4, 2_000).is_ok());
    let slips = [
        (misreading::MINUS_WITH_TIMES, "text of 5 bytes \"1+2-3\""),
        (misreading::ONE_LEVEL, "text of 5 bytes \"1+3*4\""),
        (misreading::SUMS_FROM_THE_RIGHT, "text of 5 bytes \"1+2-3\""),
        (
            misreading::PRODUCTS_FROM_THE_RIGHT,
            "text of 9 bytes \"1*(2+3)*4\"",
        ),
    ];
    for (reading, shortest) in slips {
        let difference = texts::compare(&Slip::Misreads(reading), 4, 0).unwrap_err();
        assert!(difference.starts_with(shortest), "{difference}");
    }
}

/// How many of the texts a misreading gives another table than the scope's.
fn told_apart(reading: Reading, texts: &[Vec<u8>]) -> usize {
    let differs = |text: &&Vec<u8>| reading.table(text) != table_of(text);
    texts.iter().filter(differs).count()
}

/// Random texts find the misreadings by themselves, and bare chains among them those of sums.
#[test]
fn random_texts_tell_misreadings_apart() {
    let texts: Vec<Vec<u8>> = (0..4_000).map(|seed| Random::new(seed).text()).collect();
    let bare = |text: &&Vec<u8>| !text.contains(&b'(');
    let chains: Vec<Vec<u8>> = texts.iter().filter(bare).cloned().collect();
    assert_eq!(told_apart(misreading::RIGHT, &texts), 0);
    assert!(told_apart(misreading::PRODUCTS_FROM_THE_RIGHT, &texts) > 150);
    for reading in [
        misreading::MINUS_WITH_TIMES,
        misreading::ONE_LEVEL,
        misreading::SUMS_FROM_THE_RIGHT,
    ] {
        assert!(told_apart(reading, &texts) > 800);
        assert!(told_apart(reading, &chains) > 250);
    }
}
