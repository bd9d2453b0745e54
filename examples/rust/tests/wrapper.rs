//! The wrapper over the library: results, refusals with their places, and what a refusal leaves in the buffer.

use blist::{compile, ends, gate, gates, header, primitive, table_bytes, version};
use blist::{Ends, Gate, Header, Refusal, Run, ROOM};

fn refusal(number: u8, at: usize) -> Refusal {
    Refusal { number, at }
}

const FIVE: [u8; 13] = [72, 1, 0, 2, 80, 5, 0, 0, 0, 1, 69, 0, 1];

#[test]
fn a_table_is_written_and_no_byte_behind_it() {
    let mut room = [170; 20];
    assert_eq!(compile(b"5", &mut room), Ok(&FIVE[..]));
    assert_eq!(room[13..], [170; 7]);
    assert_eq!(ROOM, 6151);
    assert_eq!(table_bytes(1), 13);
}

#[test]
fn a_refused_compile_has_written_nothing() {
    let mut room = [170; 12];
    assert_eq!(compile(b"5", &mut room), Err(refusal(8, 13)));
    assert_eq!(compile(b"1+", &mut room), Err(refusal(5, 2)));
    assert_eq!(compile(b"1024 &", &mut room), Err(refusal(2, 5)));
    assert_eq!(room, [170; 12]);
    assert_eq!(compile(b"", &mut []), Err(refusal(5, 0)));
    assert_eq!(compile(b"5", &mut []), Err(refusal(8, 13)));
}

#[test]
fn every_row_of_truths_ends_as_the_expression_says() {
    let mut room = [0; ROOM];
    let table = compile(b"1+2*3", &mut room).unwrap();
    for row in 0..8 {
        let inside = |solid: usize| row >> (solid - 1) & 1 == 1;
        let mut run = Run::start(table).unwrap();
        for gate in 0..gates(table).unwrap() {
            run = run
                .feed(table, inside(primitive(table, gate).unwrap()))
                .unwrap();
        }
        assert_eq!(run.answer(table), Ok(inside(1) || inside(2) && inside(3)));
    }
}

#[test]
fn minus_binds_as_plus_does() {
    let (mut room, mut other) = ([0; ROOM], [0; ROOM]);
    for (text, meant) in [("1+2-3", "(1+2)*!3"), ("1-2*3", "1*!(2*3)")] {
        let table = compile(text.as_bytes(), &mut room);
        assert_eq!(table, compile(meant.as_bytes(), &mut other));
    }
    assert_eq!(compile(b"1-", &mut room), Err(refusal(5, 2)));
}

#[test]
fn a_run_refuses_what_is_no_table_and_what_comes_too_soon_or_too_late() {
    let start = Run::start(&FIVE).unwrap();
    assert_eq!(start, Run { gate: 0, label: 0 });
    assert_eq!(start.answer(&FIVE), Err(refusal(10, 0)));
    let end = start.feed(&FIVE, false).unwrap();
    assert_eq!(end, Run { gate: 1, label: 1 });
    assert_eq!(end.answer(&FIVE), Ok(false));
    assert_eq!(end.feed(&FIVE, true), Err(refusal(11, 1)));
    assert_eq!(Run { gate: 1, label: 7 }.answer(&FIVE), Err(refusal(12, 7)));
    assert_eq!(
        Run {
            gate: usize::MAX,
            label: 0
        }
        .feed(&FIVE, true),
        Err(refusal(11, usize::MAX))
    );
    let mut wrong = FIVE;
    wrong[6] = 4;
    assert_eq!(Run::start(&wrong), Err(refusal(9, 4)));
    assert_eq!(Run::start(&FIVE[..12]), Err(refusal(9, 0)));
    assert_eq!(Run::start(&[]), Err(refusal(9, 0)));
}

#[test]
fn the_readers_of_a_table_answer_on_any_bytes() {
    let said = Header {
        gates: 1,
        labels: 2,
        first_label: 0,
    };
    assert_eq!(header(&FIVE), Ok(said));
    let record = Gate {
        primitive: 5,
        complemented: false,
        own: 0,
        on_true: 0,
        on_false: 1,
    };
    assert_eq!(gate(&FIVE, 0), Ok(record));
    assert_eq!(gate(&FIVE, 1), Err(refusal(11, 1)));
    let labels = Ends {
        on_true: 0,
        on_false: 1,
    };
    assert_eq!(ends(&FIVE), Ok(labels));
    assert_eq!(header(&FIVE[..12]), Err(refusal(9, 0)));
    assert_eq!(gate(&FIVE[..12], 3), Err(refusal(9, 0)));
    assert_eq!(ends(&[]), Err(refusal(9, 0)));
    let mut wrong = FIVE;
    wrong[12] = 0;
    assert_eq!(ends(&wrong), Err(refusal(9, 10)));
    assert_eq!(gate(&wrong, 0), Ok(record));
}

#[test]
fn there_is_no_primitive_behind_the_last_gate() {
    assert_eq!(gates(&FIVE), Some(1));
    assert_eq!(primitive(&FIVE, 0), Some(5));
    assert_eq!(primitive(&FIVE, 1), None);
    assert_eq!(gates(&[72, 1]), None);
    assert_eq!(primitive(&FIVE, usize::MAX), None);
}

/// The header's own lines, with the pieces of a text joined.
fn manual() -> String {
    let lines = include_str!("../../../include/blist.h").lines();
    lines
        .map(str::trim)
        .collect::<Vec<_>>()
        .join("")
        .replace("\"\"", "")
}

#[test]
fn the_wrapper_has_the_words_of_the_header() {
    let manual = manual();
    for number in 1..=13 {
        let said = format!("return \"{}\";", refusal(number, 0).text());
        assert!(manual.contains(&said), "{said}");
    }
    assert_ne!(refusal(12, 0).text(), refusal(13, 0).text());
    assert_eq!(refusal(13, 0).text(), refusal(255, 0).text());
}

#[test]
fn the_archive_has_the_version_of_this_package() {
    let part = |name: &str| name.parse::<u32>().unwrap();
    let expected = 10000 * part(env!("CARGO_PKG_VERSION_MAJOR"))
        + 100 * part(env!("CARGO_PKG_VERSION_MINOR"))
        + part(env!("CARGO_PKG_VERSION_PATCH"));
    assert_eq!(version(), expected);
}
