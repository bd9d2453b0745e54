//! The run over damaged tables and altered runs: refusals 9 to 12, their order and places.

mod common;

use common::table;
use second::check::{header, whole};
use second::compiling::{ample_room, compile};
use second::layout::length;
use second::random::Random;
use second::run::{answer, feed, start, Run};
use second::Refusal;

const END_OF_RUN: Run = Run { gate: 4, label: 0 };

fn nine(at: u64) -> Option<Refusal> {
    Some(Refusal { number: 9, at })
}

/// The table of `1*2+3*4` with one byte changed: 31 bytes, gates at 4, 10, 16 and 22.
fn changed(at: usize, byte: u8) -> Vec<u8> {
    let mut table = table("1*2+3*4");
    table[at] = byte;
    table
}

#[test]
fn start_gives_gate_and_label_nought() {
    assert_eq!(start(&table("1*2+3*4")), Ok(Run { gate: 0, label: 0 }));
}

#[test]
fn one_byte_changed() {
    let cases: [(usize, u8, u64); 22] = [
        (0, b'P', 0),
        (1, 0, 0),
        (1, 5, 0),
        (2, 4, 0),
        (3, 1, 0),
        (3, 16, 0),
        (3, 2, 16),
        (4, b'E', 4),
        (6, 4, 4),
        (7, 1, 4),
        (8, 3, 4),
        (9, 3, 4),
        (10, b'H', 10),
        (12, 255, 10),
        (13, 3, 10),
        (22, 0, 22),
        (27, 255, 22),
        (28, b'P', 28),
        (29, 3, 28),
        (30, 3, 28),
        (29, 2, 28),
        (30, 0, 28),
    ];
    for (at, byte, place) in cases {
        assert_eq!(
            start(&changed(at, byte)).err(),
            nine(place),
            "byte {at} made {byte}"
        );
    }
}

#[test]
fn changes_that_leave_a_table_well_formed() {
    for (at, byte) in [(3, 15), (4, b'N'), (6, 3), (8, 2), (13, 2), (29, 1)] {
        assert!(start(&changed(at, byte)).is_ok(), "byte {at} made {byte}");
    }
}

#[test]
fn lengths() {
    let good = table("1*2+3*4");
    for kept in 0..good.len() {
        assert_eq!(start(&good[..kept]).err(), nine(0));
    }
    assert_eq!(start(&[&good[..], b"E"].concat()).err(), nine(0));
    assert_eq!(feed(END_OF_RUN, &good[..30], true).err(), nine(0));
    assert_eq!(answer(END_OF_RUN, &good[..30]).err(), nine(0));
}

#[test]
fn most_and_least_gates() {
    let made = |gates: usize| {
        let [low, high] = (gates as u16).to_le_bytes();
        let records = b"P\x00\x00\x00\x00\x01".repeat(gates);
        [&[b'H', low, high, 2][..], &records, b"E\x00\x01"].concat()
    };
    assert_eq!(made(1024).len(), length(1024));
    assert!(start(&made(1)).is_ok() && start(&made(1024)).is_ok());
    assert_eq!(start(&made(0)).err(), nine(0));
    assert_eq!(start(&made(1025)).err(), nine(0));
}

#[test]
fn feed_checks_the_record_it_reads_only() {
    let at_gate = |gate| Run { gate, label: 0 };
    let table = changed(10, 0);
    assert_eq!(feed(at_gate(0), &table, true), Ok(at_gate(1)));
    assert_eq!(feed(at_gate(1), &table, true).err(), nine(10));
    assert_eq!(feed(at_gate(2), &table, true), Ok(at_gate(3)));
    assert_eq!(answer(END_OF_RUN, &table), Ok(true));
    let no_end = changed(28, 0);
    assert_eq!(feed(at_gate(3), &no_end, true), Ok(END_OF_RUN));
    assert_eq!(answer(END_OF_RUN, &no_end).err(), nine(28));
}

#[test]
fn order_of_refusals() {
    let good = table("1*2+3*4");
    for gate in [4, 5, 1 << 32, 1 << 63, u64::MAX] {
        let run = Run { gate, label: 9 };
        assert_eq!(
            feed(run, &good, true),
            Err(Refusal {
                number: 11,
                at: gate
            })
        );
        assert_eq!(
            feed(run, &changed(28, 0), true),
            Err(Refusal {
                number: 11,
                at: gate
            })
        );
        assert_eq!(feed(run, &changed(0, 0), true).err(), nine(0));
    }
    for gate in [0, 3, 5, (1 << 32) + 4, u64::MAX] {
        let run = Run { gate, label: 9 };
        assert_eq!(
            answer(run, &good),
            Err(Refusal {
                number: 10,
                at: gate
            })
        );
        assert_eq!(answer(run, &changed(28, 0)).err(), nine(28));
    }
    for label in [1, 3, 255] {
        let run = Run { gate: 4, label };
        assert_eq!(
            answer(run, &good),
            Err(Refusal {
                number: 12,
                at: u64::from(label)
            })
        );
    }
    assert_eq!(answer(Run { gate: 4, label: 2 }, &good), Ok(false));
}

#[test]
fn a_label_of_its_own_moves_and_any_other_stays() {
    let good = table("1*2+3*4");
    let run = |gate, label| Run { gate, label };
    assert_eq!(feed(run(2, 1), &good, true), Ok(run(3, 1)));
    assert_eq!(feed(run(2, 1), &good, false), Ok(run(3, 2)));
    assert_eq!(feed(run(2, 0), &good, false), Ok(run(3, 0)));
    assert_eq!(feed(run(2, 200), &good, true), Ok(run(3, 200)));
    let complemented = changed(16, b'N');
    assert_eq!(feed(run(2, 1), &complemented, false), Ok(run(3, 1)));
    assert_eq!(feed(run(2, 1), &complemented, true), Ok(run(3, 2)));
}

/// The first refusal 9 met by looking at header and length, each gate, and the end.
fn first_fault(table: &[u8]) -> Option<Refusal> {
    let gates = match header(table) {
        Ok(header) => header.gates as u64,
        Err(refusal) => return Some(refusal),
    };
    let feeds = (0..gates).find_map(|gate| feed(Run { gate, label: 0 }, table, true).err());
    feeds.or_else(|| {
        answer(
            Run {
                gate: gates,
                label: 0,
            },
            table,
        )
        .err()
        .filter(|r| r.number == 9)
    })
}

#[test]
fn start_refuses_what_feeds_and_answer_refuse_between_them() {
    let mut random = Random::new(9);
    let mut places = std::collections::BTreeSet::new();
    for _ in 0..6_000 {
        let literals = random.between(1, 6);
        let mut table = compile(&random.expression(literals), ample_room()).unwrap();
        for _ in 0..random.between(1, 2) {
            random.damage(&mut table, b"HPNE\x00\x01\x02\x03\x04\x0f\x10\xff");
        }
        let fault = first_fault(&table);
        assert_eq!(whole(&table).err(), fault, "{table:?}");
        places.insert(fault.map(|refusal| refusal.at));
    }
    assert!(places.len() >= 9, "{places:?}");
}
