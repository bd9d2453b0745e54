//! The stored corpus, read back as its form is described: whole records, right answers.

use second::compile;

const STORED: &[u8] = include_bytes!("../../crates/corpus/stdin");

struct Record {
    text: &'static [u8],
    room: usize,
    answer: &'static [u8],
}

fn number(low: u8, high: u8) -> usize {
    usize::from(low) + 256 * usize::from(high)
}

fn records() -> Vec<Record> {
    let mut records = Vec::new();
    let mut rest = STORED;
    while let &[a, b, c, d, e, f, ref bodies @ ..] = rest {
        let (text, behind) = bodies.split_at(number(a, b));
        let (answer, behind) = behind.split_at(number(e, f));
        let room = number(c, d);
        records.push(Record { text, room, answer });
        rest = behind;
    }
    assert!(rest.is_empty(), "the last record is whole");
    records
}

#[test]
fn answers_are_right() {
    for record in records() {
        match (record.answer, compile(record.text, record.room)) {
            (table, Ok(right)) => assert_eq!(table, right),
            (&[b'R', refusal, low, high], Err(right)) => {
                let place = number(low, high) as u64;
                assert_eq!((refusal, place), (right.number, right.at));
            }
            (answer, Err(right)) => panic!("{answer:?} for {right}"),
        }
    }
}

#[test]
fn every_answer_is_there() {
    let records = records();
    let tables = records.iter().filter(|record| record.answer[0] == b'H');
    assert_eq!((records.len(), tables.count()), (4_857, 2_274));
    for refusal in [1, 2, 3, 4, 5, 6, 8] {
        let given = |record: &Record| record.answer[..2] == [b'R', refusal];
        assert!(records.iter().any(given), "refusal {refusal}");
    }
    let most = records.iter().map(|record| record.answer.len()).max();
    assert_eq!(most, Some(6 * 1_024 + 7));
}
