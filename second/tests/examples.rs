//! The scope's examples on each side, its slips, and some marks that decide an order.

mod common;

use common::*;
use second::positive::positive;
use second::run::{answer, feed, start};
use second::turning::{standing, turn};
use second::{compile, listing, reading, Refusal};

#[test]
fn one_number() {
    assert_eq!(table("5"), [72, 1, 0, 2, 80, 5, 0, 0, 0, 1, 69, 0, 1]);
    assert_eq!(table("!!5"), table("5"));
}

#[test]
fn differences() {
    let difference = [72, 2, 0, 2, 80, 1, 0, 0, 0, 1, 78, 2, 0, 0, 0, 1, 69, 0, 1];
    assert_eq!(table("1-2"), difference);
    let mut complement = difference;
    complement[4] = b'N';
    assert_eq!(table("!(1+2)"), complement);
}

/// A table of three gates and two labels; a gate is its kind, primitive and three labels.
fn three_gates(gates: [[u8; 5]; 3]) -> Vec<u8> {
    let gate =
        |[kind, primitive, labels @ ..]: [u8; 5]| [&[kind, primitive, 0], &labels[..]].concat();
    [&[72, 3, 0, 2], &gates.map(gate).concat()[..], &[69, 0, 1]].concat()
}

/// Request 1: a sum is products joined by `+` or `-`, and a product has `*` only.
#[test]
fn minus_belongs_with_plus() {
    let cases: [(&str, [[u8; 5]; 3]); 6] = [
        (
            "1+2-3",
            [[80, 1, 0, 0, 1], [80, 2, 1, 0, 1], [78, 3, 0, 0, 1]],
        ),
        (
            "1-2*3",
            [[78, 2, 0, 0, 1], [78, 3, 1, 0, 1], [80, 1, 0, 0, 1]],
        ),
        (
            "1*2-3",
            [[80, 1, 0, 0, 1], [80, 2, 0, 0, 1], [78, 3, 0, 0, 1]],
        ),
        (
            "1-2-3",
            [[80, 1, 0, 0, 1], [78, 2, 0, 0, 1], [78, 3, 0, 0, 1]],
        ),
        (
            "1-2+3",
            [[80, 1, 0, 0, 1], [78, 2, 0, 0, 1], [80, 3, 1, 0, 1]],
        ),
        (
            "1-(2-3)",
            [[78, 2, 0, 0, 1], [80, 3, 1, 0, 1], [80, 1, 0, 0, 1]],
        ),
    ];
    for (text, gates) in cases {
        assert_eq!(table(text), three_gates(gates), "{text}");
    }
}

/// Texts on the left mean what those on the right say in parentheses alone.
#[test]
fn chains_in_parentheses() {
    let cases = [
        ("1+2-3", "(1+2)*!3"),
        ("1-2*3", "1*(!2+!3)"),
        ("1*2-3", "(1*2)*!3"),
        ("1-2-3", "(1*!2)*!3"),
        ("1-2+3", "(1*!2)+3"),
        ("1-(2-3)", "1*(!2+3)"),
        ("1+2-3+4-5", "(((1+2)*!3)+4)*!5"),
        ("1-2*3+4*5-6", "((1*!(2*3))+(4*5))*!6"),
        ("1*2-3*4*5-6", "((1*2)*!((3*4)*5))*!6"),
        ("1-!2*3+!4-5", "((1*!((!2)*3))+!4)*!5"),
        ("!1-2*(3-4+5)-6", "(!1*!(2*((3*!4)+5)))*!6"),
        ("!(1+2-3)*4-5", "(!((1+2)*!3)*4)*!5"),
    ];
    for (text, meant) in cases {
        assert_eq!(table(text), table(meant), "{text}");
    }
}

/// How the meaning that a text had before request 1 is kept: by parentheses.
#[test]
fn former_meanings_in_parentheses() {
    assert_eq!(order("1+(2-3)"), [2, 3, 1]);
    assert_eq!(table("1+(2-3)"), table("1+2*!3"));
    assert_eq!(order("(1-2)*3"), [1, 2, 3]);
    assert_eq!(table("(1-2)*3"), table("1*!2*3"));
}

#[test]
fn two_products() {
    let text = "1*2+3*4";
    assert_eq!(
        gate_labels(text),
        [[0, 0, 1], [0, 0, 1], [1, 1, 2], [1, 0, 2]]
    );
    assert_eq!((label_count(text), end_labels(text)), (3, [0, 2]));
    let table = table(text);
    let mut run = start(&table).unwrap();
    for truth in [false, true, true, true] {
        run = feed(run, &table, truth).unwrap();
    }
    assert_eq!(answer(run, &table), Ok(true));
}

#[test]
fn tags_of_a_sum_with_a_product() {
    let mut node = positive(&reading::read(b"1+2*3").unwrap());
    let typed = standing(&node);
    assert_eq!((typed.mark, typed.costs), (false, [1, 2, 3]));
    let exchanged = turn(&mut node);
    assert_eq!((exchanged.mark, exchanged.costs), (false, [2, 2, 2]));
    assert_eq!(standing(&node), exchanged);
    assert_eq!(order("1+2*3"), [2, 3, 1]);
}

#[test]
fn texts_that_are_no_sums() {
    let cases: [(&str, u64); 17] = [
        ("", 0),
        ("1+", 2),
        ("1-", 2),
        ("-1", 0),
        ("1--2", 2),
        ("1+-2", 2),
        ("1*2-*3", 4),
        ("1 2", 2),
        ("()", 1),
        (" \n", 2),
        ("1)", 1),
        ("(1", 2),
        ("1(", 1),
        ("1!", 1),
        ("1+*2", 2),
        ("(1+2))+", 5),
        ("1+!-2", 3),
    ];
    for (text, at) in cases {
        assert_eq!(refused(text.as_bytes()), (5, at), "{text:?}");
    }
}

#[test]
fn bytes_and_numbers() {
    assert_eq!(refused(b"1024 &"), (2, 5));
    assert_eq!(refused(b"1024"), (3, 0));
    assert_eq!(refused(b"00001"), (3, 0));
    assert_eq!(refused(b"1\t2"), (2, 1));
    assert_eq!(refused(b"1\r\n"), (2, 1));
    assert_eq!(order("1023"), [1023]);
    assert_eq!(order("0001"), [1]);
}

#[test]
fn parentheses() {
    let nested = |count: usize| format!("{}1{}", "(".repeat(count), ")".repeat(count));
    assert_eq!(table(&nested(64)), table("1"));
    assert_eq!(refused(nested(65).as_bytes()), (4, 64));
    let early = format!("){}", "(".repeat(65));
    assert_eq!(refused(early.as_bytes()), (5, 0));
    assert_eq!(refused(format!("{early}(").as_bytes()), (4, 66));
}

#[test]
fn literals_and_bytes() {
    let sum = |count: usize| vec!["7"; count].join("+");
    assert_eq!(table(&sum(1024)).len(), 6 * 1024 + 7);
    assert_eq!(refused(sum(1025).as_bytes()), (6, 2048));
    assert_eq!(table(&format!("{}5", "!".repeat(16_383))), table("!5"));
    assert_eq!(refused("!".repeat(16_384).as_bytes()), (5, 16_384));
    assert_eq!(
        refused(format!("{}5", "!".repeat(16_384)).as_bytes()),
        (1, 16_384)
    );
    assert_eq!(table(&format!("5{}", " ".repeat(16_383))), table("5"));
    assert_eq!(refused(&[b'&'; 16_385]), (1, 16_384));
}

#[test]
fn room() {
    assert_eq!(compile(b"5", 13).unwrap(), table("5"));
    assert_eq!(compile(b"5", 12), Err(Refusal { number: 8, at: 13 }));
    assert_eq!(compile(b"5+", 0), Err(Refusal { number: 5, at: 2 }));
}

#[test]
fn label_counts() {
    assert_eq!(label_count("(1*2+3*4)*5+(6*7+8*9)*10"), 4);
    assert_eq!(label_count("(1+2)*((3+4)*5)+(6*7+(8+9)*(10+11*12))"), 3);
}

#[test]
fn listings() {
    let expected = "gates 3 labels 2\n0 2 + 0 0 1\n1 3 + 0 0 1\n2 1 + 1 0 1\ntrue 0 false 1\n";
    assert_eq!(listing(b"1+2*3\n"), expected);
    assert_eq!(
        listing(b"1-2"),
        "gates 2 labels 2\n0 1 + 0 0 1\n1 2 - 0 0 1\ntrue 0 false 1\n"
    );
    assert_eq!(listing(b"1+\n"), "refused 5 at 3\n");
}

#[test]
fn slips() {
    assert_eq!(order("1-2"), [1, 2]);
    assert_eq!(label_count("1*2"), 2);
    assert_eq!(end_labels("1+2"), [0, 1]);
    assert_eq!(order("5*5"), [5, 5]);
    assert_eq!(order("5+!5"), [5, 5]);
}

#[test]
fn marks_decide_the_order() {
    let text = "1+(2*3+4*5)";
    assert_eq!(order(text), [2, 3, 4, 5, 1]);
    assert_eq!(gate_labels(text)[4], [2, 0, 1]);
    assert_eq!(end_labels(text), [0, 1]);
    assert_eq!(order("1+(2+3)*(4+5)+6"), [6, 2, 3, 4, 5, 1]);
    assert_eq!(order("1+(2+3)*(4+5)"), [2, 3, 4, 5, 1]);
    assert_eq!(order("1+2*(3+4)"), [3, 4, 2, 1]);
}

/// One literal more than so many labels suffice to can need one label more ([OBF], 3.5, with
/// its operators exchanged): nine labels, and so four bits, come first with 382 literals.
#[test]
fn one_literal_beyond_the_bound() {
    let mut text = "1*2+3*4".to_string();
    for labels in 3..=9 {
        let literals = records(&table(&text)).len();
        assert_eq!(
            (literals, label_count(&text)),
            (3 * (1 << (labels - 2)) - 2, labels)
        );
        text = format!("({text})*5+({text})*6");
    }
}
