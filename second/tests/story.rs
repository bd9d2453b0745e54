//! The pump cover: two halves of one zigzag each, united, 300 literals in all. Mending one
//! half alone lowers nothing, so the old way stops at nine labels.

mod common;

use second::check::{record, whole};
use second::old_way::{self, helpful_turns, label_count, old_way, turn_at};
use second::positive::{positive, Node};
use second::reading;
use second::run::{answer, feed, start};
use std::collections::BTreeSet;

const PUMP_COVER: &str = include_str!("../../examples/pump-cover.txt");

fn as_typed(text: &str) -> Node {
    positive(&reading::read(text.as_bytes()).unwrap())
}

#[test]
fn old_way_needs_nine_labels_and_ours_four() {
    let node = as_typed(PUMP_COVER);
    assert_eq!(node.literals(), 300);
    assert_eq!(label_count(&node), 10);
    let stop = old_way(node);
    assert_eq!((stop.labels.count, stop.turns), (9, 1));
    assert_eq!(stop.gates.len(), 300);
    assert_eq!(common::label_count(PUMP_COVER), 4);
}

/// The old way's table is a right one, it only has one label more than three bits hold.
#[test]
fn old_table_ends_as_ours() {
    let old = old_way::table(PUMP_COVER.as_bytes()).unwrap();
    let ours = second::compile(PUMP_COVER.as_bytes(), old.len()).unwrap();
    assert_eq!(whole(&old).unwrap().labels, 9);
    for seed in 0..200 {
        let mut random = second::random::Random::new(seed);
        let truths: Vec<bool> = (0..300).map(|_| random.one_in(2)).collect();
        assert_eq!(ends(&old, &truths), ends(&ours, &truths), "seed {seed}");
    }
}

/// What a table ends on, given one truth per primitive.
fn ends(table: &[u8], truths: &[bool]) -> bool {
    let header = whole(table).unwrap();
    let mut run = start(table).unwrap();
    for gate in 0..header.gates {
        let primitive = record(table, header, gate).unwrap().primitive;
        run = feed(run, table, truths[usize::from(primitive)]).unwrap();
    }
    answer(run, table).unwrap()
}

/// The label counts at which the old way can stop, whichever helpful turns it takes.
fn stops(node: &Node) -> BTreeSet<usize> {
    let mut counts = BTreeSet::new();
    for operator in helpful_turns(node) {
        let mut turned = node.clone();
        turn_at(&mut turned, operator);
        counts.extend(stops(&turned));
    }
    if counts.is_empty() {
        counts.insert(label_count(node));
    }
    counts
}

#[test]
fn no_choice_of_turns_saves_the_old_way() {
    assert_eq!(stops(&as_typed(PUMP_COVER)), BTreeSet::from([9]));
}

#[test]
fn each_half_alone_is_mended_by_the_old_way() {
    let both = match as_typed(PUMP_COVER) {
        Node::Operator(both) => both,
        Node::Literal(_) => panic!("the pump cover is a union of two halves"),
    };
    for half in [both.left, both.right] {
        assert_eq!(half.literals(), 150);
        assert_eq!(label_count(&half), 9);
        assert_eq!(old_way(half).labels.count, 3);
    }
}

#[test]
fn pump_cover_names_each_primitive_once() {
    let mut primitives = common::order(PUMP_COVER);
    primitives.sort_unstable();
    assert!(primitives.into_iter().eq(0..300));
}
