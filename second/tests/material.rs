//! Real material: the arrays of [Dvořák] over all their inputs, and every
//! series-parallel expression of few literals with its label count against the bound.

mod common;

use common::table;
use second::arrays::outputs;
use second::check::{header, record};
use second::run::{answer, feed, start};
use second::series_parallel::trees;
use std::collections::BTreeMap;

/// The truth that a run over the table comes to; bit i of the inputs is primitive i's truth.
fn run(table: &[u8], inputs: usize) -> bool {
    let header = header(table).unwrap();
    let mut run = start(table).unwrap();
    for gate in 0..header.gates {
        let primitive = record(table, header, gate).unwrap().primitive;
        run = feed(run, table, inputs >> primitive & 1 == 1).unwrap();
    }
    answer(run, table).unwrap()
}

#[test]
fn arrays_over_all_inputs() {
    let outputs = outputs();
    let names: Vec<&str> = outputs.iter().map(|output| output.name).collect();
    assert_eq!(names, ["SO", "NL", "V1", "Q1", "Q4", "Q5", "Q7", "Q8"]);
    for output in outputs {
        let plain = table(&output.text());
        let complemented = table(&format!("!({})", output.text()));
        for inputs in 0..1 << output.inputs {
            let truth = output.truth(inputs);
            assert_eq!(run(&plain, inputs), truth, "{} {inputs:b}", output.name);
            assert_eq!(run(&complemented, inputs), !truth, "{}", output.name);
        }
    }
}

#[test]
fn labels_of_the_arrays() {
    let labels: Vec<u8> = outputs().iter().map(|o| table(&o.text())[3]).collect();
    assert_eq!(labels, [3, 3, 3, 3, 3, 3, 3, 2]);
}

#[test]
fn series_parallel_over_all_inputs() {
    for literals in 1..=7 {
        for tree in trees(literals) {
            let table = table(&tree.text());
            for inputs in 0..1 << literals {
                assert_eq!(run(&table, inputs), tree.truth(inputs), "{}", tree.text());
            }
        }
    }
}

/// The greatest label count of all series-parallel expressions of so many literals.
fn most_labels(literals: usize) -> u8 {
    let trees = trees(literals);
    let counts = trees.iter().map(|tree| table(&tree.text())[3]);
    counts.max().unwrap()
}

#[test]
fn three_labels_first_at_four_literals_and_four_never_below_ten() {
    let most: Vec<u8> = (1..=9).map(most_labels).collect();
    assert_eq!(most, [2, 2, 2, 3, 3, 3, 3, 3, 3]);
    assert_eq!(table("(1*2+3*4)*5+(6*7+8*9)*10")[3], 4);
}

#[test]
fn labels_depend_on_the_shape_alone() {
    for (literals, shapes) in [(1, 1), (2, 2), (3, 4), (4, 10), (5, 24), (6, 66), (7, 180)] {
        let mut labels = BTreeMap::new();
        for tree in trees(literals) {
            let count = table(&tree.text())[3];
            assert_eq!(*labels.entry(tree.shape()).or_insert(count), count);
        }
        assert_eq!(labels.len(), shapes, "{literals} literals");
        let two_labels = labels.values().filter(|&&count| count == 2).count();
        assert_eq!(two_labels, 1 << (literals - 1));
    }
}
