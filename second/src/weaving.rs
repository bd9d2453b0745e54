//! Gates, their true and false places, the awaited places of every gap, and the labels,
//! given out and given back gate by gate.

use crate::positive::{Kind, Literal, Node};

/// Where a gate sends the run: to a later gate, or to True or False beyond the last gate.
#[derive(Clone, Copy, Debug, PartialEq, Eq)]
pub enum Place {
    Gate(usize),
    True,
    False,
}

#[derive(Clone, Copy, Debug, PartialEq, Eq)]
pub struct Gate {
    pub literal: Literal,
    pub true_place: Place,
    pub false_place: Place,
}

/// The gates of an expression: its literals from left to right.
pub fn gates(node: &Node) -> Vec<Gate> {
    let mut gates = Vec::with_capacity(node.literals());
    gather(node, Place::True, Place::False, &mut gates);
    gates
}

/// Adds the gates of a node. The places given are the first gate in the right child of the
/// lowest intersection, and of the lowest union, that holds the node in its left child.
fn gather(node: &Node, true_place: Place, false_place: Place, gates: &mut Vec<Gate>) {
    match node {
        Node::Literal(literal) => gates.push(Gate {
            literal: *literal,
            true_place,
            false_place,
        }),
        Node::Operator(operator) => {
            let right_child = Place::Gate(gates.len() + operator.left.literals());
            let (left_true, left_false) = match operator.kind {
                Kind::Intersection => (right_child, false_place),
                Kind::Union => (true_place, right_child),
            };
            gather(&operator.left, left_true, left_false, gates);
            gather(&operator.right, true_place, false_place, gates);
        }
    }
}

/// One slot for each place: the gates in order, then True, then False.
fn slot(place: Place, gates: usize) -> usize {
    match place {
        Place::Gate(gate) => gate,
        Place::True => gates,
        Place::False => gates + 1,
    }
}

/// How many places are awaited in the gap after each gate, counted from the places alone.
/// A place is awaited from the first gate that names it up to the gap before the place.
pub fn awaited(gates: &[Gate]) -> Vec<usize> {
    let n = gates.len();
    let mut named = vec![false; n + 2];
    let mut count = 0;
    let mut counts = Vec::with_capacity(n);
    for (k, gate) in gates.iter().enumerate() {
        if named[k] {
            count -= 1;
        }
        for place in [gate.true_place, gate.false_place] {
            if !std::mem::replace(&mut named[slot(place, n)], true) {
                count += 1;
            }
        }
        counts.push(count);
    }
    counts
}

/// The labels of all places, and how many different ones were given out.
#[derive(Clone, Debug, PartialEq, Eq)]
pub struct Labels {
    gates: usize,
    of_slot: Vec<usize>,
    pub count: usize,
}

impl Labels {
    pub fn of(&self, place: Place) -> usize {
        self.of_slot[slot(place, self.gates)]
    }
}

/// Labels the places: a gate after the first gives back its own label, then its true place
/// and then its false place get the lowest free one unless they have theirs.
pub fn labels(gates: &[Gate]) -> Labels {
    let n = gates.len();
    let mut taken: Vec<bool> = Vec::new();
    let mut of_slot: Vec<Option<usize>> = vec![None; n + 2];
    for (k, gate) in gates.iter().enumerate() {
        if k == 0 {
            of_slot[0] = Some(0);
        } else {
            taken[of_slot[k].expect("an earlier gate names every gate after the first")] = false;
        }
        for place in [gate.true_place, gate.false_place] {
            of_slot[slot(place, n)].get_or_insert_with(|| take_lowest(&mut taken));
        }
    }
    let of_slot = of_slot
        .into_iter()
        .map(|label| label.expect("every place is named"))
        .collect();
    Labels {
        gates: n,
        of_slot,
        count: taken.len(),
    }
}

/// Takes the lowest free label.
fn take_lowest(taken: &mut Vec<bool>) -> usize {
    let label = taken.iter().position(|taken| !taken).unwrap_or(taken.len());
    taken.resize(taken.len().max(label + 1), true);
    taken[label] = true;
    label
}
