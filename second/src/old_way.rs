//! The old way to fewer labels, for comparison: from the typed order, turn one operator at
//! a time as long as some single turn lowers the label count of the whole expression.

use crate::positive::{positive, Node};
use crate::refusal::Refusal;
use crate::weaving::{self, Gate, Labels};
use crate::{layout, reading};

/// Where the old way stops: after how many turns, with which gates and labels.
pub struct Stop {
    pub turns: usize,
    pub gates: Vec<Gate>,
    pub labels: Labels,
}

/// Where the old way stops for a text that refusals 1 to 6 let pass.
pub fn stop(text: &[u8]) -> Result<Stop, Refusal> {
    Ok(old_way(positive(&reading::read(text)?)))
}

/// The table of the expression as the old way leaves it, if refusals 1 to 7 let it pass.
pub fn table(text: &[u8]) -> Result<Vec<u8>, Refusal> {
    let stop = stop(text)?;
    if stop.labels.count > layout::MOST_LABELS {
        return Err(Refusal::new(7, 0));
    }
    Ok(layout::write(&stop.gates, &stop.labels))
}

/// Follows the old way. If several turns help, the first is taken, counting an operator
/// before those in its left child, and those before the ones in its right child.
pub fn old_way(mut node: Node) -> Stop {
    let mut turns = 0;
    while let Some(operator) = helpful_turns(&node).next() {
        turn_at(&mut node, operator);
        turns += 1;
    }
    let gates = weaving::gates(&node);
    let labels = weaving::labels(&gates);
    Stop {
        turns,
        gates,
        labels,
    }
}

/// The label count of an expression left as it stands.
pub fn label_count(node: &Node) -> usize {
    weaving::labels(&weaving::gates(node)).count
}

/// The operators whose single turn lowers the label count of the whole expression.
pub fn helpful_turns(node: &Node) -> impl Iterator<Item = usize> {
    let before = label_count(node);
    let operators = node.literals() - 1;
    let mut node = node.clone();
    (0..operators).filter(move |&operator| {
        turn_at(&mut node, operator);
        let after = label_count(&node);
        turn_at(&mut node, operator);
        after < before
    })
}

/// Turns the operator of this number; a second call undoes the first.
pub fn turn_at(mut node: &mut Node, mut number: usize) {
    while let Node::Operator(operator) = node {
        if number == 0 {
            operator.turn();
            return;
        }
        number -= 1;
        let in_left = operator.left.literals() - 1;
        node = if number < in_left {
            &mut operator.left
        } else {
            number -= in_left;
            &mut operator.right
        };
    }
}
