//! Pricing and turning: each node's price tag, and the exchange of children wherever the
//! exchanged row of costs is strictly smaller. Children are settled before their parent.

use crate::positive::{Kind, Node};

/// A price tag: a mark and the costs c1, c2, c3.
#[derive(Clone, Copy, Debug, PartialEq, Eq)]
pub struct Tag {
    pub mark: bool,
    pub costs: [usize; 3],
}

const LEAF: Tag = Tag {
    mark: true,
    costs: [1, 0, 2],
};

impl Tag {
    /// The tag of an operator whose children carry these tags.
    pub fn of(kind: Kind, left: Tag, right: Tag) -> Tag {
        let mark = kind == Kind::Intersection;
        let [l1, l2, l3] = left.costs;
        let [r1, r2, r3] = right.costs;
        let (left_alike, right_alike) = (left.mark == mark, right.mark == mark);
        let c1 = if left_alike { l1 } else { l1.max(l2) };
        let mut c2 = l3.max(r1 + 1);
        if left_alike {
            c2 = c2.max(l2);
        }
        if right_alike {
            c2 = c2.max(r2);
        }
        let c3 = if right_alike { r3 } else { r3.max(r2 + 1) };
        Tag {
            mark,
            costs: [c1, c2, c3],
        }
    }

    /// The three costs, largest first.
    pub fn row(&self) -> [usize; 3] {
        let mut row = self.costs;
        row.sort_unstable_by(|a, b| b.cmp(a));
        row
    }
}

/// Turns the whole expression and answers the tag it ends with.
pub fn turn(node: &mut Node) -> Tag {
    let operator = match node {
        Node::Literal(_) => return LEAF,
        Node::Operator(operator) => operator,
    };
    let left = turn(&mut operator.left);
    let right = turn(&mut operator.right);
    let standing = Tag::of(operator.kind, left, right);
    let exchanged = Tag::of(operator.kind, right, left);
    if exchanged.row() < standing.row() {
        operator.turn();
        exchanged
    } else {
        standing
    }
}

/// The tag of an expression left as it stands.
pub fn standing(node: &Node) -> Tag {
    match node {
        Node::Literal(_) => LEAF,
        Node::Operator(operator) => Tag::of(
            operator.kind,
            standing(&operator.left),
            standing(&operator.right),
        ),
    }
}
