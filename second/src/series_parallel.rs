//! All series-parallel expressions of few literals (the functions of [Young] in docs/scope.md):
//! every tree of unions and intersections, in every order and grouping, each primitive once.

use crate::positive::Kind;

/// The literals are the primitives 0, 1, 2 and so on, from left to right.
#[derive(Clone)]
pub enum Tree {
    Literal(usize),
    Joined(Kind, Box<(Tree, Tree)>),
}

/// All trees of so many literals.
pub fn trees(literals: usize) -> Vec<Tree> {
    trees_from(0, literals)
}

/// All trees of so many literals, the first of them being this one.
fn trees_from(first: usize, literals: usize) -> Vec<Tree> {
    if literals == 1 {
        return vec![Tree::Literal(first)];
    }
    let mut all = Vec::new();
    for left_literals in 1..literals {
        let rights = trees_from(first + left_literals, literals - left_literals);
        for left in trees_from(first, left_literals) {
            for right in &rights {
                for kind in [Kind::Union, Kind::Intersection] {
                    let children = Box::new((left.clone(), right.clone()));
                    all.push(Tree::Joined(kind, children));
                }
            }
        }
    }
    all
}

impl Tree {
    /// The tree as a text, every operator but the first in parentheses.
    pub fn text(&self) -> String {
        let enclosed = |child: &Tree| match child {
            Tree::Literal(_) => child.text(),
            Tree::Joined(..) => format!("({})", child.text()),
        };
        match self {
            Tree::Literal(number) => number.to_string(),
            Tree::Joined(kind, children) => {
                let sign = match kind {
                    Kind::Union => '+',
                    Kind::Intersection => '*',
                };
                format!("{}{sign}{}", enclosed(&children.0), enclosed(&children.1))
            }
        }
    }

    /// The tree's truth; bit i of the inputs is the truth of literal i.
    pub fn truth(&self, inputs: usize) -> bool {
        match self {
            Tree::Literal(number) => inputs >> number & 1 == 1,
            Tree::Joined(kind, children) => {
                let (left, right) = (children.0.truth(inputs), children.1.truth(inputs));
                match kind {
                    Kind::Union => left || right,
                    Kind::Intersection => left && right,
                }
            }
        }
    }

    /// The shape: what is left if neither the order of operands nor the grouping of like
    /// operators counts. Two trees are alike as functions, up to the names of their
    /// literals, if their shapes are equal.
    pub fn shape(&self) -> String {
        match self {
            Tree::Literal(_) => "1".to_string(),
            Tree::Joined(kind, _) => {
                let mut operands = self.operands(*kind);
                operands.sort_unstable();
                let sign = if *kind == Kind::Union { '+' } else { '*' };
                format!("{sign}({})", operands.concat())
            }
        }
    }

    /// The shapes of the operands that operators of one kind join, with none between.
    fn operands(&self, joining: Kind) -> Vec<String> {
        match self {
            Tree::Joined(kind, children) if *kind == joining => {
                let mut operands = children.0.operands(joining);
                operands.extend(children.1.operands(joining));
                operands
            }
            _ => vec![self.shape()],
        }
    }
}
