//! Positive form: complements stand on numbers only, every operator is a union or an
//! intersection, and left and right keep their sides.

use crate::typed::{Sign, Typed};

#[derive(Clone, Copy, Debug, PartialEq, Eq)]
pub enum Kind {
    Union,
    Intersection,
}

impl Kind {
    fn opposite(self) -> Kind {
        match self {
            Kind::Union => Kind::Intersection,
            Kind::Intersection => Kind::Union,
        }
    }
}

#[derive(Clone, Copy, Debug, PartialEq, Eq)]
pub enum Sense {
    Plain,
    Complemented,
}

#[derive(Clone, Copy, Debug, PartialEq, Eq)]
pub struct Literal {
    pub primitive: u16,
    pub sense: Sense,
    /// The number of this occurrence as typed, from 0.
    pub occurrence: usize,
}

#[derive(Clone, Debug, PartialEq, Eq)]
pub enum Node {
    Literal(Literal),
    Operator(Box<Operator>),
}

#[derive(Clone, Debug, PartialEq, Eq)]
pub struct Operator {
    pub kind: Kind,
    pub left: Node,
    pub right: Node,
    literals: usize,
}

impl Operator {
    /// Exchanges the two children.
    pub fn turn(&mut self) {
        std::mem::swap(&mut self.left, &mut self.right);
    }
}

impl Node {
    pub fn join(kind: Kind, left: Node, right: Node) -> Node {
        let literals = left.literals() + right.literals();
        Node::Operator(Box::new(Operator {
            kind,
            left,
            right,
            literals,
        }))
    }

    pub fn literals(&self) -> usize {
        match self {
            Node::Literal(_) => 1,
            Node::Operator(operator) => operator.literals,
        }
    }
}

pub fn positive(typed: &Typed) -> Node {
    form(typed, false)
}

/// The positive form of the expression, or of its complement.
fn form(typed: &Typed, complement: bool) -> Node {
    match typed {
        &Typed::Number {
            primitive,
            occurrence,
        } => {
            let sense = if complement {
                Sense::Complemented
            } else {
                Sense::Plain
            };
            Node::Literal(Literal {
                primitive,
                sense,
                occurrence,
            })
        }
        Typed::Complement { times, of } => form(of, complement ^ (times % 2 == 1)),
        Typed::Joined { sign, left, right } => {
            let (kind, right_complement) = match sign {
                Sign::Union => (Kind::Union, complement),
                Sign::Intersection => (Kind::Intersection, complement),
                Sign::Difference => (Kind::Intersection, !complement),
            };
            let kind = if complement { kind.opposite() } else { kind };
            Node::join(kind, form(left, complement), form(right, right_complement))
        }
    }
}
