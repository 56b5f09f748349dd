//! Document 01, "Types and meaning": "Parentheses make no node; a node's place
//! is its operator ("::" counts as none here and in a print), else its first
//! token." Document 02, request e: "Trees that differ only in a base are now
//! different"; "address numerals stay decimal."

use super::numbers::Literal;

#[derive(Clone, PartialEq, Eq, Debug)]
pub struct Node<'t> {
    pub place: usize,
    pub what: What<'t>,
}

#[derive(Clone, PartialEq, Eq, Debug)]
pub enum What<'t> {
    Bool(bool),
    /// A numeral, or the number of an address in decimal.
    Number(Literal),
    Key(&'t [u8]),
    /// A key, "::" and a name. The node's place is the key's token.
    Field {
        key: &'t [u8],
        name: &'t [u8],
        name_place: usize,
    },
    /// "::" and a name. The node's place is the "::", its first token.
    Attribute {
        name: &'t [u8],
        name_place: usize,
    },
    Not(Box<Node<'t>>),
    Minus(Box<Node<'t>>),
    Compare(Comparison, Box<Node<'t>>, Box<Node<'t>>),
    Join(Join, Box<Node<'t>>, Box<Node<'t>>),
}

/// The comparisons; each stands at the index that its detail byte names.
#[derive(Clone, Copy, PartialEq, Eq, Debug)]
pub enum Comparison {
    Equal,
    NotEqual,
    Greater,
    GreaterEqual,
    Less,
    LessEqual,
}

/// The binary operators on bools.
#[derive(Clone, Copy, PartialEq, Eq, Debug)]
pub enum Join {
    Sequence,
    And,
    Or,
    Implies,
}

impl Comparison {
    pub const ALL: [Comparison; 6] = [
        Comparison::Equal,
        Comparison::NotEqual,
        Comparison::Greater,
        Comparison::GreaterEqual,
        Comparison::Less,
        Comparison::LessEqual,
    ];

    pub fn from_detail(detail: u8) -> Option<Comparison> {
        Comparison::ALL.get(usize::from(detail)).copied()
    }

    pub fn detail(self) -> u8 {
        self as u8
    }

    /// Is it one of ">", ">=", "<", "<="?
    pub fn is_ordering(self) -> bool {
        !matches!(self, Comparison::Equal | Comparison::NotEqual)
    }
}

impl Node<'_> {
    /// The number of nodes of the tree under this one, itself included.
    pub fn count(&self) -> usize {
        match &self.what {
            What::Not(inner) | What::Minus(inner) => 1 + inner.count(),
            What::Compare(_, left, right) | What::Join(_, left, right) => {
                1 + left.count() + right.count()
            }
            _ => 1,
        }
    }
}
