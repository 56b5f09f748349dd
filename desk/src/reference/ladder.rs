//! Document 01, "Tokens and grammar": "Loosest to tightest: ";" left, "->" at
//! most once, "||" left, "&&" left, one comparison at most, prefix "!" and "-",
//! atoms." What stands on a looser rung than its place allows needs
//! parentheses, "inside which the whole ladder starts again".

use super::tree::{Comparison, Join, Node, What};

/// The rungs, loosest first. Prefix operators and atoms share the last one:
/// where one of them may stand, the other may.
#[derive(Clone, Copy, PartialEq, Eq, PartialOrd, Ord, Debug)]
pub enum Rung {
    Sequence,
    Implication,
    Disjunction,
    Conjunction,
    Comparison,
    Prefix,
}

impl Join {
    /// All joins, loosest first.
    pub const ALL: [Join; 4] = [Join::Sequence, Join::Implies, Join::Or, Join::And];

    pub fn spelling(self) -> &'static str {
        match self {
            Join::Sequence => ";",
            Join::Implies => "->",
            Join::Or => "||",
            Join::And => "&&",
        }
    }

    pub fn rung(self) -> Rung {
        match self {
            Join::Sequence => Rung::Sequence,
            Join::Implies => Rung::Implication,
            Join::Or => Rung::Disjunction,
            Join::And => Rung::Conjunction,
        }
    }

    /// The loosest rungs that its left and its right operand may stand on.
    pub fn operand_rungs(self) -> (Rung, Rung) {
        match self {
            Join::Sequence => (Rung::Sequence, Rung::Implication),
            Join::Implies => (Rung::Disjunction, Rung::Disjunction),
            Join::Or => (Rung::Disjunction, Rung::Conjunction),
            Join::And => (Rung::Conjunction, Rung::Comparison),
        }
    }
}

impl Comparison {
    pub fn spelling(self) -> &'static str {
        match self {
            Comparison::Equal => "==",
            Comparison::NotEqual => "!=",
            Comparison::Greater => ">",
            Comparison::GreaterEqual => ">=",
            Comparison::Less => "<",
            Comparison::LessEqual => "<=",
        }
    }
}

impl Node<'_> {
    /// The rung that this node stands on without parentheses.
    pub fn rung(&self) -> Rung {
        match &self.what {
            What::Join(join, ..) => join.rung(),
            What::Compare(..) => Rung::Comparison,
            _ => Rung::Prefix,
        }
    }
}
