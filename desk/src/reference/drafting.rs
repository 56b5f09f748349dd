//! Document 02, request k: "Translate a contract, with a table of up to 16 user numbers
//! below 2^64 and names for up to 16 inputs, all exact keys of width 64, into a text."
//! "A conjunction opcode after an assertion continues the clause, joined from the left;
//! clauses are joined by ";". Exclusive or becomes "!=" of two bools. NOT becomes "!"
//! over its comparison or join. The text is the tree so made, printed as in a)." "An
//! empty contract gives "true"."

use super::keys::Key;
use super::numbers::{Base, Literal};
use super::pact::{Assertion, Clause, Linking, Load, Relation};
use super::tokens::MOST_TOKENS;
use super::tree::{Comparison, Join, Node, What};

/// An assertion takes three tokens at least: two operands and their comparison.
const TOKENS_OF_ASSERTION: usize = 3;

/// Has a text of these clauses more tokens than any text may have, whatever they say?
///
/// A contract has no limit of its own, but a tree of a very long one is not worth the
/// time that it takes.
pub fn surely_too_long(clauses: &[Clause]) -> bool {
    let assertions: usize = clauses.iter().map(|clause| 1 + clause.links.len()).sum();
    assertions * TOKENS_OF_ASSERTION > MOST_TOKENS
}

/// The tree of a contract. Nothing asks for the places of its nodes.
pub fn tree_of<'l>(clauses: &[Clause], names: &[Key<'l>], table: &[u64]) -> Node<'l> {
    let trees = clauses
        .iter()
        .map(|clause| clause_tree(clause, names, table));
    trees
        .reduce(|left, right| join(Join::Sequence, left, right))
        .unwrap_or(node(What::Bool(true)))
}

fn clause_tree<'l>(clause: &Clause, names: &[Key<'l>], table: &[u64]) -> Node<'l> {
    let mut tree = assertion_tree(clause.first, names, table);
    for (conjunction, assertion) in &clause.links {
        let right = assertion_tree(*assertion, names, table);
        let joined = match conjunction.linking {
            Linking::And => join(Join::And, tree, right),
            Linking::Or => join(Join::Or, tree, right),
            Linking::Xor => compare(Comparison::NotEqual, tree, right),
        };
        tree = inverted(conjunction.inverted, joined);
    }
    tree
}

fn assertion_tree<'l>(assertion: Assertion, names: &[Key<'l>], table: &[u64]) -> Node<'l> {
    let comparison = match assertion.comparator.relation {
        Relation::Equal => Comparison::Equal,
        Relation::Greater => Comparison::Greater,
        Relation::GreaterEqual => Comparison::GreaterEqual,
    };
    let key = |index: usize| node(What::Key(names[index].name));
    let right = match assertion.comparator.load {
        Load::User => number(table[assertion.right]),
        Load::Input => key(assertion.right),
    };
    let compared = compare(comparison, key(assertion.left), right);
    inverted(assertion.comparator.inverted, compared)
}

fn inverted<'l>(inverted: bool, tree: Node<'l>) -> Node<'l> {
    if inverted {
        node(What::Not(Box::new(tree)))
    } else {
        tree
    }
}

fn number<'l>(number: u64) -> Node<'l> {
    node(What::Number(Literal {
        base: Base::Decimal,
        number: u128::from(number),
    }))
}

fn compare<'l>(comparison: Comparison, left: Node<'l>, right: Node<'l>) -> Node<'l> {
    node(What::Compare(comparison, Box::new(left), Box::new(right)))
}

fn join<'l>(join: Join, left: Node<'l>, right: Node<'l>) -> Node<'l> {
    node(What::Join(join, Box::new(left), Box::new(right)))
}

fn node(what: What<'_>) -> Node<'_> {
    Node { place: 0, what }
}
