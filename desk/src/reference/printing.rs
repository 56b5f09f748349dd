//! Document 02, request a: "Print a read text in one form: one blank on each
//! side of a binary operator and none elsewhere, numerals in decimal, only
//! parentheses that the grammar needs, no trailing ";", and ";" kept distinct
//! from "&&". An address counts, in tree and print, as the decimal numeral of
//! its number." And document 01: "::" counts as no operator in a print.
//! Request e, of numerals: "The print then uses that base with lower-case digits
//! and prefix (none for decimal), without leading zeros."

use super::ladder::Rung;
use super::numbers::{Base, Literal};
use super::tree::{Node, What};

/// The print of a tree, of whatever length.
pub fn print_of(tree: &Node) -> Vec<u8> {
    match &tree.what {
        What::Bool(truth) => truth.to_string().into_bytes(),
        What::Number(literal) => numeral_of(*literal).into_bytes(),
        What::Key(key) => key.to_vec(),
        What::Field { key, name, .. } => [*key, b"::", *name].concat(),
        What::Attribute { name, .. } => [b"::", *name].concat(),
        What::Not(operand) => prefixed("!", operand),
        What::Minus(operand) => prefixed("-", operand),
        What::Compare(comparison, left, right) => {
            let [left, right] = [left, right].map(|side| operand(side, Rung::Prefix));
            spaced(left, comparison.spelling(), right)
        }
        What::Join(join, left, right) => {
            let (of_left, of_right) = join.operand_rungs();
            spaced(
                operand(left, of_left),
                join.spelling(),
                operand(right, of_right),
            )
        }
    }
}

fn numeral_of(Literal { base, number }: Literal) -> String {
    match base {
        Base::Decimal => format!("{number}"),
        Base::Binary => format!("0b{number:b}"),
        Base::Hex => format!("0x{number:x}"),
    }
}

fn prefixed(operator: &str, inner: &Node) -> Vec<u8> {
    [operator.as_bytes(), &operand(inner, Rung::Prefix)].concat()
}

fn spaced(left: Vec<u8>, operator: &str, right: Vec<u8>) -> Vec<u8> {
    [&left[..], b" ", operator.as_bytes(), b" ", &right].concat()
}

/// An operand where nothing looser than this rung may stand by itself.
fn operand(node: &Node, loosest: Rung) -> Vec<u8> {
    let print = print_of(node);
    if node.rung() < loosest {
        [b"(", &print[..], b")"].concat()
    } else {
        print
    }
}
