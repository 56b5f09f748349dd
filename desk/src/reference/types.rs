//! Document 01, "Types and meaning": "Types: bool, int, bit<W>, and ternary,
//! lpm, range, optional of W." "Operands are typed left, right, then the
//! operator. An operator is judged only when its operands have types." Refusals
//! 11 to 14. Document 02, request j, adds refusal 23 "once both operands have types
//! that suit the operator; such a comparison has no type, so nothing above it is
//! judged."

use super::answers::Refusal;
use super::bits::keeps_bits;
use super::fields::Field;
use super::keys::{find, Key, Kind};
use super::tree::{Comparison, Join, Node, What};

#[derive(Clone, Copy, PartialEq, Eq, Debug)]
pub enum Type {
    Bool,
    Int,
    Bits(u8),
    /// A bare key that is not exact: its kind and width.
    Match(Kind, u8),
}

/// A tree whose types are good: keys are known by index, and each operand that
/// must change its type stands under a conversion.
#[derive(Clone, PartialEq, Eq, Debug)]
pub enum Typed {
    Bool(bool),
    Number(u128),
    Key(usize),
    Field(usize, Field),
    Priority,
    Not(Box<Typed>),
    Minus(Box<Typed>),
    Convert(Type, Box<Typed>),
    Compare(Comparison, Box<Typed>, Box<Typed>),
    Join(Join, Box<Typed>, Box<Typed>),
}

type Typing = Result<(Typed, Type), Refusal>;

/// Types a whole text: stage 11 to 13 and 23, then stage 14.
pub fn typed_text(root: &Node, keys: &[Key]) -> Result<Typed, Refusal> {
    match typed(root, keys)? {
        (tree, Type::Bool) => Ok(tree),
        _ => Err(Refusal::text(14, root.place)),
    }
}

fn typed(node: &Node, keys: &[Key]) -> Typing {
    match &node.what {
        What::Bool(truth) => Ok((Typed::Bool(*truth), Type::Bool)),
        What::Number(literal) => Ok((Typed::Number(literal.number), Type::Int)),
        What::Key(name) => {
            let index = known_key(name, node.place, keys)?;
            Ok((Typed::Key(index), keys[index].bare_type()))
        }
        What::Field {
            key,
            name,
            name_place,
        } => {
            let index = known_key(key, node.place, keys)?;
            typed_field(index, name, *name_place, keys)
        }
        What::Attribute { name, name_place } => match *name {
            b"priority" => Ok((Typed::Priority, Type::Int)),
            _ => Err(Refusal::text(12, *name_place)),
        },
        What::Not(inner) => typed_not(node.place, inner, keys),
        What::Minus(inner) => typed_minus(node.place, inner, keys),
        What::Compare(comparison, left, right) => {
            typed_comparison(node.place, *comparison, left, right, keys)
        }
        What::Join(join, left, right) => typed_join(node.place, *join, left, right, keys),
    }
}

fn known_key(name: &[u8], place: usize, keys: &[Key]) -> Result<usize, Refusal> {
    find(keys, name).ok_or(Refusal::text(11, place))
}

fn typed_field(index: usize, name: &[u8], name_place: usize, keys: &[Key]) -> Typing {
    let key = &keys[index];
    let field = Field::named(name)
        .filter(|field| field.belongs_to(key.kind))
        .ok_or(Refusal::text(12, name_place))?;
    Ok((Typed::Field(index, field), field.type_at(key.width)))
}

fn typed_not(place: usize, inner: &Node, keys: &[Key]) -> Typing {
    match typed(inner, keys)? {
        (tree, Type::Bool) => Ok((Typed::Not(Box::new(tree)), Type::Bool)),
        _ => Err(Refusal::text(13, place)),
    }
}

fn typed_minus(place: usize, inner: &Node, keys: &[Key]) -> Typing {
    match typed(inner, keys)? {
        (tree, held) if can_negate(held) => Ok((Typed::Minus(Box::new(tree)), held)),
        _ => Err(Refusal::text(13, place)),
    }
}

fn typed_join(place: usize, join: Join, left: &Node, right: &Node, keys: &[Key]) -> Typing {
    let (left, left_type) = typed(left, keys)?;
    let (right, right_type) = typed(right, keys)?;
    if (left_type, right_type) != (Type::Bool, Type::Bool) {
        return Err(Refusal::text(13, place));
    }
    let tree = Typed::Join(join, Box::new(left), Box::new(right));
    Ok((tree, Type::Bool))
}

fn typed_comparison(
    place: usize,
    comparison: Comparison,
    left_node: &Node,
    right_node: &Node,
    keys: &[Key],
) -> Typing {
    let (left, left_type) = typed(left_node, keys)?;
    let (right, right_type) = typed(right_node, keys)?;
    let common = meeting_type(left_type, right_type)
        .filter(|&common| can_compare(comparison, common))
        .ok_or(Refusal::text(13, place))?;
    keeps_bits(left_node, right_type)?;
    keeps_bits(right_node, left_type)?;
    let left = converted(left, left_type, common);
    let right = converted(right, right_type, common);
    let tree = Typed::Compare(comparison, Box::new(left), Box::new(right));
    Ok((tree, Type::Bool))
}

/// "-" takes int, or bit<W>.
pub fn can_negate(held: Type) -> bool {
    matches!(held, Type::Int | Type::Bits(_))
}

/// May two operands of this one type be compared so?
///
/// "==" and "!=" take all equal types; ordering takes int and bit<W>.
pub fn can_compare(comparison: Comparison, common: Type) -> bool {
    !comparison.is_ordering() || matches!(common, Type::Int | Type::Bits(_))
}

/// May a value of the first type become one of the second?
///
/// An int becomes bit<W> or a match; a bit<W> becomes a match of that W.
pub fn can_convert(from: Type, to: Type) -> bool {
    match (from, to) {
        (Type::Int, Type::Bits(_) | Type::Match(..)) => true,
        (Type::Bits(width), Type::Match(_, of_key)) => width == of_key,
        _ => false,
    }
}

/// The type that both operands of a comparison take on, if they may meet.
fn meeting_type(left: Type, right: Type) -> Option<Type> {
    if left == right || can_convert(right, left) {
        Some(left)
    } else if can_convert(left, right) {
        Some(right)
    } else {
        None
    }
}

fn converted(tree: Typed, from: Type, to: Type) -> Typed {
    if from == to {
        tree
    } else {
        Typed::Convert(to, Box::new(tree))
    }
}
