//! Document 01, "Types and meaning": the value of a typed tree on an entry that
//! conforms, worked out from the tree alone.

use super::entries::Entry;
use super::keys::Key;
use super::types::Typed;
use super::values::Value;

/// Is the restriction true of the entry?
pub fn holds(tree: &Typed, keys: &[Key], entry: &Entry) -> bool {
    value(tree, keys, entry).truth()
}

fn value(tree: &Typed, keys: &[Key], entry: &Entry) -> Value {
    let of = |inner: &Typed| value(inner, keys, entry);
    match tree {
        Typed::Bool(truth) => Value::Bool(*truth),
        Typed::Number(number) => Value::number(*number),
        Typed::Key(index) => Value::of_key(*index, keys, entry),
        Typed::Field(index, field) => Value::of_field(*index, *field, keys, entry),
        Typed::Priority => Value::priority(entry),
        Typed::Not(inner) => of(inner).opposite(),
        Typed::Minus(inner) => of(inner).minus(),
        Typed::Convert(to, inner) => of(inner).convert(*to),
        Typed::Compare(comparison, left, right) => of(left).compare(*comparison, of(right)),
        Typed::Join(join, left, right) => of(left).join(*join, of(right)),
    }
}
