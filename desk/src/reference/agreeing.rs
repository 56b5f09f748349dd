//! Document 02, request l: the blocks "are our translation of the same top-level
//! parts, each used once, in some order, joined from the left." "Skips are those g)
//! would place."
//!
//! Code that is joined from the left is a first part, and behind it the others as the
//! right operands of joins. The skip before such an operand says where it ends, so
//! that the first part alone can be cut off in several ways: each is tried.

use super::answers::Refusal;
use super::code::{in_parts, Instruction, Parts};
use super::keys::Key;
use super::parts::typed_parts;
use super::translating::{instructions, skip_of};
use super::tree::Join;

/// The code of a part, or of several that are joined.
pub type Code = Vec<Parts>;

/// The code of each top-level part of a good text.
pub fn part_codes(text: &[u8], keys: &[Key]) -> Result<Vec<Code>, Refusal> {
    let trees = typed_parts(text, keys)?;
    Ok(trees
        .iter()
        .map(|tree| in_parts(&instructions(tree)))
        .collect())
}

/// Is this the code of these parts, each used once, in some order, joined from the left?
pub fn is_in_some_order(code: &[Parts], parts: &[Code]) -> bool {
    let mut parts = parts.to_vec();
    parts.sort_unstable();
    (0..parts.len())
        // Of equal parts any may be the first.
        .filter(|&first| first == 0 || parts[first] != parts[first - 1])
        .any(|first| begins_with(code, &parts, first))
}

/// Is it the code of these sorted parts with this one as the first?
fn begins_with(code: &[Parts], parts: &[Code], first: usize) -> bool {
    let behind = code.strip_prefix(&parts[first][..]);
    let Some(mut found) = behind.and_then(right_operands) else {
        return false;
    };
    found.sort_unstable();
    let others = parts[..first].iter().chain(&parts[first + 1..]);
    found.into_iter().eq(others.map(|part| &part[..]))
}

/// The right operands of the joins that this code behind a left operand is made of;
/// none if it is made of anything else.
fn right_operands(mut code: &[Parts]) -> Option<Vec<&[Parts]>> {
    let mut found = Vec::new();
    while let [skip, behind @ ..] = code {
        let landing = usize::from(skip.operand);
        let (passed, landed) = behind.split_at_checked(landing)?;
        let (join, right) = passed.split_last()?;
        let placed = skip_of(Join::Sequence, right.len());
        if *skip != Instruction::Skip(placed).parts() {
            return None;
        }
        if *join != Instruction::Join(Join::Sequence).parts() {
            return None;
        }
        found.push(right);
        code = landed;
    }
    Some(found)
}
