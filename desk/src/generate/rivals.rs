//! Blocks that another translator may make of a text: its parts in another order, or
//! something that is nearly that.

use super::rng::Rng;
use super::{blocks, programs, skips};
use crate::lists::{list_bytes, NamedKey};
use crate::reference::agreeing::{part_codes, Code};
use crate::reference::blocks::blocks_of;
use crate::reference::code::{Instruction, Parts};
use crate::reference::keys::Key;
use crate::reference::parts::parts;
use crate::reference::translating::skip_of;
use crate::reference::tree::Join;
use crate::reference::{load, Answer};

/// What another translator does with the parts of a text.
#[derive(Clone, Copy, PartialEq, Eq, PartialOrd, Ord, Debug)]
pub enum Rival {
    /// It leaves them as they stand.
    InOrder,
    Reordered,
    /// It leaves one out.
    Dropped,
    /// It uses one twice.
    Doubled,
    /// It uses one in the place of another.
    Exchanged,
    /// It joins the last ones first, some or all.
    JoinedFromRight,
    /// One of its joins is another.
    OtherJoin,
    /// It takes sequences in parentheses apart.
    Flattened,
    /// It places no skips, or leaves one out.
    WithoutSkips,
    /// One of its skips lands elsewhere.
    OtherLanding,
    /// A byte of an instruction is another.
    OtherByte,
    /// Its key list is another.
    OtherList,
    /// Its blocks are damaged.
    Damaged,
}

impl Rival {
    pub const ALL: [Rival; 13] = [
        Rival::InOrder,
        Rival::Reordered,
        Rival::Dropped,
        Rival::Doubled,
        Rival::Exchanged,
        Rival::JoinedFromRight,
        Rival::OtherJoin,
        Rival::Flattened,
        Rival::WithoutSkips,
        Rival::OtherLanding,
        Rival::OtherByte,
        Rival::OtherList,
        Rival::Damaged,
    ];

    /// Any of them; the one that should agree is met more often.
    pub fn any(rng: &mut Rng) -> Rival {
        if rng.one_in(4) {
            Rival::Reordered
        } else {
            rng.pick(&Rival::ALL)
        }
    }
}

/// The rival's blocks for this text; none if it has no good tree and types with these
/// keys.
pub fn blocks(rng: &mut Rng, rival: Rival, text: &[u8], keys: &[NamedKey]) -> Option<Vec<u8>> {
    if rival == Rival::OtherList {
        let others = other_keys(rng, keys);
        return Some(blocks_of(&from_left(&codes(text, &others)?), others.len()));
    }
    let mut row = codes(text, keys)?;
    if rival != Rival::InOrder {
        reorder(rng, &mut row);
    }
    let code = match rival {
        Rival::InOrder | Rival::Reordered | Rival::OtherList | Rival::Damaged => from_left(&row),
        Rival::Dropped | Rival::Doubled | Rival::Exchanged => {
            use_wrongly(rng, rival, &mut row);
            from_left(&row)
        }
        Rival::JoinedFromRight => from_right(rng, &row),
        Rival::OtherJoin => with_another_join(rng, &row),
        Rival::Flattened => from_left(&flattened(rng, text, keys)?),
        Rival::WithoutSkips => with_fewer_skips(rng, &row),
        Rival::OtherLanding => skips::land_elsewhere(rng, &from_left(&row), keys),
        Rival::OtherByte => with_another_byte(rng, &from_left(&row), keys),
    };
    let mut made = blocks_of(&code, keys.len());
    if rival == Rival::Damaged {
        blocks::damage(rng, &mut made);
    }
    Some(made)
}

/// The code of each part of a text that is good with these keys.
fn codes(text: &[u8], keys: &[NamedKey]) -> Option<Vec<Code>> {
    let lent: Vec<Key> = keys.iter().map(NamedKey::key).collect();
    part_codes(text, &lent).ok()
}

/// These codes joined from the left as ";" joins them.
pub fn from_left(row: &[Code]) -> Code {
    let mut codes = row.iter();
    let first = codes.next().cloned().unwrap_or_default();
    codes.fold(first, |left, right| joined(left, Join::Sequence, right))
}

fn joined(mut left: Code, join: Join, right: &[Parts]) -> Code {
    left.push(Instruction::Skip(skip_of(join, right.len())).parts());
    left.extend_from_slice(right);
    left.push(Instruction::Join(join).parts());
    left
}

fn reorder(rng: &mut Rng, row: &mut [Code]) {
    let (one, other) = (rng.below(row.len()), rng.below(row.len()));
    match rng.below(6) {
        0 => row.reverse(),
        1 => row.rotate_left(one),
        2 => row.swap(one, other),
        // The cheap ones first, or last.
        3 => row.sort_by_key(Vec::len),
        4 => row.sort_by_key(|code| usize::MAX - code.len()),
        _ => {
            for end in (1..row.len()).rev() {
                row.swap(rng.below(end + 1), end);
            }
        }
    }
}

/// A part is left out, used twice, or used in the place of another.
fn use_wrongly(rng: &mut Rng, rival: Rival, row: &mut Vec<Code>) {
    let (one, other) = (rng.below(row.len()), rng.below(row.len()));
    let used = if row.len() == 1 {
        programs::bool_chain(rng, 2)
    } else {
        row[one].clone()
    };
    match rival {
        Rival::Dropped if row.len() > 1 => {
            row.remove(one);
        }
        Rival::Doubled => row.insert(other, used),
        _ => row[other] = used,
    }
}

/// All codes are joined from the right, or some of the last by themselves first. Where
/// all are, each of the others is held until the last one is there.
fn from_right(rng: &mut Rng, row: &[Code]) -> Code {
    if rng.one_in(3) {
        let mut codes = row.iter().rev();
        let last = codes.next().cloned().unwrap_or_default();
        return codes.fold(last, |right, left| {
            joined(left.clone(), Join::Sequence, &right)
        });
    }
    let (front, last) = row.split_at(rng.below(row.len().saturating_sub(1).max(1)));
    let last = from_left(last);
    if front.is_empty() {
        return last;
    }
    joined(from_left(front), Join::Sequence, &last)
}

/// One of the joins is "or" or "implies", with its own skip or with that of "and".
fn with_another_join(rng: &mut Rng, row: &[Code]) -> Code {
    let place = rng.below(row.len());
    let join = rng.pick(&[Join::Or, Join::Implies]);
    let own_skip = rng.one_in(2);
    let (front, behind) = row.split_at(place);
    let mut code = from_left(front);
    for (index, right) in behind.iter().enumerate() {
        if code.is_empty() {
            code = right.clone();
        } else if index == 0 && own_skip {
            code = joined(code, join, right);
        } else {
            code = joined(code, Join::Sequence, right);
            if index == 0 {
                code.pop();
                code.push(Instruction::Join(join).parts());
            }
        }
    }
    code
}

/// The parts of the text with those of each sequence in parentheses in its place; most
/// often they are then in another order.
fn flattened(rng: &mut Rng, text: &[u8], keys: &[NamedKey]) -> Option<Vec<Code>> {
    let mut row = Vec::new();
    for part in parts(text).ok()? {
        let inside = part
            .piece
            .bytes
            .strip_prefix(b"(")
            .and_then(|bytes| bytes.strip_suffix(b")"))
            .and_then(|inside| codes(inside, keys));
        match inside {
            Some(codes) => row.extend(codes),
            None => row.extend(codes(part.piece.bytes, keys)?),
        }
    }
    if !rng.one_in(3) {
        reorder(rng, &mut row);
    }
    Some(row)
}

/// As it was made before there were skips, or with one skip of a join between parts
/// left out.
fn with_fewer_skips(rng: &mut Rng, row: &[Code]) -> Code {
    let whole = from_left(row);
    if row.len() == 1 || rng.one_in(2) {
        return skips::without(&whole);
    }
    let mut code = whole;
    let before = from_left(&row[..rng.between(1, row.len() - 1)]).len();
    code.remove(before);
    code
}

/// One byte of an instruction is another one, most often so that the code still loads.
fn with_another_byte(rng: &mut Rng, code: &[Parts], keys: &[NamedKey]) -> Code {
    const TRIALS: usize = 12;
    let list = list_bytes(keys);
    let trials = if rng.one_in(4) { 1 } else { TRIALS };
    let mut changed = code.to_vec();
    for _ in 0..trials {
        let index = rng.below(code.len());
        changed = code.to_vec();
        changed[index] = other_byte(rng, code[index]);
        if matches!(
            load(&list, &blocks_of(&changed, keys.len())),
            Answer::Loaded(_)
        ) {
            break;
        }
    }
    changed
}

/// One of the bytes that count is changed, or any other.
fn other_byte(rng: &mut Rng, parts: Parts) -> Parts {
    const DETAIL: usize = 1;
    const OPERAND_END: usize = 3;
    const CONSTANT: usize = 4;
    let mut bytes = parts.to_bytes();
    let last = bytes.len() - 1;
    let any = rng.below(bytes.len());
    let place = rng.pick(&[0, DETAIL, OPERAND_END, CONSTANT, last, any]);
    bytes[place] ^= match rng.below(3) {
        0 => 1,
        1 => rng.between(1, 7) as u8,
        _ => 1 << rng.below(8),
    };
    Parts::from_bytes(&bytes)
}

/// The keys in another order, one more or fewer, or one of another width: it may be that
/// a text means the same with them, and that its blocks are the same.
fn other_keys(rng: &mut Rng, keys: &[NamedKey]) -> Vec<NamedKey> {
    let mut others = keys.to_vec();
    if others.is_empty() {
        return others;
    }
    let (one, other) = (rng.below(keys.len()), rng.below(keys.len()));
    match rng.below(12) {
        0 if keys.len() < Key::MOST => {
            let mut more = keys[one].clone();
            more.name = b"one.more".to_vec();
            others.push(more);
        }
        1 => {
            others.pop();
        }
        2 => others[one].width = rng.between(1, usize::from(Key::WIDEST)) as u8,
        3 => others[one].kind = keys[other].kind,
        4 => others.reverse(),
        5 => others.swap(one, other),
        _ => exchange_alike(&mut others),
    }
    others
}

/// Exchanges each key with the next one of its type, so that blocks load with either.
fn exchange_alike(keys: &mut [NamedKey]) {
    for one in 0..keys.len() {
        let same_type = |key: &NamedKey| (key.kind, key.width) == (keys[one].kind, keys[one].width);
        let next = (one + 1..keys.len()).find(|&other| same_type(&keys[other]));
        if let Some(other) = next {
            keys.swap(one, other);
        }
    }
}
