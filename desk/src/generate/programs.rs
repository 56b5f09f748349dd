//! Random instruction sequences that load, most of which no translator makes;
//! sequences at the limits; and sequences with a wrong instruction.

use super::entries::value;
use super::rng::Rng;
use super::skips;
use crate::lists::NamedKey;
use crate::reference::blocks::{INSTRUCTIONS_IN_BLOCK, MOST_BLOCKS};
use crate::reference::code::{in_parts, Instruction, Parts};
use crate::reference::entries::Entry;
use crate::reference::fields::Field;
use crate::reference::keys::Kind;
use crate::reference::loading::MOST_HELD;
use crate::reference::tree::{Comparison, Join};
use crate::reference::types::Type;

pub const JOINS: [Join; 3] = [Join::And, Join::Or, Join::Implies];

/// A sequence that loads against these keys, with about so many joins.
pub fn good(rng: &mut Rng, keys: &[NamedKey], entry: &Entry, joins: usize) -> Vec<Parts> {
    let mut writer = Writer {
        rng,
        keys,
        entry,
        code: Vec::new(),
    };
    writer.boolean(joins);
    in_parts(&writer.code)
}

struct Writer<'a> {
    rng: &'a mut Rng,
    keys: &'a [NamedKey],
    entry: &'a Entry,
    code: Vec<Instruction>,
}

impl Writer<'_> {
    fn boolean(&mut self, joins: usize) {
        if joins > 0 {
            let of_left = self.rng.below(joins);
            self.boolean(of_left);
            self.boolean(joins - 1 - of_left);
            let join = self.rng.pick(&JOINS);
            self.code.push(Instruction::Join(join));
        } else if self.rng.one_in(6) {
            let truth = self.rng.one_in(2);
            self.code.push(Instruction::PushBool(truth));
        } else {
            self.comparison();
        }
        while self.rng.one_in(8) {
            self.code.push(Instruction::Not);
        }
    }

    fn comparison(&mut self) {
        let held = self.any_type();
        self.operand(held);
        self.operand(held);
        let comparisons = match held {
            Type::Int | Type::Bits(_) => &Comparison::ALL[..],
            Type::Bool | Type::Match(..) => &Comparison::ALL[..2],
        };
        let comparison = self.rng.pick(comparisons);
        self.code.push(Instruction::Compare(comparison));
    }

    fn any_type(&mut self) -> Type {
        let key = match self.keys {
            [] => NamedKey::new(b"k", self.rng.pick(&Kind::ALL), 128),
            keys => self.rng.pick_ref(keys).clone(),
        };
        let width = if self.rng.one_in(5) {
            self.rng.between(1, 128) as u8
        } else {
            key.width
        };
        match self.rng.below(10) {
            0 => Type::Bool,
            1 | 2 => Type::Int,
            3..=5 => Type::Bits(width),
            _ if key.kind == Kind::Exact => Type::Bits(width),
            _ => Type::Match(key.kind, width),
        }
    }

    fn operand(&mut self, held: Type) {
        match held {
            Type::Bool => self.boolean(0),
            Type::Int => self.int(),
            Type::Bits(width) => self.bits(width),
            Type::Match(kind, width) => self.bare(kind, width),
        }
    }

    fn int(&mut self) {
        let lpm = self.pick_key(|key| key.kind == Kind::Lpm);
        let push = match (self.rng.below(6), lpm) {
            (0, _) => Instruction::PushPriority,
            (1, Some(index)) => Instruction::PushField(index, Field::PrefixLength),
            _ => Instruction::PushInt(self.constant()),
        };
        self.code.push(push);
        self.negate();
    }

    fn negate(&mut self) {
        while self.rng.one_in(5) {
            self.code.push(Instruction::Negate);
        }
    }

    /// A constant, often one of the entry's numbers.
    fn constant(&mut self) -> u128 {
        if self.entry.records.is_empty() || self.rng.one_in(3) {
            let width = self.rng.pick(&[1, 8, 16, 64, 128]);
            return value(self.rng, width);
        }
        let record = self.rng.pick(&self.entry.records);
        self.rng.pick(&[
            record.first,
            record.second,
            record.first.wrapping_add(1),
            u128::from(record.prefix_length),
            u128::from(self.entry.priority),
            u128::MAX,
        ])
    }

    fn bits(&mut self, width: u8) {
        let key = self.pick_key(|key| key.width == width);
        match key {
            Some(index) if self.rng.percent(70) => self.key_bits(index),
            _ => {
                self.int();
                self.code.push(Instruction::Convert(Type::Bits(width)));
            }
        }
        self.negate();
    }

    fn key_bits(&mut self, index: u16) {
        let kind = self.keys[usize::from(index)].kind;
        let fields: Vec<Field> = Field::ALL
            .into_iter()
            .filter(|&field| field.belongs_to(kind) && field != Field::PrefixLength)
            .collect();
        let field = self.rng.pick(&fields);
        let bare = kind == Kind::Exact && self.rng.one_in(2);
        self.code.push(if bare {
            Instruction::PushKey(index)
        } else {
            Instruction::PushField(index, field)
        });
    }

    fn bare(&mut self, kind: Kind, width: u8) {
        let key = self.pick_key(|key| key.kind == kind && key.width == width);
        match (self.rng.below(4), key) {
            (0 | 1, Some(index)) => {
                self.code.push(Instruction::PushKey(index));
                return;
            }
            (2, _) => self.bits(width),
            _ => self.int(),
        }
        self.code
            .push(Instruction::Convert(Type::Match(kind, width)));
    }

    fn pick_key(&mut self, fits: impl Fn(&NamedKey) -> bool) -> Option<u16> {
        let fitting: Vec<u16> = (0..self.keys.len())
            .filter(|&index| fits(&self.keys[index]))
            .map(|index| index as u16)
            .collect();
        if fitting.is_empty() {
            None
        } else {
            Some(self.rng.pick(&fitting))
        }
    }
}

/// A sequence that holds about 384 values at once.
pub fn many_held(rng: &mut Rng) -> Vec<Parts> {
    let count = match rng.below(6) {
        0 => MOST_HELD - 1,
        1 | 2 => MOST_HELD,
        3 | 4 => MOST_HELD + 1,
        _ => MOST_HELD + 2,
    };
    let mut code: Vec<Instruction> = (0..count - 1)
        .map(|_| Instruction::PushBool(rng.one_in(2)))
        .collect();
    match rng.below(3) {
        0 => code.extend([
            Instruction::PushInt(1),
            Instruction::Convert(Type::Bits(1)),
            Instruction::PushInt(1),
            Instruction::Convert(Type::Bits(1)),
            Instruction::Compare(Comparison::Equal),
        ]),
        _ => code.push(Instruction::PushBool(true)),
    }
    // A skip may pass over this one while all are held.
    if rng.one_in(2) {
        code.push(Instruction::Not);
    }
    for _ in 1..count {
        code.push(Instruction::Join(rng.pick(&JOINS)));
    }
    in_parts(&code)
}

/// A sequence that fills about 123 blocks, most often with skips in it.
pub fn many_blocks(rng: &mut Rng) -> Vec<Parts> {
    let most = MOST_BLOCKS * INSTRUCTIONS_IN_BLOCK;
    let count = match rng.below(6) {
        0 => most - rng.below(30),
        1 | 2 => most,
        3 | 4 => most + 1,
        _ => most + rng.below(30),
    };
    let skips = rng.pick(&[0, 1, 20, 300]);
    let chain = bool_chain(rng, count - skips);
    skips::insert(rng, &chain, &[], skips)
}

/// So many instructions, each of which leaves a bool that ends a program: so
/// the sequence may be cut nearly anywhere and still end in one bool.
pub fn bool_chain(rng: &mut Rng, count: usize) -> Vec<Parts> {
    let mut code = vec![Instruction::PushBool(rng.one_in(2))];
    while code.len() < count {
        if code.len() + 2 <= count && rng.one_in(2) {
            code.push(Instruction::PushBool(rng.one_in(2)));
            code.push(Instruction::Join(rng.pick(&JOINS)));
        } else {
            code.push(Instruction::Not);
        }
    }
    in_parts(&code)
}

/// One wrong instruction, or one too many or too few.
pub fn spoil(rng: &mut Rng, code: &mut Vec<Parts>) {
    let place = rng.below(code.len());
    match rng.below(12) {
        0 => {
            code.remove(place);
        }
        1 => code.insert(place, any_instruction(rng)),
        2 => code[place] = any_instruction(rng),
        3 => {
            let other = rng.below(code.len());
            code.swap(place, other);
        }
        4 => code.push(any_instruction(rng)),
        5 => code.truncate(place + 1),
        _ => spoil_part(rng, &mut code[place]),
    }
    if code.is_empty() {
        code.push(any_instruction(rng));
    }
}

fn spoil_part(rng: &mut Rng, parts: &mut Parts) {
    match rng.below(7) {
        0 => parts.operation = rng.pick(&[0, 1, 3, 6, 7, 10, 12, 13, 14, 255]),
        1 => parts.detail = rng.pick(&[0, 1, 2, 3, 4, 5, 6, 255]),
        2 => parts.operand = rng.pick(&[0, 1, 2, 5, 31, 32, 128, 129, 256, 257, 65_535]),
        3 => parts.constant ^= 1 << rng.below(128),
        _ => spoil_used_part(rng, parts),
    }
}

/// A part that the operation uses gets a value just out of its range, or
/// another one in it.
fn spoil_used_part(rng: &mut Rng, parts: &mut Parts) {
    let operand = parts.operand;
    match parts.operation {
        1 => parts.operand = rng.pick(&[2, 3, 256, 257]),
        3 => parts.operand = rng.pick(&[operand.wrapping_add(1), operand.wrapping_add(256), 32]),
        4 if rng.one_in(2) => {
            parts.operand = rng.pick(&[operand.wrapping_add(1), operand.wrapping_add(256), 32])
        }
        4 => parts.detail = rng.between(0, 5) as u8,
        8 if rng.one_in(3) => parts.detail = rng.between(0, 5) as u8,
        8 => {
            let near = [1, 65_535, 256, 256].map(|step| operand.wrapping_add(step));
            parts.operand = rng.pick(&[&near[..], &[0, 129, 256]].concat());
        }
        9 => parts.detail = rng.between(0, 6) as u8,
        Parts::SKIP if rng.one_in(2) => parts.detail = rng.between(0, 2) as u8,
        _ => parts.operand = operand.wrapping_add(1),
    }
}

fn any_instruction(rng: &mut Rng) -> Parts {
    let mut parts = Parts {
        operation: rng.between(1, usize::from(Parts::SKIP)) as u8,
        detail: 0,
        operand: 0,
        constant: 0,
    };
    match parts.operation {
        1 => parts.operand = rng.below(2) as u16,
        2 => parts.constant = rng.number(),
        3 => parts.operand = rng.below(6) as u16,
        4 => {
            parts.operand = rng.below(6) as u16;
            parts.detail = rng.below(5) as u8;
        }
        8 => {
            parts.operand = rng.pick(&[1, 4, 8, 16, 128]);
            parts.detail = rng.below(5) as u8;
        }
        9 => parts.detail = rng.below(6) as u8,
        Parts::SKIP => {
            parts.operand = rng.between(1, 6) as u16;
            parts.detail = rng.below(2) as u8;
        }
        _ => {}
    }
    parts
}
