//! Document 01, "Blocks": "Instructions are 20 bytes: operation, detail byte,
//! two-byte operand, 16-byte constant; unused parts zero. Operations: 1 push
//! bool (operand 0 or 1), 2 push int (constant), 3 push bare key (operand:
//! index), 4 push field (operand: index; detail 0 value, 1 mask, 2
//! prefix_length, 3 low, 4 high), 5 push priority, 6 not, 7 negate, 8 convert
//! the top (detail: 0 for bit, else the kind; operand W, 1 to 128), 9 compare
//! (detail 0 ==, 1 !=, 2 >, 3 >=, 4 <, 5 <=), 10 and, 11 or, 12 implies."
//!
//! Document 02, request g: "Add operation 13: if the top bool equals the detail
//! byte (0 or 1), replace it by the bool in the constant's first byte (0 or 1) and
//! pass over as many instructions as the operand says, at least one".

use super::fields::Field;
use super::keys::{Key, Kind};
use super::tree::{Comparison, Join};
use super::types::Type;

/// An instruction whose fields are in range, the key list aside.
#[derive(Clone, Copy, PartialEq, Eq, Debug)]
pub enum Instruction {
    PushBool(bool),
    PushInt(u128),
    PushKey(u16),
    PushField(u16, Field),
    PushPriority,
    Not,
    Negate,
    /// To bit<W> or to a match.
    Convert(Type),
    Compare(Comparison),
    /// And, or, implies; never a sequence, which is an "and" here.
    Join(Join),
    Skip(Skip),
}

/// A skip: taken where the top bool is `when`, which then becomes `becomes`.
#[derive(Clone, Copy, PartialEq, Eq, Debug)]
pub struct Skip {
    pub when: bool,
    pub becomes: bool,
    /// The number of instructions passed over.
    pub over: u16,
}

impl Skip {
    /// The index of the instruction that the skip of this index lands at, or the
    /// number of all of them where it lands at their end.
    pub fn landing(self, index: usize) -> usize {
        landing(index, self.over)
    }
}

/// Where a skip of this index lands that passes over so many instructions.
pub fn landing(index: usize, over: u16) -> usize {
    index + 1 + usize::from(over)
}

/// The four parts of an instruction as they stand in its bytes.
#[derive(Clone, Copy, PartialEq, Eq, PartialOrd, Ord, Debug)]
pub struct Parts {
    pub operation: u8,
    pub detail: u8,
    pub operand: u16,
    pub constant: u128,
}

impl Parts {
    pub const SIZE: usize = 20;
    /// The operation of a skip.
    pub const SKIP: u8 = 13;
    /// How far the constant's first byte stands above its last.
    pub const FIRST_CONSTANT_BYTE: u32 = 120;

    pub fn from_bytes(bytes: &[u8]) -> Parts {
        Parts {
            operation: bytes[0],
            detail: bytes[1],
            operand: u16::from_be_bytes([bytes[2], bytes[3]]),
            constant: u128::from_be_bytes(bytes[4..Parts::SIZE].try_into().expect("16 bytes")),
        }
    }

    pub fn to_bytes(self) -> [u8; Parts::SIZE] {
        let mut bytes = [0; Parts::SIZE];
        bytes[0] = self.operation;
        bytes[1] = self.detail;
        bytes[2..4].copy_from_slice(&self.operand.to_be_bytes());
        bytes[4..].copy_from_slice(&self.constant.to_be_bytes());
        bytes
    }
}

/// The parts of each instruction, where ";" and "&&" are one.
pub fn in_parts(code: &[Instruction]) -> Vec<Parts> {
    code.iter().map(|instruction| instruction.parts()).collect()
}

impl Instruction {
    pub fn parts(self) -> Parts {
        let (operation, detail, operand, constant) = match self {
            Instruction::PushBool(truth) => (1, 0, u16::from(truth), 0),
            Instruction::PushInt(number) => (2, 0, 0, number),
            Instruction::PushKey(index) => (3, 0, index, 0),
            Instruction::PushField(index, field) => (4, field.detail(), index, 0),
            Instruction::PushPriority => (5, 0, 0, 0),
            Instruction::Not => (6, 0, 0, 0),
            Instruction::Negate => (7, 0, 0, 0),
            Instruction::Convert(to) => {
                let (detail, width) = convert_target(to);
                (8, detail, u16::from(width), 0)
            }
            Instruction::Compare(comparison) => (9, comparison.detail(), 0, 0),
            Instruction::Join(Join::Sequence | Join::And) => (10, 0, 0, 0),
            Instruction::Join(Join::Or) => (11, 0, 0, 0),
            Instruction::Join(Join::Implies) => (12, 0, 0, 0),
            Instruction::Skip(skip) => {
                let becomes = u128::from(skip.becomes) << Parts::FIRST_CONSTANT_BYTE;
                (Parts::SKIP, u8::from(skip.when), skip.over, becomes)
            }
        };
        Parts {
            operation,
            detail,
            operand,
            constant,
        }
    }

    /// The instruction that these parts make, if all are in range and the
    /// unused ones zero.
    pub fn from_parts(parts: Parts) -> Option<Instruction> {
        let instruction = match parts.operation {
            1 => Instruction::PushBool(parts.operand == 1),
            2 => Instruction::PushInt(parts.constant),
            3 => Instruction::PushKey(parts.operand),
            4 => Instruction::PushField(parts.operand, Field::from_detail(parts.detail)?),
            5 => Instruction::PushPriority,
            6 => Instruction::Not,
            7 => Instruction::Negate,
            8 => Instruction::Convert(convert_type(parts.detail, parts.operand)?),
            9 => Instruction::Compare(Comparison::from_detail(parts.detail)?),
            10 => Instruction::Join(Join::And),
            11 => Instruction::Join(Join::Or),
            12 => Instruction::Join(Join::Implies),
            Parts::SKIP => Instruction::Skip(skip_of(parts)?),
            _ => return None,
        };
        // What was read above is all there may be: writing the instruction
        // again shows whether an unused part is not zero.
        (instruction.parts() == parts).then_some(instruction)
    }
}

/// The skip of these parts. Whatever is read as false here and is not 0 shows
/// when the instruction is written again.
fn skip_of(parts: Parts) -> Option<Skip> {
    let skip = Skip {
        when: parts.detail == 1,
        becomes: parts.constant >> Parts::FIRST_CONSTANT_BYTE == 1,
        over: parts.operand,
    };
    (skip.over >= 1).then_some(skip)
}

fn convert_target(to: Type) -> (u8, u8) {
    match to {
        Type::Bits(width) => (0, width),
        Type::Match(kind, width) => (kind.byte(), width),
        Type::Bool | Type::Int => unreachable!("nothing converts to these"),
    }
}

fn convert_type(detail: u8, operand: u16) -> Option<Type> {
    let width = u8::try_from(operand).ok()?;
    if !(1..=Key::WIDEST).contains(&width) {
        return None;
    }
    match Kind::from_byte(detail)? {
        Kind::Exact => Some(Type::Bits(width)),
        kind => Some(Type::Match(kind, width)),
    }
}
