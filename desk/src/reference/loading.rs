//! Document 01, "Blocks": "The load check follows the types through the
//! sequence: operands as above, at most 384 values held, one bool at the end;
//! instruction fields in range." Refusal 18.
//!
//! Document 02, request g: a skip lands "inside the code or exactly at its end. The
//! load check asks that the types held at the landing equal those at the skip; a
//! skip that breaks this or any rule above is number 18 at the skip's first byte. A
//! landing past an instruction that fails by itself is not compared."

use super::answers::{Input, Refusal};
use super::blocks::{all_parts, instruction_place};
use super::code::{Instruction, Parts};
use super::keys::Key;
use super::types::{can_compare, can_convert, can_negate, Type};

pub const MOST_HELD: usize = 384;

/// The instructions of blocks of good layout, if they pass the load check.
pub fn checked_code(
    blocks: &[u8],
    total: usize,
    keys: &[Key],
) -> Result<Vec<Instruction>, Refusal> {
    let walk = Walk::through(all_parts(blocks, total), total, keys);
    // A misfit comes first: it stands before the instruction that fails by itself.
    let misfit = walk.first_misfit();
    if let Some(index) = misfit.or(walk.first_failing(total)) {
        return Err(Refusal::new(18, Input::Blocks, instruction_place(index)));
    }
    if walk.held[total] != [Type::Bool] {
        return Err(Refusal::new(18, Input::Blocks, blocks.len()));
    }
    Ok(walk.code)
}

/// The types followed from one instruction to the next, as if no skip were taken,
/// until an instruction fails by itself: by any rule but the comparison of a skip's
/// landing.
pub struct Walk {
    /// The instructions before the first that fails by itself.
    pub code: Vec<Instruction>,
    /// The types held before each of them, and after the last.
    pub held: Vec<Vec<Type>>,
}

impl Walk {
    pub fn through(all: impl Iterator<Item = Parts>, total: usize, keys: &[Key]) -> Walk {
        let mut walk = Walk {
            code: Vec::new(),
            held: vec![Vec::new()],
        };
        for (index, parts) in all.enumerate() {
            let mut held = walk.held[index].clone();
            let instruction = Instruction::from_parts(parts)
                .filter(|&instruction| lands_inside(instruction, index, total))
                .filter(|&instruction| step(&mut held, instruction, keys).is_some());
            let Some(instruction) = instruction else {
                break;
            };
            walk.code.push(instruction);
            walk.held.push(held);
        }
        walk
    }

    /// The first skip whose landing does not hold the types that the skip holds.
    /// There are no types to compare past an instruction that fails by itself.
    pub fn first_misfit(&self) -> Option<usize> {
        (0..self.code.len()).find(|&index| match self.code[index] {
            Instruction::Skip(skip) => {
                let landing = self.held.get(skip.landing(index));
                landing.is_some_and(|held| *held != self.held[index])
            }
            _ => false,
        })
    }

    /// The instruction that fails by itself, if one of all does.
    pub fn first_failing(&self, total: usize) -> Option<usize> {
        (self.code.len() < total).then_some(self.code.len())
    }
}

/// A skip lands inside the code or exactly at its end.
fn lands_inside(instruction: Instruction, index: usize, total: usize) -> bool {
    match instruction {
        Instruction::Skip(skip) => skip.landing(index) <= total,
        _ => true,
    }
}

/// What the instruction makes of the types held; none if it fails.
fn step(held: &mut Vec<Type>, instruction: Instruction, keys: &[Key]) -> Option<()> {
    let left_behind = match instruction {
        Instruction::PushBool(_) => Type::Bool,
        Instruction::PushInt(_) | Instruction::PushPriority => Type::Int,
        Instruction::PushKey(index) => keys.get(usize::from(index))?.bare_type(),
        Instruction::PushField(index, field) => {
            let key = keys.get(usize::from(index))?;
            if !field.belongs_to(key.kind) {
                return None;
            }
            field.type_at(key.width)
        }
        // A skip leaves a bool for a bool, whether it is taken or not.
        Instruction::Not | Instruction::Skip(_) => held.pop().filter(|&top| top == Type::Bool)?,
        Instruction::Negate => held.pop().filter(|&top| can_negate(top))?,
        Instruction::Convert(to) => {
            held.pop().filter(|&top| can_convert(top, to))?;
            to
        }
        Instruction::Compare(comparison) => {
            let right = held.pop()?;
            let left = held.pop()?;
            if left != right || !can_compare(comparison, left) {
                return None;
            }
            Type::Bool
        }
        Instruction::Join(_) => {
            let right = held.pop()?;
            let left = held.pop()?;
            if (left, right) != (Type::Bool, Type::Bool) {
                return None;
            }
            Type::Bool
        }
    };
    held.push(left_behind);
    (held.len() <= MOST_HELD).then_some(())
}
