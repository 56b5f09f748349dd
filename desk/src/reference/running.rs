//! Document 01, "Blocks": "Running starts with nothing held; each instruction
//! takes its operands off the top, the right one uppermost, and leaves what
//! "Types and meaning" gives. The entry is accepted exactly when the bool left
//! at the end is true, else violated".
//!
//! Document 02, request g: "Running reports the steps taken, which is the count that
//! the definition of stepping gives and never more than the instructions in the
//! code." Each instruction that is carried out is a step, a skip among them, taken
//! or not.

use std::fmt;

use super::code::{Instruction, Skip};
use super::entries::Entry;
use super::keys::Key;
use super::values::Value;

/// How a run ends.
#[derive(Clone, Copy, PartialEq, Eq, Debug)]
pub struct Outcome {
    pub accepted: bool,
    pub steps: usize,
}

/// Runs code that passed the load check on the entry.
pub fn outcome(code: &[Instruction], keys: &[Key], entry: &Entry) -> Outcome {
    let mut held = Vec::new();
    let mut next = 0;
    let mut steps = 0;
    while next < code.len() {
        let skip = taken_skip(code[next], &held);
        let left_behind = match skip {
            Some(skip) => {
                pop(&mut held);
                Value::Bool(skip.becomes)
            }
            None => value_left(&mut held, code[next], keys, entry),
        };
        held.push(left_behind);
        next = skip.map_or(next + 1, |skip| skip.landing(next));
        steps += 1;
    }
    Outcome {
        accepted: pop(&mut held).truth(),
        steps,
    }
}

/// The skip that the instruction is, if the top bool is the one that it waits for.
fn taken_skip(instruction: Instruction, held: &[Value]) -> Option<Skip> {
    match instruction {
        Instruction::Skip(skip) => (held.last() == Some(&Value::Bool(skip.when))).then_some(skip),
        _ => None,
    }
}

/// What an instruction leaves in place of the operands that it takes off the top.
fn value_left(
    held: &mut Vec<Value>,
    instruction: Instruction,
    keys: &[Key],
    entry: &Entry,
) -> Value {
    match instruction {
        Instruction::PushBool(truth) => Value::Bool(truth),
        Instruction::PushInt(number) => Value::number(number),
        Instruction::PushKey(index) => Value::of_key(usize::from(index), keys, entry),
        Instruction::PushField(index, field) => {
            Value::of_field(usize::from(index), field, keys, entry)
        }
        Instruction::PushPriority => Value::priority(entry),
        Instruction::Not => pop(held).opposite(),
        Instruction::Negate => pop(held).minus(),
        Instruction::Convert(to) => pop(held).convert(to),
        Instruction::Compare(comparison) => {
            let right = pop(held);
            pop(held).compare(comparison, right)
        }
        Instruction::Join(join) => {
            let right = pop(held);
            pop(held).join(join, right)
        }
        // A skip that is not taken leaves the bool as it is.
        Instruction::Skip(_) => pop(held),
    }
}

fn pop(held: &mut Vec<Value>) -> Value {
    held.pop().expect("the load check counted the values held")
}

/// The line of the program `answers`.
impl fmt::Display for Outcome {
    fn fmt(&self, out: &mut fmt::Formatter) -> fmt::Result {
        let word = if self.accepted {
            "accepted"
        } else {
            "violated"
        };
        write!(out, "{word} {}", self.steps)
    }
}
