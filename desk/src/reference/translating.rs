//! Document 01, "Blocks": "Translation is postfix, left before right; an
//! operand that must change type is converted directly after its own code,
//! once; compare then needs equal types. ";" and "&&" both give 10."
//!
//! Document 02, request g: "Translation places one directly after the left operand
//! of every "and", "or" and "implies", landing after the join. The count of
//! instructions grows by one for each join".

use super::code::{Instruction, Skip};
use super::tree::Join;
use super::types::Typed;

/// The instructions of a typed tree: one for each node, each conversion and each
/// skip.
pub fn instructions(tree: &Typed) -> Vec<Instruction> {
    let mut code = Vec::new();
    append(tree, &mut code);
    code
}

fn append(tree: &Typed, code: &mut Vec<Instruction>) {
    let last = match tree {
        Typed::Bool(truth) => Instruction::PushBool(*truth),
        Typed::Number(number) => Instruction::PushInt(*number),
        Typed::Key(index) => Instruction::PushKey(operand(*index)),
        Typed::Field(index, field) => Instruction::PushField(operand(*index), *field),
        Typed::Priority => Instruction::PushPriority,
        Typed::Not(inner) => {
            append(inner, code);
            Instruction::Not
        }
        Typed::Minus(inner) => {
            append(inner, code);
            Instruction::Negate
        }
        Typed::Convert(to, inner) => {
            append(inner, code);
            Instruction::Convert(*to)
        }
        Typed::Compare(comparison, left, right) => {
            append(left, code);
            append(right, code);
            Instruction::Compare(*comparison)
        }
        Typed::Join(join, left, right) => {
            let of_right = instructions(right);
            append(left, code);
            code.push(Instruction::Skip(skip_of(*join, of_right.len())));
            code.extend(of_right);
            Instruction::Join(*join)
        }
    };
    code.push(last);
}

/// The skip over a right operand of so many instructions, and over the join.
pub fn skip_of(join: Join, of_right: usize) -> Skip {
    // A left operand that settles the join, and what the join then gives.
    let (when, becomes) = match join {
        Join::Sequence | Join::And => (false, false),
        Join::Or => (true, true),
        Join::Implies => (false, true),
    };
    Skip {
        when,
        becomes,
        over: u16::try_from(of_right + 1).expect("a text has at most 1,024 tokens"),
    }
}

fn operand(index: usize) -> u16 {
    u16::try_from(index).expect("a list has at most 32 keys")
}
