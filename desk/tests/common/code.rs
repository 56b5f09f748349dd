//! Short notations for instructions, and blocks made of them.

use super::{list, loading};
use desk::reference::blocks::{blocks_of, check_bytes, instruction_place};
use desk::reference::code::{Instruction, Parts, Skip};

pub const NOT: u8 = 6;
pub const NEGATE: u8 = 7;
pub const EQUAL: u8 = 9;
pub const AND: u8 = 10;

/// An instruction from its four parts.
pub fn op(operation: u8, detail: u8, operand: u16, constant: u128) -> Parts {
    Parts {
        operation,
        detail,
        operand,
        constant,
    }
}

pub fn push_bool(truth: u16) -> Parts {
    op(1, 0, truth, 0)
}

pub fn push_int(number: u128) -> Parts {
    op(2, 0, 0, number)
}

pub fn convert(kind: u8, width: u16) -> Parts {
    op(8, kind, width, 0)
}

pub fn plain(operation: u8) -> Parts {
    op(operation, 0, 0, 0)
}

/// A skip that is taken on `when`, which becomes `becomes`, over so many
/// instructions.
pub fn skip_on(when: bool, becomes: bool, over: u16) -> Parts {
    let skip = Skip {
        when,
        becomes,
        over,
    };
    Instruction::Skip(skip).parts()
}

/// A skip over so many instructions, where it does not count when it is taken.
pub fn skip(over: u16) -> Parts {
    skip_on(false, false, over)
}

/// So many instructions that load: a bool, and "not" again and again.
pub fn nots(count: usize) -> Vec<Parts> {
    let mut code = vec![plain(NOT); count];
    code[0] = push_bool(1);
    code
}

/// The answer for this code against document 01's list.
pub fn load_code(code: &[Parts]) -> String {
    loading(&list(), &blocks_of(code, 5))
}

/// Refusal 18 at the instruction of this index.
pub fn fails_at(index: usize) -> String {
    format!("18 blocks {}", instruction_place(index))
}

/// Makes the check of every block right again.
pub fn repair(blocks: &mut [u8]) {
    for block in blocks.chunks_mut(512) {
        let check = check_bytes(block);
        block[508..].copy_from_slice(&check);
    }
}
