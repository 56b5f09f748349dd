//! Document 01, "Blocks": "A block: bytes 0, 1 its number from 0; 2, 3 its
//! instruction count, 25 except in the last block (1 to 25); 4 to 503
//! instructions, then zeros; 504, 505 the total count, which is the sum of the
//! counts in all the blocks given; 506, 507 the number of keys, as in the list
//! given; 508 to 511 the check. The check runs over the 254 big-endian 16-bit
//! words before it: two sums from 0, the first adds each word, the second adds
//! the first sum, both modulo 65,535. Second sum, then first." Document 02, request
//! g: "the limit becomes 123 blocks in number 16." Refusals 16, 17.

use super::answers::{Input, Refusal};
use super::code::Parts;
use super::keys::all_zero;

pub const BLOCK: usize = 512;
pub const MOST_BLOCKS: usize = 123;
pub const INSTRUCTIONS_IN_BLOCK: usize = 25;
pub const CODE_START: usize = 4;
const CODE_END: usize = 504;
const CHECK_START: usize = 508;

/// The bytes that so many instructions need.
pub fn bytes_needed(instructions: usize) -> usize {
    instructions.div_ceil(INSTRUCTIONS_IN_BLOCK) * BLOCK
}

/// The blocks that hold these instructions, for a list of so many keys.
pub fn blocks_of(code: &[Parts], keys: usize) -> Vec<u8> {
    let mut blocks = Vec::new();
    for (number, part) in code.chunks(INSTRUCTIONS_IN_BLOCK).enumerate() {
        let mut block = [0; BLOCK];
        set_word(&mut block, 0, number);
        set_word(&mut block, 2, part.len());
        for (index, instruction) in part.iter().enumerate() {
            let start = CODE_START + index * Parts::SIZE;
            block[start..start + Parts::SIZE].copy_from_slice(&instruction.to_bytes());
        }
        set_word(&mut block, 504, code.len());
        set_word(&mut block, 506, keys);
        let check = check_bytes(&block);
        block[CHECK_START..].copy_from_slice(&check);
        blocks.extend_from_slice(&block);
    }
    blocks
}

/// The check over a block's first 508 bytes.
pub fn check_bytes(block: &[u8]) -> [u8; 4] {
    let (mut first, mut second) = (0u32, 0u32);
    for word in block[..CHECK_START].chunks(2) {
        first = (first + u32::from(u16::from_be_bytes([word[0], word[1]]))) % 65_535;
        second = (second + first) % 65_535;
    }
    (second << 16 | first).to_be_bytes()
}

/// The total count of instructions, if length and layout are good: stage 16,
/// then stage 17.
pub fn checked_layout(blocks: &[u8], keys: usize) -> Result<usize, Refusal> {
    let length = blocks.len();
    if length == 0 || !length.is_multiple_of(BLOCK) || length / BLOCK > MOST_BLOCKS {
        return Err(Refusal::new(16, Input::Blocks, length));
    }
    // The sum of the count fields as they stand, good or bad, as a plain number.
    let total = blocks.chunks(BLOCK).map(|block| word_at(block, 2)).sum();
    let last = length / BLOCK - 1;
    for (number, block) in blocks.chunks(BLOCK).enumerate() {
        let good = word_at(block, 0) == number
            && keeps_code_layout(block, number == last)
            && word_at(block, 504) == total
            && word_at(block, 506) == keys
            && block[CHECK_START..] == check_bytes(block);
        if !good {
            return Err(Refusal::new(17, Input::Blocks, number * BLOCK));
        }
    }
    Ok(total)
}

/// The count is right for the block, and zeros follow the last instruction.
fn keeps_code_layout(block: &[u8], is_last: bool) -> bool {
    let count = word_at(block, 2);
    let good_count = if is_last {
        (1..=INSTRUCTIONS_IN_BLOCK).contains(&count)
    } else {
        count == INSTRUCTIONS_IN_BLOCK
    };
    good_count && all_zero(&block[CODE_START + count * Parts::SIZE..CODE_END])
}

/// The place of an instruction, counted across blocks.
pub fn instruction_place(index: usize) -> usize {
    let block = index / INSTRUCTIONS_IN_BLOCK;
    let inside = index % INSTRUCTIONS_IN_BLOCK;
    block * BLOCK + CODE_START + inside * Parts::SIZE
}

/// The parts of each instruction in blocks of good layout.
pub fn all_parts(blocks: &[u8], total: usize) -> impl Iterator<Item = Parts> + '_ {
    (0..total).map(|index| Parts::from_bytes(&blocks[instruction_place(index)..]))
}

fn word_at(block: &[u8], place: usize) -> usize {
    usize::from(u16::from_be_bytes([block[place], block[place + 1]]))
}

fn set_word(block: &mut [u8; BLOCK], place: usize, number: usize) {
    let number = u16::try_from(number).expect("counts are below 2^16");
    block[place..place + 2].copy_from_slice(&number.to_be_bytes());
}
