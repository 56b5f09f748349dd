//! Damage to blocks, with the check repaired and not repaired.

use super::damage;
use super::rng::Rng;
use crate::reference::blocks::{check_bytes, BLOCK, CODE_START};
use crate::reference::code::Parts;
use crate::reference::{load, Answer};

/// Blocks with one thing wrong, or nearly so.
pub fn damage(rng: &mut Rng, blocks: &mut Vec<u8>) {
    match rng.below(13) {
        0 => damage::cut_or_extend(rng, blocks),
        1 => wrong_length(rng, blocks),
        2 => flip_a_bit(rng, blocks),
        12 => add_empty_block(rng, blocks),
        3 | 4 => {
            flip_a_bit(rng, blocks);
            repair_all(blocks);
        }
        5..=7 => change_a_field(rng, blocks),
        8 => wrong_check(rng, blocks),
        _ => move_blocks(rng, blocks),
    }
}

/// Good blocks with a bit of their code changed that still load, or as they are if no
/// such bit is found.
pub fn damaged_and_loading(rng: &mut Rng, list: &[u8], blocks: &[u8]) -> Vec<u8> {
    for _ in 0..40 {
        let mut damaged = blocks.to_vec();
        flip_in_code(rng, &mut damaged);
        repair_all(&mut damaged);
        if matches!(load(list, &damaged), Answer::Loaded(_)) {
            return damaged;
        }
    }
    blocks.to_vec()
}

fn wrong_length(rng: &mut Rng, blocks: &mut Vec<u8>) {
    match rng.below(3) {
        0 => blocks.clear(),
        1 => blocks.truncate(rng.below(blocks.len())),
        _ => blocks.extend(vec![0; rng.below(BLOCK + 1)]),
    }
}

fn flip_a_bit(rng: &mut Rng, blocks: &mut [u8]) {
    let block = rng.below(blocks.len() / BLOCK);
    // Mostly where something stands.
    let place = match rng.below(4) {
        0 => rng.below(4),
        1 => rng.between(504, 507),
        2 => rng.between(4, 503),
        _ => rng.between(4, 60),
    };
    blocks[block * BLOCK + place] ^= 1 << rng.below(8);
}

/// Changes a bit of an instruction, most often a low bit of one of its parts: that is
/// likely to give another good one.
fn flip_in_code(rng: &mut Rng, blocks: &mut [u8]) {
    let start = rng.below(blocks.len() / BLOCK) * BLOCK;
    let count = usize::from(blocks[start + 3]);
    let instruction = start + CODE_START + rng.below(count) * Parts::SIZE;
    let place = match rng.below(4) {
        0 => rng.below(Parts::SIZE),
        _ => rng.pick(&[0, 1, 3, 3, Parts::SIZE - 1]),
    };
    blocks[instruction + place] ^= 1 << rng.below(3);
}

/// Makes the check of every block right again.
fn repair_all(blocks: &mut [u8]) {
    for block in blocks.chunks_mut(BLOCK) {
        let check = check_bytes(block);
        block[508..].copy_from_slice(&check);
    }
}

/// Another block number, count, total or number of keys; the check is right.
fn change_a_field(rng: &mut Rng, blocks: &mut [u8]) {
    let block = rng.below(blocks.len() / BLOCK);
    let place = rng.pick(&[0, 2, 2, 504, 506]);
    let start = block * BLOCK + place;
    let old = u16::from_be_bytes([blocks[start], blocks[start + 1]]);
    let new = match rng.below(5) {
        0 => old.wrapping_add(1),
        1 => old.wrapping_sub(1),
        2 => rng.pick(&[0, 1, 24, 25, 26, 65_511, 65_534, 65_535]),
        3 => old.swap_bytes(),
        _ => old ^ 1 << rng.below(16),
    };
    let all = rng.one_in(3);
    for (number, other) in blocks.chunks_mut(BLOCK).enumerate() {
        if number == block || all && place >= 504 {
            other[place..place + 2].copy_from_slice(&new.to_be_bytes());
        }
    }
    if rng.one_in(2) {
        make_totals_right(blocks);
    }
    repair_all(blocks);
}

/// A last block that is good but for having no instructions.
fn add_empty_block(rng: &mut Rng, blocks: &mut Vec<u8>) {
    let number = (blocks.len() / BLOCK) as u16;
    if rng.one_in(3) {
        // The only block.
        blocks[2..504].fill(0);
        blocks.truncate(BLOCK);
    } else {
        let mut block = blocks[..BLOCK].to_vec();
        block[..2].copy_from_slice(&number.to_be_bytes());
        block[2..504].fill(0);
        blocks.extend_from_slice(&block);
    }
    make_totals_right(blocks);
    repair_all(blocks);
}

/// Sets every total to the sum of the counts as they stand (modulo 2^16, which
/// is wrong where the sum is larger).
fn make_totals_right(blocks: &mut [u8]) {
    let total: usize = blocks
        .chunks(BLOCK)
        .map(|block| usize::from(u16::from_be_bytes([block[2], block[3]])))
        .sum();
    for block in blocks.chunks_mut(BLOCK) {
        block[504..506].copy_from_slice(&(total as u16).to_be_bytes());
    }
}

fn wrong_check(rng: &mut Rng, blocks: &mut [u8]) {
    let start = rng.below(blocks.len() / BLOCK) * BLOCK;
    let check = &mut blocks[start + 508..start + BLOCK];
    match rng.below(4) {
        0 => check.rotate_left(2),
        1 => check.fill(0xff),
        2 => check.fill(0),
        _ => check[rng.below(4)] ^= 1 << rng.below(8),
    }
}

/// Blocks lost, doubled, exchanged, or added; sometimes totals and checks are
/// made right afterwards.
fn move_blocks(rng: &mut Rng, blocks: &mut Vec<u8>) {
    let count = blocks.len() / BLOCK;
    let block = rng.below(count);
    let start = block * BLOCK;
    match rng.below(5) {
        0 | 1 if count > 1 => blocks.truncate((count - 1) * BLOCK),
        2 if count > 1 => blocks.drain(start..start + BLOCK).for_each(drop),
        3 => blocks.extend_from_within(start..start + BLOCK),
        4 => blocks.extend(vec![0; BLOCK]),
        _ if count > 1 => {
            let copy = blocks[start..start + BLOCK].to_vec();
            let next = (block + 1) % count * BLOCK;
            blocks.copy_within(next..next + BLOCK, start);
            blocks[next..next + BLOCK].copy_from_slice(&copy);
        }
        _ => flip_a_bit(rng, blocks),
    }
    if rng.one_in(2) {
        make_totals_right(blocks);
        repair_all(blocks);
    }
}
