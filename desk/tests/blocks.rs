//! Blocks: refusals 15 to 18.

mod common;

use common::code::*;
use common::*;
use desk::reference::blocks::{blocks_of, check_bytes, BLOCK, MOST_BLOCKS};
use desk::reference::code::Parts;
use desk::reference::{translate, Answer};

fn set_word(blocks: &mut [u8], block: usize, place: usize, number: u16) {
    let start = block * 512 + place;
    blocks[start..start + 2].copy_from_slice(&number.to_be_bytes());
}

#[test]
fn buffer_lengths() {
    // 26 instructions: two blocks.
    let text = format!("{}true", "!".repeat(25));
    for (length, wanted) in [
        (0, "15 buffer 0"),
        (512, "15 buffer 512"),
        (1023, "15 buffer 1023"),
        (1024, "translated 26"),
        (2000, "translated 26"),
    ] {
        let mut buffer = vec![7; length];
        let answer = translate(text.as_bytes(), &list(), &mut buffer);
        assert_eq!(short(answer), wanted);
        assert!(buffer.iter().skip(1024).all(|&byte| byte == 7));
    }
}

/// Operation, detail and operand of each instruction of a text.
fn heads(text: &str) -> Vec<(u8, u8, u16)> {
    let list = list();
    let blocks = translated(text, &list);
    let count = usize::from(u16::from_be_bytes([blocks[504], blocks[505]]));
    (0..count)
        .map(|index| {
            let start = index / 25 * 512 + 4 + index % 25 * 20;
            let parts = Parts::from_bytes(&blocks[start..start + 20]);
            (parts.operation, parts.detail, parts.operand)
        })
        .collect()
}

#[test]
fn conversions_stand_directly_after_the_operand() {
    let compare = (9, 0, 0);
    let int = (2, 0, 0);
    assert_eq!(heads("1 == d"), [int, (8, 1, 8), (3, 0, 1), compare]);
    assert_eq!(heads("d == 1"), [(3, 0, 1), int, (8, 1, 8), compare]);
    // The bit operand is converted, never the key.
    let value = (4, 0, 2);
    assert_eq!(
        heads("p::value == d"),
        [value, (8, 1, 8), (3, 0, 1), compare]
    );
    assert_eq!(
        heads("d == p::value"),
        [(3, 0, 1), value, (8, 1, 8), compare]
    );
    assert_eq!(
        heads("-1 == v"),
        [int, (7, 0, 0), (8, 0, 1), (3, 0, 0), compare]
    );
    assert_eq!(heads("1 == 2"), [int, int, compare]);
    assert_eq!(heads("r == 1"), [(3, 0, 3), int, (8, 3, 16), compare]);
    assert_eq!(heads("o == 1"), [(3, 0, 4), int, (8, 4, 4), compare]);
    assert_eq!(heads("p == 1"), [(3, 0, 2), int, (8, 2, 8), compare]);
}

#[test]
fn every_operation() {
    assert_eq!(
        heads("true; false"),
        [(1, 0, 1), (13, 0, 2), (1, 0, 0), (10, 0, 0)]
    );
    assert_eq!(heads("true && false"), heads("true; false"));
    assert_eq!(
        heads("true || !false"),
        [(1, 0, 1), (13, 1, 3), (1, 0, 0), (6, 0, 0), (11, 0, 0)]
    );
    assert_eq!(
        heads("true -> false"),
        [(1, 0, 1), (13, 0, 2), (1, 0, 0), (12, 0, 0)]
    );
    for (operator, detail) in [
        ("==", 0),
        ("!=", 1),
        (">", 2),
        (">=", 3),
        ("<", 4),
        ("<=", 5),
    ] {
        let code = heads(&format!("::priority {operator} 1"));
        assert_eq!(code, [(5, 0, 0), (2, 0, 0), (9, detail, 0)]);
    }
    let fields = [
        ("d::value", (4, 0, 1)),
        ("d::mask", (4, 1, 1)),
        ("p::prefix_length", (4, 2, 2)),
        ("r::low", (4, 3, 3)),
        ("r::high", (4, 4, 3)),
    ];
    for (field, push) in fields {
        assert_eq!(heads(&format!("{field} == 1"))[0], push);
    }
}

#[test]
fn lengths_of_blocks() {
    let full = blocks_of(&nots(3_075), 5);
    assert_eq!(full.len(), 123 * 512);
    assert_eq!(loading(&list(), &full), "loaded 3075");
    let over = blocks_of(&nots(3_076), 5);
    assert_eq!(loading(&list(), &over), "16 blocks 63488");
    assert_eq!(loading(&list(), &vec![0; 124 * 512]), "16 blocks 63488");
    assert_eq!(loading(&list(), &vec![0; 123 * 512]), "17 blocks 0");
    assert_eq!(loading(&list(), &[]), "16 blocks 0");
    assert_eq!(loading(&list(), &full[..511]), "16 blocks 511");
    assert_eq!(loading(&list(), &full[..513]), "16 blocks 513");
}

#[test]
fn counts_of_blocks() {
    assert_eq!(load_code(&nots(25)), "loaded 25");
    assert_eq!(load_code(&nots(26)), "loaded 26");
    for (count, wanted) in [
        (0, "17 blocks 0"),
        (26, "17 blocks 0"),
        (65_535, "17 blocks 0"),
    ] {
        let mut blocks = blocks_of(&nots(25), 5);
        set_word(&mut blocks, 0, 2, count);
        set_word(&mut blocks, 0, 504, count);
        repair(&mut blocks);
        assert_eq!(loading(&list(), &blocks), wanted, "{count}");
    }
}

/// The total is the sum of the count fields as they stand, so a wrong count in
/// block 1 shows at block 0 already.
#[test]
fn totals() {
    let mut blocks = blocks_of(&nots(60), 5);
    set_word(&mut blocks, 1, 2, 24);
    repair(&mut blocks);
    assert_eq!(loading(&list(), &blocks), "17 blocks 0");
    for block in 0..3 {
        set_word(&mut blocks, block, 504, 59);
    }
    repair(&mut blocks);
    assert_eq!(loading(&list(), &blocks), "17 blocks 512");
}

/// The sum is a plain number, not taken modulo 2^16.
#[test]
fn totals_are_not_taken_modulo() {
    let mut blocks = blocks_of(&nots(30), 5);
    set_word(&mut blocks, 1, 2, 65_535);
    for block in 0..2 {
        set_word(&mut blocks, block, 504, 24);
    }
    repair(&mut blocks);
    assert_eq!(loading(&list(), &blocks), "17 blocks 0");
}

/// Blocks cut at a block's end do not load, though the rest ends in a bool.
#[test]
fn cut_blocks() {
    let blocks = blocks_of(&nots(60), 5);
    assert_eq!(loading(&list(), &blocks), "loaded 60");
    assert_eq!(loading(&list(), &blocks[..1024]), "17 blocks 0");
}

#[test]
fn every_field_of_a_block() {
    let good = blocks_of(&nots(30), 5);
    for (place, number) in [(0, 2), (0, 256), (504, 31), (506, 4), (506, 6)] {
        for block in 0..2 {
            let mut blocks = good.clone();
            set_word(&mut blocks, block, place, number);
            repair(&mut blocks);
            let wanted = format!("17 blocks {}", block * 512);
            assert_eq!(loading(&list(), &blocks), wanted, "{place} of {block}");
        }
    }
    // Bytes after the last instruction.
    for place in [4 + 5 * 20, 503] {
        let mut blocks = good.clone();
        blocks[512 + place] = 1;
        repair(&mut blocks);
        assert_eq!(loading(&list(), &blocks), "17 blocks 512");
    }
}

#[test]
fn checks() {
    let good = blocks_of(&nots(30), 5);
    for place in 508..512 {
        let mut blocks = good.clone();
        blocks[512 + place] ^= 1;
        assert_eq!(loading(&list(), &blocks), "17 blocks 512");
    }
    let mut blocks = good.clone();
    blocks[508..512].fill(0xff);
    assert_eq!(loading(&list(), &blocks), "17 blocks 0");
    let mut blocks = good;
    blocks[508..512].rotate_left(2);
    assert_eq!(loading(&list(), &blocks), "17 blocks 0");
}

/// A word FF FF adds nothing modulo 65,535; only the sums 0 stand for it.
#[test]
fn sums_are_below_65535() {
    let mut block = [0; 512];
    block[4] = 0xff;
    block[5] = 0xff;
    assert_eq!(check_bytes(&block), [0; 4]);
}

/// A layout fault in a later block comes before a bad instruction in an earlier.
#[test]
fn layout_before_instructions() {
    let mut code = nots(30);
    code[3] = plain(0);
    assert_eq!(load_code(&code), "18 blocks 64");
    let mut blocks = blocks_of(&code, 5);
    blocks[1023] ^= 1;
    assert_eq!(loading(&list(), &blocks), "17 blocks 512");
}

#[test]
fn fields_out_of_range() {
    let bad = [
        plain(0),
        plain(14),
        plain(255),
        op(1, 0, 2, 0),
        op(1, 1, 0, 0),
        op(1, 0, 0, 1),
        op(2, 1, 0, 0),
        op(2, 0, 1, 0),
        op(3, 0, 5, 0),
        op(3, 1, 0, 0),
        op(3, 0, 0, 1),
        op(3, 0, 256, 0),
        op(4, 5, 0, 0),
        op(4, 0, 5, 0),
        op(4, 0, 0, 1),
        op(5, 1, 0, 0),
        op(5, 0, 1, 0),
        op(5, 0, 0, 1),
    ];
    for parts in bad {
        assert_eq!(load_code(&[parts]), "18 blocks 4", "{parts:?}");
    }
    let after_int = [
        op(8, 5, 8, 0),
        op(8, 0, 0, 0),
        op(8, 0, 129, 0),
        op(8, 0, 257, 0),
        op(8, 0, 8, 1),
        op(7, 1, 0, 0),
        op(7, 0, 1, 0),
        op(7, 0, 0, 1),
    ];
    for parts in after_int {
        assert_eq!(
            load_code(&[push_int(1), parts]),
            "18 blocks 24",
            "{parts:?}"
        );
    }
    for parts in [op(9, 6, 0, 0), op(9, 0, 1, 0), op(9, 0, 0, 1)] {
        let code = [push_int(1), push_int(1), parts];
        assert_eq!(load_code(&code), "18 blocks 44", "{parts:?}");
    }
    for operation in [10, 11, 12] {
        for parts in [
            op(operation, 1, 0, 0),
            op(operation, 0, 1, 0),
            op(operation, 0, 0, 1),
        ] {
            let code = [push_bool(1), push_bool(1), parts];
            assert_eq!(load_code(&code), "18 blocks 44", "{parts:?}");
        }
    }
}

/// A field that the key's kind lacks.
#[test]
fn fields_of_each_kind() {
    let fields_of = [vec![0], vec![0, 1], vec![0, 2], vec![3, 4], vec![0, 1]];
    for (key, fields) in fields_of.iter().enumerate() {
        for detail in 0..5u8 {
            // The field compared with itself.
            let push = op(4, detail, key as u16, 0);
            let wanted = if fields.contains(&detail) {
                "loaded 3"
            } else {
                "18 blocks 4"
            };
            assert_eq!(load_code(&[push, push, plain(9)]), wanted);
        }
    }
}

#[test]
fn operands_missing_or_of_wrong_type() {
    for operation in 6..=13 {
        assert_eq!(load_code(&[plain(operation)]), "18 blocks 4");
    }
    for operation in 9..=12 {
        assert_eq!(load_code(&[push_bool(1), plain(operation)]), "18 blocks 24");
    }
    assert_eq!(load_code(&[push_int(1), plain(6)]), "18 blocks 24");
    assert_eq!(load_code(&[push_bool(1), plain(7)]), "18 blocks 24");
    let ternary = op(3, 0, 1, 0);
    assert_eq!(load_code(&[ternary, plain(7)]), "18 blocks 24");
    for operation in 10..=12 {
        let code = [push_int(1), push_bool(1), plain(operation)];
        assert_eq!(load_code(&code), "18 blocks 44");
        let code = [push_bool(1), push_int(1), plain(operation)];
        assert_eq!(load_code(&code), "18 blocks 44");
    }
}

#[test]
fn what_convert_takes() {
    let exact = op(3, 0, 0, 0);
    let loads = |code: &[Parts]| load_code(code) == format!("loaded {}", code.len());
    // Any width, whether a key has it or not; both sides get the same type.
    for kind in 0..=4 {
        let code = [
            push_int(1),
            convert(kind, 77),
            push_int(1),
            convert(kind, 77),
            plain(9),
        ];
        assert!(loads(&code), "{kind}");
    }
    // bit<W> becomes a match of that W only, and never bit<W> again.
    for kind in 1..=4 {
        let code = [exact, convert(kind, 1), exact, convert(kind, 1), plain(9)];
        assert!(loads(&code), "{kind}");
        assert_eq!(load_code(&[exact, convert(kind, 2)]), "18 blocks 24");
    }
    assert_eq!(load_code(&[exact, convert(0, 1)]), "18 blocks 24");
    // A match is not converted again, a bool not at all.
    let again = [push_int(1), convert(1, 8), convert(1, 8)];
    assert_eq!(load_code(&again), "18 blocks 44");
    assert_eq!(load_code(&[push_bool(1), convert(0, 1)]), "18 blocks 24");
    // Int to bit to match.
    let twice = [push_int(1), convert(0, 8), convert(2, 8)];
    assert!(loads(&[&twice[..], &twice[..], &[plain(9)]].concat()));
}

#[test]
fn compare_needs_equal_types() {
    let exact = op(3, 0, 0, 0);
    assert_eq!(load_code(&[exact, push_int(1), plain(9)]), "18 blocks 44");
    assert_eq!(load_code(&[push_int(1), exact, plain(9)]), "18 blocks 44");
    let one = |kind, width| [push_int(1), convert(kind, width)];
    for (left, right) in [
        ((0, 8), (0, 9)),
        ((1, 8), (4, 8)),
        ((1, 8), (0, 8)),
        ((2, 8), (2, 9)),
    ] {
        let code = [
            &one(left.0, left.1)[..],
            &one(right.0, right.1)[..],
            &[plain(9)],
        ]
        .concat();
        assert_eq!(load_code(&code), "18 blocks 84");
    }
    for detail in 0..6 {
        let ordering = detail >= 2;
        let compare = op(9, detail, 0, 0);
        let bools = [push_bool(1), push_bool(1), compare];
        let wanted = if ordering { "18 blocks 44" } else { "loaded 3" };
        assert_eq!(load_code(&bools), wanted);
        let ints = [push_int(1), push_int(1), compare];
        assert_eq!(load_code(&ints), "loaded 3");
        for kind in 0..=4 {
            let code = [&one(kind, 8)[..], &one(kind, 8)[..], &[compare]].concat();
            let wanted = if ordering && kind > 0 {
                "18 blocks 84"
            } else {
                "loaded 5"
            };
            assert_eq!(load_code(&code), wanted);
        }
    }
}

/// One value at the end, and a bool; else 18 at the blocks' length.
#[test]
fn the_end() {
    assert_eq!(load_code(&[push_bool(1)]), "loaded 1");
    assert_eq!(load_code(&[push_int(1)]), "18 blocks 512");
    assert_eq!(load_code(&[push_bool(1), push_bool(1)]), "18 blocks 512");
    assert_eq!(load_code(&vec![push_bool(1); 26]), "18 blocks 1024");
}

#[test]
fn values_held_384_and_385() {
    let code = |held: usize| {
        let mut code = vec![push_bool(1); held];
        code.extend(vec![plain(AND); held - 1]);
        code
    };
    assert_eq!(load_code(&code(384)), "loaded 767");
    // Push 385 has index 384: block 15, instruction 9.
    assert_eq!(
        load_code(&code(385)),
        format!("18 blocks {}", 15 * 512 + 4 + 9 * 20)
    );
}

/// Blocks are run whoever made them.
#[test]
fn code_that_no_translator_makes() {
    let list = list();
    let run_code = |code: &[Parts]| running(&list, &blocks_of(code, 5), &entry());
    // -(bit<8> of 256 - 32) is 32, d's value.
    let value = op(4, 0, 1, 0);
    let code = [push_int(224), convert(0, 8), plain(7), value, plain(9)];
    assert_eq!(run_code(&code), "A 5");
    // Two constants meet as matches: equal modulo 2^3.
    let code = [
        push_int(1),
        convert(3, 3),
        push_int(9),
        convert(3, 3),
        plain(9),
    ];
    assert_eq!(run_code(&code), "A 5");
    // The right operand is the uppermost.
    assert_eq!(run_code(&[push_int(1), push_int(2), op(9, 4, 0, 0)]), "A 3");
    assert_eq!(run_code(&[push_bool(1), push_bool(0), plain(12)]), "V 3");
    assert_eq!(run_code(&[push_bool(0), push_bool(1), plain(12)]), "A 3");
}

#[test]
fn no_keys() {
    let blocks = translated("1 < 2", &[]);
    assert_eq!(blocks[506..508], [0, 0]);
    assert_eq!(loading(&[], &blocks), "loaded 3");
    assert_eq!(running(&[], &blocks, &[0; 4]), "A 3");
    assert_eq!(running(&[], &blocks, &[0; 40]), "19 entry 40");
}

#[test]
fn the_largest_translation_fits() {
    // 256 comparisons of four instructions, 255 joins and the skip of each.
    let text = vec!["v==1"; 256].join(";");
    let mut buffer = vec![0; MOST_BLOCKS * BLOCK];
    let answer = translate(text.as_bytes(), &list(), &mut buffer);
    assert_eq!(answer, Answer::Translated(256 * 4 + 2 * 255));
}
