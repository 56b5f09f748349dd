//! Blocks of another translator held against a text: its parts, each used once, in some
//! order, joined from the left.

mod common;

use common::code::*;
use common::*;
use desk::reference::blocks::{all_parts, blocks_of, instruction_place};
use desk::reference::code::Parts;
use desk::reference::{compare, Answer};

const THREE: [&str; 3] = ["v == 1", "::priority < 10", "true"];

/// All orders of three.
const ORDERS: [[usize; 3]; 6] = [
    [0, 1, 2],
    [0, 2, 1],
    [1, 0, 2],
    [1, 2, 0],
    [2, 0, 1],
    [2, 1, 0],
];

fn in_order(order: [usize; 3]) -> String {
    order.map(|index| THREE[index]).join("; ")
}

/// Each blocks' text with the answer for one text.
fn each(text: &str, cases: &[(&str, &str)]) {
    for (made_of, wanted) in cases {
        assert_eq!(
            comparing_texts(text, made_of),
            *wanted,
            "{text} / {made_of}"
        );
    }
}

#[test]
fn all_orders_of_three_parts() {
    for text in ORDERS {
        for made_of in ORDERS {
            assert_eq!(
                comparing_texts(&in_order(text), &in_order(made_of)),
                "agrees",
                "{text:?} {made_of:?}"
            );
        }
    }
}

/// Any other byte of a constant is another translation, or code that does not load.
#[test]
fn one_byte_of_a_constant() {
    for order in ORDERS {
        let made = translated(&in_order(order), &list());
        for index in 0..usize::from(made[3]) {
            for byte in 4..Parts::SIZE {
                let mut blocks = made.clone();
                blocks[instruction_place(index) + byte] ^= 1;
                repair(&mut blocks);
                let wanted = match load_blocks(&blocks) {
                    Answer::Loaded(_) => "differs".to_string(),
                    refused => short(refused),
                };
                assert_eq!(comparing(in_order([0, 1, 2]), &blocks), wanted);
            }
        }
    }
}

fn load_blocks(blocks: &[u8]) -> Answer {
    desk::reference::load(&list(), blocks)
}

/// A part that is left out, used twice, or used in the place of another.
#[test]
fn each_part_is_used_once() {
    each(
        "v == 1; true",
        &[
            ("true; v == 1", "agrees"),
            ("true; true", "differs"),
            ("v == 1; v == 1", "differs"),
            ("v == 1", "differs"),
            ("true", "differs"),
            ("true; v == 1; true", "differs"),
            ("v == 1; true; v == 1", "differs"),
        ],
    );
    each(
        "true; true; false",
        &[
            ("true; false; true", "agrees"),
            ("false; true; true", "agrees"),
            ("true; false; false", "differs"),
            ("true; false", "differs"),
            ("true; true; true", "differs"),
            ("true; true; true; false", "differs"),
        ],
    );
}

/// The parts go by the text's parentheses, their codes by the tree.
#[test]
fn parts_in_parentheses() {
    each(
        "(v == 1; true); false",
        &[
            ("false; (v == 1; true)", "agrees"),
            ("v == 1; true; false", "agrees"),
            ("((v == 1; true); false)", "agrees"),
            ("true; v == 1; false", "differs"),
            ("v == 1; false; true", "differs"),
            ("false; v == 1; true", "differs"),
            ("false; (true; v == 1)", "differs"),
        ],
    );
    // One part only: nothing may be moved.
    each(
        "(v == 1; true; false);",
        &[
            ("v == 1; true; false", "agrees"),
            ("v == 1 && true && false", "agrees"),
            ("true; v == 1; false", "differs"),
            ("v == 1; false; true", "differs"),
        ],
    );
    each("v == 1 && true", &[("true && v == 1", "differs")]);
}

#[test]
fn joined_from_the_left() {
    each(
        "v == 1; true; false",
        &[
            ("v == 1; (true; false)", "differs"),
            ("(true; false); v == 1", "agrees"),
            ("false && true && v == 1", "agrees"),
            ("false && (true && v == 1)", "differs"),
            ("v == 1; true || false", "differs"),
            ("(v == 1; true) -> false", "differs"),
        ],
    );
    each(
        "v == 1; (true; false)",
        &[
            ("(true; false); v == 1", "agrees"),
            ("v == 1; (true; false)", "agrees"),
            ("v == 1; true; false", "differs"),
        ],
    );
}

/// Parts whose codes begin or end as others do: neither the first that fits at the
/// front nor the longest is always the right one.
#[test]
fn parts_that_begin_as_others_do() {
    let texts = ["v == 1; v == 1 && true", "v == 1 && true; v == 1"];
    for text in texts {
        each(text, &texts.map(|made_of| (made_of, "agrees")));
        each(
            text,
            &[
                ("v == 1; v == 1; true", "differs"),
                ("v == 1; true; v == 1", "agrees"),
                ("true; v == 1; v == 1", "differs"),
            ],
        );
    }
    // The code of the first is that of the other two, in this order.
    each(
        "v == 1 && true; v == 1; true",
        &[
            ("v == 1; true; v == 1; true", "agrees"),
            ("v == 1; true; true; v == 1", "agrees"),
            ("v == 1; v == 1; true; true", "differs"),
            ("v == 1; v == 1 && true; true", "agrees"),
            ("true; v == 1; v == 1 && true", "agrees"),
        ],
    );
    each(
        "!true; true; !!true",
        &[
            ("!!true; !true; true", "agrees"),
            ("true; !!true; !true", "agrees"),
            ("!true; !true; !true", "differs"),
        ],
    );
}

/// What is spelled differently and translates alike is alike.
#[test]
fn spellings_that_translate_alike() {
    each(
        "d::mask == 1; (true; false)",
        &[
            ("d::mask == 0x01; true && false", "agrees"),
            ("true && false; d::mask == ipv4('0.0.0.1')", "agrees"),
            ("true && false;// remark\n(d :: mask == 0b1);", "agrees"),
            ("1 == d::mask; true && false", "differs"),
            ("d::mask == 2; true && false", "differs"),
            ("d::value == 1; true && false", "differs"),
            ("d::mask != 1; true && false", "differs"),
        ],
    );
}

/// Blocks of an older translator mean the same, but are not what we would make.
#[test]
fn skips_are_those_that_we_place() {
    let text = "true; false && true; true";
    let skip_of_and = skip_on(false, false, 2);
    let [f, t, and] = [push_bool(0), push_bool(1), plain(AND)];
    let own = [t, skip(5), f, skip_of_and, t, and, and, skip(2), t, and];
    assert_eq!(comparing(text, &blocks_of(&own, 5)), "agrees");
    let older: Vec<Parts> = own
        .iter()
        .copied()
        .filter(|parts| parts.operation != Parts::SKIP)
        .collect();
    assert_eq!(load_code(&older), "loaded 7");
    assert_eq!(comparing(text, &blocks_of(&older, 5)), "differs");
    // One that is left out, lands elsewhere, or is another.
    for (index, other) in [
        (1, None),
        (3, None),
        (7, None),
        (1, Some(skip(8))),
        (1, Some(skip_on(false, true, 5))),
        (3, Some(skip_on(true, false, 2))),
        (7, Some(skip_on(true, true, 2))),
    ] {
        let mut code = own.to_vec();
        match other {
            Some(other) => code[index] = other,
            None => {
                code.remove(index);
                if index == 3 {
                    code[1] = skip(4);
                }
            }
        }
        assert_eq!(load_code(&code), format!("loaded {}", code.len()));
        assert_eq!(comparing(text, &blocks_of(&code, 5)), "differs", "{index}");
    }
    // Without joins there are none.
    let block = blocks_of(&[t], 5);
    assert_eq!(comparing("(true);", &block), "agrees");
}

/// Blocks that do not load are refused as `load` refuses them; they never differ.
#[test]
fn blocks_that_do_not_load() {
    let text = "v == 1; true";
    let good = translated(text, &list());
    let mut bad_check = good.clone();
    bad_check[511] ^= 1;
    let mut bad_code = good.clone();
    bad_code[instruction_place(0) + 19] = 1;
    repair(&mut bad_code);
    let other_count = blocks_of(&[push_bool(1)], 4);
    for (blocks, wanted) in [
        (&good[..], "agrees"),
        (&[], "16 blocks 0"),
        (&good[..511], "16 blocks 511"),
        (&vec![0; 124 * 512], "16 blocks 63488"),
        (&bad_check, "17 blocks 0"),
        (&other_count, "17 blocks 0"),
        (&bad_code, "18 blocks 4"),
        (&blocks_of(&[push_bool(1); 2], 5), "18 blocks 512"),
    ] {
        assert_eq!(comparing(text, blocks), wanted);
    }
}

/// A text that is refused is refused here too, though blocks of it were good.
#[test]
fn texts_that_old_blocks_were_made_of() {
    let blocks = translated("d::mask == 8", &list());
    assert_eq!(comparing("d::mask == 8", &blocks), "agrees");
    assert_eq!(comparing("d::mask == 0o10", &blocks), "22@11");
    let reduced = [op(4, 1, 1, 0), push_int(0x1f0), convert(0, 8), plain(EQUAL)];
    assert_eq!(load_code(&reduced), "loaded 4");
    assert_eq!(
        comparing("d::mask == 0x1f0", &blocks_of(&reduced, 5)),
        "23@11"
    );
    assert_eq!(comparing("", &[]), "8@0");
}

/// Operands are indices, so that keys in another order are others.
#[test]
fn blocks_for_another_list() {
    let keys = ["a exact 8", "b exact 8"];
    let [list, other] = [[0, 1], [1, 0]].map(|order| list_of(&order.map(|i| keys[i]).join("\n")));
    let text = "a == 1; b == 2";
    let blocks = translated(text, &list);
    let answer = |text: &str, list: &[u8]| short(compare(text.as_bytes(), list, &blocks));
    assert_eq!(answer(text, &list), "agrees");
    assert_eq!(answer(text, &other), "differs");
    assert_eq!(answer("b == 1; a == 2", &other), "agrees");
    assert_eq!(
        answer(text, &list_of("a exact 8\nb exact 9")),
        "18 blocks 164"
    );
    assert_eq!(answer("true", &list_of(keys[0])), "17 blocks 0");
    assert_eq!(answer(text, &list_of(keys[0])), "11@8");
}

/// 512 parts, the most that there may be: all equal, of two sorts, and one of them
/// another.
#[test]
fn as_many_parts_as_there_may_be() {
    let row = |of: &dyn Fn(usize) -> bool| -> String {
        (0..512).map(|index| format!("{};", of(index))).collect()
    };
    let all = row(&|_| true);
    let half = row(&|index| index < 256);
    let in_turn = row(&|index| index % 2 == 1);
    let but_last = row(&|index| index < 511);
    let but_first = row(&|index| index > 0);
    let fewer = "true;".repeat(511);
    for (text, made_of, wanted) in [
        (&all, &all, "agrees"),
        (&half, &in_turn, "agrees"),
        (&in_turn, &half, "agrees"),
        (&but_last, &but_first, "agrees"),
        (&but_first, &but_last, "agrees"),
        (&all, &but_first, "differs"),
        (&but_last, &all, "differs"),
        (&half, &but_last, "differs"),
        (&all, &fewer, "differs"),
        (&fewer, &all, "differs"),
    ] {
        assert_eq!(comparing_texts(text, made_of), wanted);
    }
    assert_eq!(comparing(format!("{all}true"), &[]), "7@2560");
}

/// Parts that are all different, in the order that is farthest from theirs, and code
/// that nearly all of them begin.
#[test]
fn many_parts_that_differ() {
    let parts: Vec<String> = (0..170).map(|number| format!("r::low=={number}")).collect();
    let mut turned = parts.clone();
    turned.reverse();
    assert_eq!(
        comparing_texts(&parts.join(";"), &turned.join(";")),
        "agrees"
    );
    turned[100] = "r::low==300".to_string();
    assert_eq!(
        comparing_texts(&parts.join(";"), &turned.join(";")),
        "differs"
    );
    let chains: Vec<String> = (1..30)
        .map(|count| vec!["true"; count].join("&&"))
        .collect();
    let mut turned = chains.clone();
    turned.reverse();
    assert_eq!(
        comparing_texts(&chains.join(";"), &turned.join(";")),
        "agrees"
    );
    turned.swap(3, 9);
    assert_eq!(
        comparing_texts(&chains.join(";"), &turned.join(";")),
        "agrees"
    );
    turned[9] = turned[10].clone();
    assert_eq!(
        comparing_texts(&chains.join(";"), &turned.join(";")),
        "differs"
    );
}

/// What the blocks hold that are compared here.
#[test]
fn blocks_are_those_of_the_other_text() {
    let blocks = translated("true; v == 1", &list());
    let code: Vec<Parts> = all_parts(&blocks, usize::from(blocks[3])).collect();
    let compared = [op(3, 0, 0, 0), push_int(1), convert(0, 1), plain(EQUAL)];
    let wanted = [&[push_bool(1), skip(5)][..], &compared, &[plain(AND)]].concat();
    assert_eq!(code, wanted);
}
