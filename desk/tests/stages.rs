//! Which stages each call has, and their order.

mod common;

use common::code::{plain, NOT};
use common::*;
use desk::reference::blocks::blocks_of;
use desk::reference::counting::MOST_ENTRIES;
use desk::reference::{check, compare, count, explain, fix_octal, judge, load};
use desk::reference::{print, read, run, translate};

const LONG: [u8; 4097] = [b' '; 4097];

#[test]
fn text_length_comes_first() {
    assert_eq!(short(read(&LONG)), "1@4096");
    assert_eq!(short(check(&LONG, &[0; 3])), "1@4096");
    assert_eq!(short(judge(&LONG, &[0; 3], &[])), "1@4096");
    assert_eq!(short(translate(&LONG, &[0; 3], &mut [])), "1@4096");
    assert_eq!(short(print(&LONG, &mut [])), "1@4096");
    assert_eq!(short(fix_octal(&LONG, &mut [])), "1@4096");
}

#[test]
fn list_comes_before_tokens() {
    assert_eq!(short(check(b"\xff", &[0; 3])), "2 list 3");
    assert_eq!(short(judge(b"\xff", &[0; 80], &[])), "3 list 0");
    assert_eq!(
        short(translate(b"\xff", &[0; 2640], &mut [])),
        "2 list 2640"
    );
    assert_eq!(short(read(b"\xff")), "5@0");
}

#[test]
fn tokens_before_grammar_before_types_before_entry() {
    assert_eq!(short(judge(b"true true @", &list(), &[])), "5@10");
    assert_eq!(short(judge(b"zz true", &list(), &[])), "8@3");
    assert_eq!(short(judge(b"zz", &list(), &[])), "11@0");
    assert_eq!(short(judge(b"1", &list(), &[])), "14@0");
    assert_eq!(short(judge(b"true", &list(), &[])), "19 entry 0");
    assert_eq!(short(judge(b"true", &list(), &[0xff; 184])), "20 entry 0");
}

/// A short buffer hides no fault of the text.
#[test]
fn buffer_comes_after_types() {
    assert_eq!(short(translate(b"d > 3", &list(), &mut [])), "13@2");
    assert_eq!(short(translate(b"1", &list(), &mut [])), "14@0");
    assert_eq!(short(translate(b"true", &list(), &mut [])), "15 buffer 0");
}

/// A print needs a tree first, and nothing else.
#[test]
fn buffer_of_a_print_comes_after_grammar() {
    assert_eq!(short(print(b"true true @", &mut [])), "5@10");
    assert_eq!(short(print(b"zz true", &mut [])), "8@3");
    assert_eq!(short(print(b"ipv4('bad')", &mut [])), "10@5");
    assert_eq!(short(print(b"zz > true", &mut [])), "21 buffer 0");
}

/// The pass over octal numerals needs tokens first, and nothing else.
#[test]
fn buffer_of_a_fixed_text_comes_after_tokens() {
    assert_eq!(short(fix_octal(b"0o7 @", &mut [])), "5@4");
    assert_eq!(short(fix_octal(b"0o7 0o8", &mut [])), "5@4");
    assert_eq!(short(fix_octal(b"0o7 true", &mut [])), "21 buffer 0");
    assert_eq!(short(fix_octal(b"ipv4('bad')", &mut [])), "21 buffer 0");
}

/// An octal numeral is refused with the tokens: after the list, before the grammar.
#[test]
fn octal_between_list_and_grammar() {
    assert_eq!(short(check(b"0o7", &[0; 3])), "2 list 3");
    assert_eq!(short(check(b"0o7", &[0; 80])), "3 list 0");
    assert_eq!(short(judge(b"true true 0o7", &list(), &[])), "22@10");
    assert_eq!(short(translate(b"zz == 0o7", &list(), &mut [])), "22@6");
    assert_eq!(short(print(b") 0o7", &mut [])), "22@2");
}

/// An explanation has the stages of a judgement.
#[test]
fn explain_as_judge() {
    let explained =
        |text: &[u8], list: &[u8], entry: &[u8]| short_explanation(explain(text, list, entry));
    assert_eq!(explained(&LONG, &[0; 3], &[]), "nothing 1@4096");
    assert_eq!(explained(b"\xff", &[0; 3], &[]), "nothing 2 list 3");
    assert_eq!(explained(b"zz true", &list(), &[]), "nothing 8@3");
    assert_eq!(explained(b"zz", &list(), &[]), "nothing 11@0");
    assert_eq!(explained(b"1", &list(), &[]), "nothing 14@0");
    assert_eq!(explained(b"false", &list(), &[]), "nothing 19 entry 0");
    assert_eq!(explained(b"false", &list(), &[0; 184]), "key @4 16..17");
    assert_eq!(explained(b"false", &list(), &entry()), "part 1 @0 0..5");
}

#[test]
fn load_and_run() {
    assert_eq!(short(load(&[0; 3], &[])), "2 list 3");
    assert_eq!(short(load(&list(), &[])), "16 blocks 0");
    assert_eq!(short(run(&list(), &[0; 512], &[])), "17 blocks 0");
    let blocks = translated("true", &list());
    assert_eq!(short(run(&list(), &blocks, &[])), "19 entry 0");
    assert_eq!(short(run(&list(), &blocks, &[0xff; 184])), "20 entry 0");
    assert_eq!(short(run(&list(), &blocks, &entry())), "A 1");
}

/// Load and run take the list that they are given; nothing is remembered.
#[test]
fn blocks_against_another_list() {
    let blocks = translated("d == 1", &list());
    let other = "v exact 1\nd ternary 9\np lpm 8\nr range 16\no optional 4\n";
    assert_eq!(loading(&list_of(other), &blocks), "18 blocks 64");
    assert_eq!(loading(&list_of("v exact 1"), &blocks), "17 blocks 0");
}

/// A refusal changes nothing lent.
#[test]
fn refused_translation_leaves_the_buffer() {
    for (text, length, wanted) in [
        ("d > 3", 600, "13@2"),
        ("v == 1", 511, "15 buffer 511"),
        ("true;;", 512, "8@5"),
    ] {
        let mut buffer = vec![0x5a; length];
        assert_eq!(
            short(translate(text.as_bytes(), &list(), &mut buffer)),
            wanted
        );
        assert!(buffer.iter().all(|&byte| byte == 0x5a), "{text}");
    }
}

/// Whatever is wrong with text or list hides that there are too many entries, and what
/// is wrong with an entry hides nothing.
#[test]
fn entries_to_count_come_last() {
    let too_many = vec![0xff; 4 * (MOST_ENTRIES + 1)];
    let counting = |text: &[u8], list: &[u8], entries: &[u8]| match count(text, list, entries) {
        Ok(counts) => counts.to_string(),
        Err(refusal) => short(refusal.into()),
    };
    assert_eq!(counting(&LONG, &[0; 3], &too_many), "1@4096");
    assert_eq!(counting(b"\xff", &[0; 3], &too_many), "2 list 3");
    assert_eq!(counting(b"\xff", &[0; 80], &too_many), "3 list 0");
    for (text, wanted) in [
        ("", "8@0"),
        ("true true @", "5@10"),
        ("1 == 0o1", "22@5"),
        ("zz true", "8@3"),
        ("zz", "11@0"),
        ("::priority > true", "13@11"),
        ("1", "14@0"),
        ("true", "25 entry 4000000"),
    ] {
        assert_eq!(counting(text.as_bytes(), &[], &too_many), wanted);
    }
    let refused = &too_many[..8];
    assert_eq!(counting(b"true", &[], refused), "counted 0 0 2 0 0");
}

/// Whatever is wrong with list or blocks hides what is wrong with a table, and a wrong
/// length hides that there are too few answers. None of it changes an answer, and what is
/// wrong with an entry hides nothing.
#[test]
fn tables_come_after_blocks() {
    let list = list();
    let good = translated("true", &list);
    let bad_code = blocks_of(&[plain(NOT)], 5);
    let bad_check = [&good[..511], &[0xff]].concat();
    let twice = list_of("v exact 1").repeat(2);
    let (cut, whole) = ([0xff; 2 * 184 + 1], [0xff; 2 * 184]);
    for (list, blocks, wanted) in [
        (&vec![0; 3], &[][..], "2 list 3"),
        (&vec![0; 2_640], &[0; 512], "2 list 2640"),
        (&vec![0; 80], &[0; 512], "3 list 0"),
        (&twice, &bad_code, "4 list 80"),
        (&list, &[], "16 blocks 0"),
        (&list, &good[..511], "16 blocks 511"),
        (&list, &bad_check, "17 blocks 0"),
        (&list, &bad_code, "18 blocks 4"),
        (&list_of("v exact 1"), &good, "17 blocks 0"),
    ] {
        for entries in [&[][..], &cut[..1], &cut, &whole] {
            for answers in [&[][..], &[0x5a; 1], &[0x5a; 9]] {
                let said = running_all(list, blocks, entries, answers);
                assert_eq!(said, (wanted.to_string(), answers.to_vec()));
            }
        }
    }
    for (entries, answers, wanted, after) in [
        (&cut[..], &[][..], "19 entry 369", &[][..]),
        (&cut[1..], &[0x5a; 1], "15 buffer 1", &[0x5a; 1]),
        (&cut[2..], &[0x5a; 1], "19 entry 367", &[0x5a; 1]),
        (&whole, &[0x5a; 3], "ran 2 0", &[0, 0, 0x5a]),
    ] {
        let said = running_all(&list, &good, entries, answers);
        assert_eq!(said, (wanted.to_string(), after.to_vec()));
    }
}

/// Whatever is wrong with text or list hides what is wrong with the blocks.
#[test]
fn blocks_to_compare_come_last() {
    let comparing = |text: &[u8], list: &[u8], blocks: &[u8]| short(compare(text, list, blocks));
    let bad_code = blocks_of(&[plain(NOT)], 5);
    let no_code = [0; 512];
    assert_eq!(comparing(&LONG, &[0; 3], &[]), "1@4096");
    assert_eq!(comparing(b"\xff", &[0; 3], &[]), "2 list 3");
    assert_eq!(comparing(b"\xff", &[0; 80], &[]), "3 list 0");
    for (text, wanted) in [
        ("", "8@0"),
        ("true true @", "5@10"),
        ("v == 0o1", "22@5"),
        ("zz true", "8@3"),
        ("zz", "11@0"),
        ("d > 3", "13@2"),
        ("v == 2", "23@5"),
        ("1", "14@0"),
    ] {
        for blocks in [&[][..], &[0; 3], &no_code, &bad_code] {
            assert_eq!(comparing(text.as_bytes(), &list(), blocks), wanted);
        }
    }
    assert_eq!(comparing(b"true", &list(), &[]), "16 blocks 0");
    assert_eq!(comparing(b"true", &list(), &no_code), "17 blocks 0");
    assert_eq!(comparing(b"true", &list(), &bad_code), "18 blocks 4");
}
