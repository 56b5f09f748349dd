//! Document 01, "Marked judgements", and the block that it spells out.

mod common;

use common::*;
use desk::reference::{translate, Answer};

#[test]
fn sixteen_judgements() {
    let cases = [
        ("", "8@0"),
        ("true;", "A"),
        ("true;;", "8@5"),
        ("v == 1", "A"),
        ("v == 1 == 1", "8@7"),
        ("!v == 1", "13@0"),
        ("d == 0x20", "V"),
        ("d::mask == -16", "A"),
        ("-1 < v::value", "V"),
        ("p::prefix_length <= 64", "A"),
        ("o::mask == 0", "A"),
        ("::priority < 10", "V"),
        ("d > 3", "13@2"),
        ("v == true", "13@2"),
        ("true -> false -> true", "8@14"),
        ("-v == 1", "A"),
    ];
    all(judging, cases.to_vec());
}

/// What is accepted or violated from the text is so from its blocks, in as many
/// steps as there are instructions, for no text has a join.
#[test]
fn judgements_of_the_translations() {
    for (text, wanted) in [
        ("true;", "A 1"),
        ("v == 1", "A 4"),
        ("d == 0x20", "V 4"),
        ("d::mask == -16", "A 5"),
        ("-1 < v::value", "V 5"),
        ("p::prefix_length <= 64", "A 3"),
        ("o::mask == 0", "A 4"),
        ("::priority < 10", "V 3"),
        ("-v == 1", "A 5"),
    ] {
        let blocks = translated(text, &list());
        assert_eq!(running(&list(), &blocks, &entry()), wanted, "{text}");
    }
}

#[test]
fn block_of_case_four() {
    let mut wanted = [0u8; 512];
    wanted[3] = 4;
    // Push key 0; push int 1; convert to bit<1>; compare ==.
    wanted[4] = 3;
    wanted[24] = 2;
    wanted[43] = 1;
    wanted[44] = 8;
    wanted[47] = 1;
    wanted[64] = 9;
    wanted[504..].copy_from_slice(&[0, 4, 0, 5, 0xeb, 0xe4, 0x16, 0x0f]);

    let mut buffer = [0xaa; 600];
    let answer = translate(b"v == 1", &list(), &mut buffer);
    assert_eq!(answer, Answer::Translated(4));
    assert_eq!(buffer[..512], wanted);
    assert_eq!(buffer[512..], [0xaa; 88]);
    assert_eq!(loading(&list(), &wanted), "loaded 4");
}
