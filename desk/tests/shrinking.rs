//! What is left of a request when the comparison makes it smaller.

mod common;

use common::code::*;
use common::{entry_of, list, list_of, translated};
use desk::compare::pieces::{Deed, Division};
use desk::entry_tables::AnswersAndEntries;
use desk::reference::blocks::{all_parts, blocks_of};
use desk::reference::code::Parts;
use desk::requests::{Call, Request};
use desk::tables::TableAndBuffer;

/// A text is made smaller by its tokens although a call refuses it for one of them.
#[test]
fn smaller_texts_keep_octal_numerals() {
    let text = b"v == 0o7 // remark\n && true";
    for call in [Call::Read, Call::FixOctal] {
        let request = Request::new(call, text.to_vec(), Vec::new(), Vec::new());
        assert_eq!(Division::Tokens.count(&request), 5);
        let smaller = Division::Tokens.simpler(&request, Deed::Drop, 0..2);
        assert_eq!(smaller.inputs[0], b"0o7 // remark\n && true");
    }
}

/// Each skip lands where it did, or at the next instruction that is left.
#[test]
fn smaller_code_keeps_its_landings() {
    let t = push_bool(1);
    let and = plain(AND);
    let code = [t, skip(4), t, skip(2), t, and, and, skip(9)];
    let request = Request::new(Call::Load, list(), blocks_of(&code, 5), Vec::new());
    let left = |deed, stretch| {
        let smaller = Division::Instructions.simpler(&request, deed, stretch);
        let blocks = &smaller.inputs[1];
        all_parts(blocks, usize::from(blocks[3])).collect::<Vec<Parts>>()
    };
    let dropped = [t, skip(2), t, and, and, skip(9)];
    assert_eq!(left(Deed::Drop, 3..5), dropped);
    let replaced = [t, skip(2), push_bool(0), and, and, skip(9)];
    assert_eq!(left(Deed::False, 2..5), replaced);
    // The landing itself is left out.
    let without_landing = [t, skip(3), t, skip(1), t, skip(9)];
    assert_eq!(left(Deed::Drop, 5..7), without_landing);
}

/// A contract is made smaller by its assertions, with the conjunctions before them,
/// and by the numbers of its table; the buffer stays.
#[test]
fn smaller_contracts_keep_whole_assertions() {
    let contract = vec![0x04, 0x01, 0xc0, 0x00, 0x02, 0x84, 0x68, 0x13, 0x08];
    let lent = |table: &[u64]| {
        let (table, buffer) = (table.to_vec(), vec![7; 3]);
        TableAndBuffer { table, buffer }.to_bytes()
    };
    let request = Request::new(Call::Pact, contract, Vec::new(), lent(&[1, 2, 3]));
    assert_eq!(Division::Assertions.count(&request), 4);
    let smaller = Division::Assertions.simpler(&request, Deed::Drop, 1..2);
    let without_second = [0x04, 0x01, 0x84, 0x68, 0x13, 0x08];
    assert_eq!(smaller.inputs[0], without_second);
    let smaller = Division::Assertions.simpler(&request, Deed::Drop, 2..4);
    assert_eq!(smaller.inputs[0], [0x04, 0x01, 0xc0, 0x00, 0x02]);
    assert_eq!(Division::Numbers.count(&request), 3);
    let smaller = Division::Numbers.simpler(&request, Deed::Drop, 0..2);
    assert_eq!(smaller.inputs[2], lent(&[3]));
    assert_eq!(Division::Tokens.count(&request), 0);
}

/// Parentheses go in pairs, several at once.
#[test]
fn smaller_texts_keep_pairs_of_parentheses() {
    let text = b"((true)) && !(v == (1)".to_vec();
    let request = Request::new(Call::Read, text, Vec::new(), Vec::new());
    // One opening parenthesis has no other.
    assert_eq!(Division::Parentheses.count(&request), 3);
    for (stretch, wanted) in [
        (0..1, "(true)&& !(v == (1)"),
        (1..3, "(true) && !(v == 1"),
        (0..3, "true&& !(v == 1"),
    ] {
        let smaller = Division::Parentheses.simpler(&request, Deed::Drop, stretch);
        assert_eq!(smaller.inputs[0].escape_ascii().to_string(), wanted);
    }
}

/// Entries laid end to end lose whole ones, the records of keys, or what is cut.
#[test]
fn smaller_files_keep_whole_entries() {
    let keys = "v exact 1\nd ternary 8\nr range 16";
    let whole = ["v 1; priority 1", "v 0; priority 2", "d 1; priority 3"];
    let [one, two, three] = whole.map(|entry| entry_of(keys, entry));
    let cut = two[..50].to_vec();
    let entries = [one.clone(), two.clone(), three.clone(), cut.clone()].concat();
    let text = b"v == 1; (true; false);".to_vec();
    let request = Request::new(Call::Count, text, list_of(keys), entries);
    assert_eq!(request.answer_line(), "counted 0 2 1 50 1 2");
    assert_eq!(Division::Entries.count(&request), 3);
    assert_eq!(Division::Cut.count(&request), 50);
    let simpler = |division: Division, deed, stretch| division.simpler(&request, deed, stretch);
    let smaller = simpler(Division::Entries, Deed::Drop, 1..2);
    assert_eq!(smaller.inputs[2], [one, three.clone(), cut].concat());
    let smaller = simpler(Division::Entries, Deed::Drop, 0..2);
    assert_eq!(smaller.inputs[2], [&three[..], &two[..50]].concat());
    let smaller = simpler(Division::Cut, Deed::Drop, 0..49);
    assert_eq!(
        smaller.inputs[2][..],
        [&request.inputs[2][..336], &two[49..50]].concat()
    );
    assert_eq!(smaller.answer_line(), "counted 0 2 1 1 1 2");
    // The cut entry has ten bytes of the record of d, and loses them with it.
    let smaller = simpler(Division::Keys, Deed::Drop, 1..2);
    let fewer = "v exact 1\nr range 16";
    let left =
        ["v 1; priority 1", "v 0; priority 2", "priority 3"].map(|entry| entry_of(fewer, entry));
    assert_eq!(smaller.inputs[1], list_of(fewer));
    assert_eq!(
        smaller.inputs[2],
        [left.concat(), two[..40].to_vec()].concat()
    );
    assert_eq!(smaller.answer_line(), "counted 0 2 1 40 1 2");
    // Parts go without code.
    assert_eq!(Division::Parts.count(&request), 2);
    let smaller = simpler(Division::Parts, Deed::Drop, 0..1);
    assert_eq!(smaller.inputs[0], b"(true; false)");
    assert_eq!(smaller.inputs[2], request.inputs[2]);
    let smaller = simpler(Division::Parts, Deed::True, 1..2);
    assert_eq!(smaller.inputs[0], b"v == 1;true");
    let judgement = Request::new(Call::Judge, b"true; true".to_vec(), Vec::new(), vec![0; 9]);
    for division in [Division::Entries, Division::Cut, Division::Parts] {
        assert_eq!(division.count(&judgement), 0);
    }
}

/// A table loses whole entries with their answers or without, answers by themselves, the
/// records of keys, or what is cut; the length of the answers is told rightly each time.
#[test]
fn smaller_tables_keep_their_answers() {
    let keys = "v exact 1\nd ternary 8\nr range 16";
    let [one, two] = ["v 1; priority 1", "v 0; priority 2"].map(|entry| entry_of(keys, entry));
    let lent = |answers: &[u8], entries: &[&[u8]]| {
        let (answers, entries) = (answers.to_vec(), entries.concat());
        AnswersAndEntries { answers, entries }.to_bytes()
    };
    let asking = |third| {
        let list = list_of(keys);
        let blocks = translated("v == 1", &list);
        Request::new(Call::RunAll, list, blocks, third)
    };
    let request = asking(lent(&[7, 8, 9, 6], &[&one, &two, &one, &two[..50]]));
    assert!(request.answer_line().starts_with("refused 19 entry 386 "));
    let count = |division: Division| division.count(&request);
    assert_eq!([Division::Entries, Division::Answered].map(count), [3, 3]);
    assert_eq!([Division::Answers, Division::Cut].map(count), [4, 50]);
    assert_eq!([Division::Parts, Division::Tokens].map(count), [0, 0]);
    for (division, stretch, wanted) in [
        (
            Division::Answered,
            1..2,
            lent(&[7, 9, 6], &[&one, &one, &two[..50]]),
        ),
        (Division::Answered, 0..3, lent(&[6], &[&two[..50]])),
        (
            Division::Entries,
            0..2,
            lent(&[7, 8, 9, 6], &[&one, &two[..50]]),
        ),
        (
            Division::Answers,
            1..4,
            lent(&[7], &[&one, &two, &one, &two[..50]]),
        ),
        (
            Division::Cut,
            0..50,
            lent(&[7, 8, 9, 6], &[&one, &two, &one]),
        ),
        (
            Division::Cut,
            2..50,
            lent(&[7, 8, 9, 6], &[&one, &two, &one, &two[..2]]),
        ),
    ] {
        let smaller = division.simpler(&request, Deed::Drop, stretch);
        assert_eq!(smaller, asking(wanted));
    }
    // The cut entry has ten bytes of the record of d, and loses them with it.
    let smaller = Division::Keys.simpler(&request, Deed::Drop, 1..2);
    let fewer = "v exact 1\nr range 16";
    let [one, two] = ["v 1; priority 1", "v 0; priority 2"].map(|entry| entry_of(fewer, entry));
    assert_eq!(smaller.inputs[0], list_of(fewer));
    assert_eq!(smaller.inputs[1], translated("v == 1", &list_of(fewer)));
    let wanted = lent(&[7, 8, 9, 6], &[&one, &two, &one, &two[..40]]);
    assert_eq!(smaller.inputs[2], wanted);
    // No piece is found where the answers are not whole.
    let malformed = asking(vec![0, 0, 0, 1]);
    for division in [
        Division::Entries,
        Division::Answered,
        Division::Answers,
        Division::Cut,
    ] {
        assert_eq!(division.count(&malformed), 0);
    }
}

/// A part of a text goes with its code, wherever the other translator has put it, or
/// becomes true with it; all other landings stay.
#[test]
fn smaller_texts_keep_blocks_that_agree() {
    let blocks = translated("(true; false); v == 1; d == 2 && true", &list());
    let text = b"v == 1; // remark\n d == 2 && true ; (true; false);".to_vec();
    let request = Request::new(Call::Compare, text, list(), blocks);
    assert_eq!(request.answer_line(), "agrees");
    assert_eq!(Division::Parts.count(&request), 3);
    for (deed, stretch, text, as_made) in [
        (
            Deed::Drop,
            0..1,
            "d == 2 && true;(true; false)",
            "(true; false); d == 2 && true",
        ),
        (
            Deed::Drop,
            2..3,
            "v == 1;d == 2 && true",
            "v == 1; d == 2 && true",
        ),
        (Deed::Drop, 1..3, "v == 1", "v == 1"),
        (
            Deed::True,
            1..2,
            "v == 1;true;(true; false)",
            "(true; false); v == 1; true",
        ),
        (Deed::True, 0..3, "true;true;true", "true; true; true"),
    ] {
        let smaller = Division::Parts.simpler(&request, deed, stretch);
        assert_eq!(smaller.inputs[0], text.as_bytes());
        assert_eq!(smaller.inputs[2], translated(as_made, &list()), "{text}");
        assert_eq!(smaller.answer_line(), "agrees");
    }
    // There is nothing to do where text or blocks are refused.
    let mut refused = request.clone();
    refused.inputs[0].push(b'@');
    assert_eq!(Division::Parts.count(&refused), 0);
    let mut refused = request;
    refused.inputs[2].pop();
    assert_eq!(Division::Parts.count(&refused), 0);
}
