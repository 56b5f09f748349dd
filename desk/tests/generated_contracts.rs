//! What is true of every contract that is made into a text, and what the generated
//! requests reach of contracts.

mod common;

use std::collections::BTreeMap;

use common::generated;
use desk::generate::contracts::{good, Draft};
use desk::generate::rng::Rng;
use desk::reference::calls::{text_tree, LONGEST_TEXT};
use desk::reference::contracts::clauses;
use desk::reference::drafting::{surely_too_long, tree_of};
use desk::reference::entries::{Entry, Record};
use desk::reference::grammar::MOST_LEVELS;
use desk::reference::keys::{name_list, Key};
use desk::reference::pact::{self, Clause, Opcode, MOST_INDICES};
use desk::reference::printing::print_of;
use desk::reference::tokens::{tokens, MOST_TOKENS};
use desk::reference::{check, judge, read, Answer, Input};
use desk::requests::{Call, Request};

/// The text of a draft in the longest buffer that a text needs.
fn text_of(draft: &Draft) -> Result<Vec<u8>, Answer> {
    let mut buffer = vec![0; LONGEST_TEXT];
    match desk::reference::pact(&draft.contract, &draft.table, &draft.names, &mut buffer) {
        Answer::Drafted(length) => Ok(buffer[..length].to_vec()),
        refused => Err(refused),
    }
}

fn draft_of(request: &Request) -> Option<(Draft, Vec<u8>)> {
    let (_, lent) = request.table_and_buffer()?;
    let [contract, names, _] = request.inputs.clone();
    let table = lent.table;
    let draft = Draft {
        contract,
        table,
        names,
    };
    Some((draft, lent.buffer))
}

/// An entry with these inputs.
fn entry_with(inputs: &[u64]) -> Vec<u8> {
    let records = inputs.iter().map(|&input| Record {
        present: true,
        prefix_length: 0,
        first: u128::from(input),
        second: 0,
    });
    let entry = Entry {
        priority: 0,
        records: records.collect(),
    };
    entry.to_bytes()
}

/// Inputs that meet the table's numbers and one another, or lie next to them.
fn inputs_for(rng: &mut Rng, draft: &Draft) -> Vec<u64> {
    let mut inputs: Vec<u64> = Vec::new();
    for _ in 0..draft.names.len() / Key::SIZE {
        let met: Vec<u64> = [&draft.table[..], &inputs, &[0]].concat();
        let near = rng.pick(&met);
        inputs.push(match rng.below(6) {
            0 => rng.bits(),
            1 => near.wrapping_add(1),
            2 => near.wrapping_sub(1),
            _ => near,
        });
    }
    inputs
}

/// What a contract says, from its bytes alone and one after another, as 000 has it:
/// "interpretation requires zero look-ahead".
fn interpreted(contract: &[u8], inputs: &[u64], users: &[u64]) -> bool {
    const CONJUNCTION: u8 = 0x80;
    const NOT: u8 = 0x40;
    const INPUT_VS_INPUT: u8 = 0x20;
    let (mut all, mut clause, mut joining) = (true, true, None);
    let mut bytes = contract.iter();
    while let Some(&opcode) = bytes.next() {
        if opcode & CONJUNCTION != 0 {
            joining = Some(opcode);
            continue;
        }
        let index = *bytes.next().expect("a good contract");
        let from = if opcode & INPUT_VS_INPUT != 0 {
            inputs
        } else {
            users
        };
        let (i, j) = (
            inputs[usize::from(index / 16)],
            from[usize::from(index % 16)],
        );
        let truth = [i == j, i > j, i >= j][usize::from(opcode / 4 % 8)] ^ (opcode & NOT != 0);
        clause = match joining.take() {
            // A new clause: the one before it is settled.
            None => {
                all &= clause;
                truth
            }
            Some(link) => {
                let linked = [clause & truth, clause | truth, clause ^ truth];
                linked[usize::from(link / 4 % 16)] ^ (link & NOT != 0)
            }
        };
    }
    all & clause
}

/// The text judged on an entry with those inputs is what the contract says.
#[test]
fn a_text_means_what_its_contract_means() {
    let (mut accepted, mut violated) = (0, 0);
    for index in 0..4_000 {
        let mut rng = Rng::for_item(31, index);
        let draft = good(&mut rng);
        let text = text_of(&draft).expect("a short contract");
        let names = draft.names.len() / Key::SIZE;
        let clauses = clauses(&draft.contract, names, draft.table.len()).expect("good");
        for _ in 0..4 {
            let inputs = inputs_for(&mut rng, &draft);
            let wanted = interpreted(&draft.contract, &inputs, &draft.table);
            assert_eq!(pact::holds(&clauses, &inputs, &draft.table), wanted);
            let found = match judge(&text, &draft.names, &entry_with(&inputs)) {
                Answer::Accepted => true,
                Answer::Violated => false,
                other => panic!("{other}: {}", text.escape_ascii()),
            };
            assert_eq!(found, wanted, "{}", text.escape_ascii());
            accepted += usize::from(wanted);
            violated += usize::from(!wanted);
        }
    }
    assert!(
        accepted > 4_000 && violated > 4_000,
        "{accepted} {violated}"
    );
}

/// The bytes of clauses are the contract that they were read from: nothing is added to
/// it, dropped from it or read in another way.
#[test]
fn clauses_are_their_contract() {
    let mut read = 0;
    for index in 0..6_000 {
        let Some((draft, _)) = draft_of(&generated(Call::Pact, 32, index)) else {
            continue;
        };
        let names = (draft.names.len() / Key::SIZE).min(MOST_INDICES);
        if let Ok(clauses) = clauses(&draft.contract, names, draft.table.len()) {
            let bytes: Vec<u8> = clauses.iter().flat_map(Clause::to_bytes).collect();
            assert_eq!(bytes, draft.contract);
            read += 1;
        }
    }
    assert!(read > 4_000, "{read}");
}

/// A text is a print, and passes with the names; a refusal leaves the buffer alone.
#[test]
fn laws_of_generated_drafts() {
    let mut done = 0;
    for index in 0..6_000 {
        let Some((draft, before)) = draft_of(&generated(Call::Pact, 33, index)) else {
            continue;
        };
        let mut after = before.clone();
        match desk::reference::pact(&draft.contract, &draft.table, &draft.names, &mut after) {
            Answer::Drafted(length) => {
                let (text, rest) = after.split_at(length);
                assert_eq!(rest, &before[length..]);
                assert_eq!(text_of(&draft).as_deref(), Ok(text));
                assert_eq!(check(text, &draft.names), Answer::Passed);
                assert_eq!(print_of(&text_tree(text).expect("a text")), text);
                done += 1;
            }
            _ => assert_eq!(after, before),
        }
    }
    assert!(done > 2_000, "{done}");
}

/// Of what sort the byte is that a contract is refused for.
fn sort_of_fault(draft: &Draft, place: usize) -> &'static str {
    let (before, rest) = draft.contract.split_at(place);
    let names = draft.names.len() / Key::SIZE;
    let stands = clauses(before, names, draft.table.len());
    let Some(&byte) = rest.first() else {
        return match before.last().map(|&last| Opcode::from_byte(last)) {
            Some(Some(Opcode::Conjunction(_))) => "cut after a conjunction",
            _ => "cut after a comparator",
        };
    };
    let conjunction = matches!(Opcode::from_byte(byte), Some(Opcode::Conjunction(_)));
    match stands {
        Ok(_) if conjunction => "a conjunction first",
        Ok(_) => sort_of_opcode(byte),
        // An index is missing before it, so that it is one; or an assertion is.
        Err(_) if conjunction && before.last().is_some_and(|&last| last >= 0x80) => {
            "a conjunction twice"
        }
        Err(_) if before.last().is_some_and(|&last| last >= 0x80) => sort_of_opcode(byte),
        Err(_) if byte >> 4 == 15 || byte & 15 == 15 => "index 15",
        Err(_) => "another index",
    }
}

fn sort_of_opcode(byte: u8) -> &'static str {
    match (byte & 0b11, byte >> 7, byte >> 2 & 0b111) {
        (1, ..) => "the first reserved bit",
        (2, ..) => "the second reserved bit",
        (3, ..) => "both reserved bits",
        (_, 0, 3) if byte & 0x20 != 0 => "IN with inputs",
        (_, 0, 3) => "IN with a user number",
        (_, 0, _) => "an unused comparator",
        _ => "an unused conjunction",
    }
}

/// Of what sort the names are that are refused with 3.
fn sort_of_names(names: &[u8], place: usize) -> &'static str {
    let record = &names[place..place + Key::SIZE];
    match Key::from_record(record) {
        None => "no key",
        Some(_) if place / Key::SIZE == MOST_INDICES => "a 17th name",
        Some(key) if key.width == 64 => "a name of another kind",
        Some(_) => "a name of another width",
    }
}

/// Which limit of texts a contract's text is over.
fn sort_of_excess(draft: &Draft) -> &'static str {
    let names = name_list(&draft.names).expect("good names");
    let clauses = clauses(&draft.contract, names.len(), draft.table.len()).expect("good");
    if surely_too_long(&clauses) {
        return "far too many assertions";
    }
    let text = print_of(&tree_of(&clauses, &names, &draft.table));
    match read(&text) {
        Answer::Refused { number: 1, .. } if text.len() == LONGEST_TEXT + 1 => "4,097 bytes",
        Answer::Refused { number: 1, .. } => "more bytes",
        Answer::Refused { number: 7, .. } => "over 1,024 tokens",
        Answer::Refused { number: 9, .. } => "over 64 levels",
        other => panic!("{other}"),
    }
}

fn sort_of_refusal(draft: &Draft, number: u8, input: Input, offset: usize) -> &'static str {
    match (number, input) {
        (2, _) if draft.names.len() > Key::MOST * Key::SIZE => "33 names",
        (2, _) => "a cut list",
        (3, _) => sort_of_names(&draft.names, offset),
        (4, _) => "a repeated name",
        (24, Input::Table) if draft.table.len() == MOST_INDICES + 1 => "17 numbers",
        (24, Input::Table) => "more numbers",
        (24, _) => sort_of_fault(draft, offset),
        (21, _) => sort_of_excess(draft),
        other => panic!("{other:?}"),
    }
}

/// The most levels that are open at once in the text of a contract, where each "!" that
/// is no part of "!=" stands before a parenthesis.
fn levels(text: &[u8]) -> usize {
    let (mut most, mut levels) = (0, 0);
    // What each open parenthesis opened: one level, or two with its "!".
    let mut open: Vec<usize> = Vec::new();
    for (place, &byte) in text.iter().enumerate() {
        if byte == b'(' {
            open.push(1 + usize::from(place > 0 && text[place - 1] == b'!'));
            levels += open[open.len() - 1];
            most = most.max(levels);
        } else if byte == b')' {
            levels -= open.pop().expect("a text");
        }
    }
    most
}

/// Which limit a text lies at, or its buffer.
fn sort_of_text(text: &[u8], room: usize) -> Vec<&'static str> {
    let mut sorts = Vec::new();
    let length = text.len();
    let many = tokens(text).expect("a text").len();
    let deep = levels(text);
    sorts.extend((length == LONGEST_TEXT).then_some("4,096 bytes"));
    sorts.extend((many >= MOST_TOKENS - 1).then_some("1,023 or 1,024 tokens"));
    sorts.extend((deep == MOST_LEVELS).then_some("64 levels"));
    sorts.push(match (length, room) {
        _ if text == b"true" && room == 4 => "true, a buffer of 4",
        _ if text == b"true" && room == 3 => "true, a buffer of 3",
        _ if room == length => "a buffer just long enough",
        _ if room + 1 == length => "a buffer a byte too short",
        _ if room == length + 1 => "a buffer a byte longer",
        (_, 0) => "no buffer",
        _ => "another buffer",
    });
    sorts
}

#[test]
fn drafts_reach_their_limits_and_every_fault() {
    let mut counts: BTreeMap<&str, usize> = BTreeMap::new();
    for index in 0..16_000 {
        let request = generated(Call::Pact, 34, index);
        let Some((draft, buffer)) = draft_of(&request) else {
            assert_eq!(request.answer_line(), "malformed");
            *counts.entry("malformed").or_default() += 1;
            continue;
        };
        let sorts = match text_of(&draft) {
            Ok(text) => sort_of_text(&text, buffer.len()),
            Err(Answer::Refused {
                number,
                input,
                offset,
            }) => vec![sort_of_refusal(&draft, number, input, offset)],
            Err(other) => panic!("{other}"),
        };
        for sort in sorts {
            *counts.entry(sort).or_default() += 1;
        }
        if let Ok(names) = name_list(&draft.names) {
            let count = match (names.len(), draft.table.len()) {
                (0, _) => "no names",
                (_, 0) => "no numbers",
                (MOST_INDICES, MOST_INDICES) => "16 names and 16 numbers",
                _ => "other names and numbers",
            };
            *counts.entry(count).or_default() += 1;
        }
    }
    assert_eq!(counts.len(), 42, "{counts:#?}");
    for (sort, count) in counts {
        assert!(count >= 8, "{sort}: {count}");
    }
}

/// Every opcode stands in a contract that passes, and every index.
#[test]
fn every_opcode_and_index_passes() {
    let mut opcodes = [0; 256];
    let mut indices = [0; 256];
    for index in 0..6_000 {
        let Some((draft, _)) = draft_of(&generated(Call::Pact, 35, index)) else {
            continue;
        };
        if text_of(&draft).is_err() {
            continue;
        }
        let mut bytes = draft.contract.iter();
        while let Some(&opcode) = bytes.next() {
            opcodes[usize::from(opcode)] += 1;
            if let Some(Opcode::Comparator(_)) = Opcode::from_byte(opcode) {
                let index = *bytes.next().expect("a good contract");
                indices[usize::from(index)] += 1;
            }
        }
    }
    for byte in 0..=255 {
        let (count, is_one) = (
            opcodes[usize::from(byte)],
            Opcode::from_byte(byte).is_some(),
        );
        assert_eq!(count >= 20, is_one, "{byte:02x}: {count}");
        assert!(is_one || count == 0, "{byte:02x}: {count}");
    }
    assert!(indices.iter().all(|&count| count > 0), "{indices:?}");
}
