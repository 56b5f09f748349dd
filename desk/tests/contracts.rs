//! Reading Pact contracts: opcodes, index codes, refusal 24, and names and tables.

mod common;

use common::*;
use desk::reference::contracts::clauses;
use desk::reference::keys::{Key, Presence};
use desk::reference::pact::{Opcode, MOST_INDICES};
use desk::requests::LONGEST_INPUT;

const IN: u8 = 3 << 2;
const NOT: u8 = 1 << 6;
const LOAD: u8 = 1 << 5;
const AND: u8 = 0x80;
const OR: u8 = 0x84;

/// Four names and four user numbers.
fn reading_contract(contract: &[u8]) -> String {
    match clauses(contract, 4, 4) {
        Ok(clauses) => format!("{} clauses", clauses.len()),
        Err(refusal) => short(refusal.into()),
    }
}

fn all_read(cases: &[(&[u8], &str)]) {
    for (contract, wanted) in cases {
        assert_eq!(reading_contract(contract), *wanted, "{contract:02x?}");
    }
}

/// The opcodes of 000's table, and no other bytes.
#[test]
fn every_opcode_and_every_byte_that_is_none() {
    let comparators = [0x00, 0x04, 0x08, 0x20, 0x24, 0x28];
    let conjunctions = [0x80, 0x84, 0x88];
    let plain = [&comparators[..], &conjunctions].concat();
    for byte in 0..=255 {
        let is_one = plain.contains(&(byte & !NOT));
        match Opcode::from_byte(byte) {
            Some(opcode) => assert_eq!((opcode.byte(), is_one), (byte, true)),
            None => assert!(!is_one, "{byte:02x}"),
        }
        // By itself, then behind an assertion and before one.
        let good = is_one && comparators.contains(&(byte & !NOT));
        let wanted = if good { "1 clauses" } else { "24 contract 0" };
        assert_eq!(reading_contract(&[byte, 0x00]), wanted, "{byte:02x}");
        let wanted = match (is_one, good) {
            (true, false) => "1 clauses",
            (true, true) => "24 contract 5",
            _ => "24 contract 2",
        };
        // A comparator takes the next byte for its index, so that the last one is cut.
        assert_eq!(reading_contract(&[0, 0, byte, 0, 0]), wanted, "{byte:02x}");
    }
}

#[test]
fn in_with_either_load_is_refused() {
    for byte in [IN, IN | LOAD, IN | NOT, IN | NOT | LOAD] {
        assert_eq!(reading_contract(&[byte, 0x00]), "24 contract 0");
        assert_eq!(reading_contract(&[0x00, 0x00, byte]), "24 contract 2");
    }
}

#[test]
fn reserved_bits_and_unused_operations() {
    all_read(&[
        (&[0x01, 0x00], "24 contract 0"),
        (&[0x02, 0x00], "24 contract 0"),
        (&[0x00, 0x00, 0x81, 0x00, 0x00], "24 contract 2"),
        (&[0x00, 0x00, 0x82, 0x00, 0x00], "24 contract 2"),
        (&[0x10, 0x00], "24 contract 0"),
        (&[0x1c, 0x00], "24 contract 0"),
        (&[0x00, 0x00, 0x8c, 0x00, 0x00], "24 contract 2"),
        (&[0x00, 0x00, 0xbc, 0x00, 0x00], "24 contract 2"),
    ]);
}

/// An index is refused at its own byte, the opcode being good.
#[test]
fn indices_without_a_name_or_number() {
    all_read(&[
        (&[0x00, 0x33], "1 clauses"),
        (&[0x00, 0x40], "24 contract 1"),
        (&[0x00, 0x04], "24 contract 1"),
        (&[0x00, 0x44], "24 contract 1"),
        (&[LOAD, 0x33], "1 clauses"),
        (&[LOAD, 0x40], "24 contract 1"),
        (&[LOAD, 0x04], "24 contract 1"),
        (&[0x00, 0x00, AND, 0x48, 0x0f], "24 contract 4"),
    ]);
    let told = |contract: &[u8], names, users| match clauses(contract, names, users) {
        Ok(_) => "good".to_string(),
        Err(refusal) => short(refusal.into()),
    };
    // More names than numbers, and the other way round.
    assert_eq!(told(&[0x00, 0xf0], 16, 1), "good");
    assert_eq!(told(&[0x00, 0xf1], 16, 1), "24 contract 1");
    assert_eq!(told(&[LOAD, 0xff], 16, 0), "good");
    assert_eq!(told(&[0x00, 0x0f], 1, 16), "good");
    assert_eq!(told(&[LOAD, 0x01], 1, 16), "24 contract 1");
    assert_eq!(told(&[0x00, 0xff], 16, 16), "good");
    assert_eq!(told(&[0x00, 0xf0], 15, 16), "24 contract 1");
    assert_eq!(told(&[0x00, 0x0f], 16, 15), "24 contract 1");
    assert_eq!(told(&[0x00, 0x00], 0, 16), "24 contract 1");
    assert_eq!(told(&[], 0, 0), "good");
}

#[test]
fn conjunctions_with_no_assertion_directly_before() {
    all_read(&[
        (&[AND], "24 contract 0"),
        (&[AND, 0x00, 0x00], "24 contract 0"),
        (&[0x00, 0x00, AND, 0x00, 0x00], "1 clauses"),
        (&[0x00, 0x00, AND, OR, 0x00, 0x00], "24 contract 3"),
        (&[0x00, 0x00, AND, AND], "24 contract 3"),
        (
            &[0x00, 0x00, AND, 0x00, 0x00, OR, 0x00, 0x00, 0x00, 0x00],
            "2 clauses",
        ),
    ]);
}

/// A cut contract is refused at its length; an opcode that is none comes before.
#[test]
fn cut_contracts() {
    all_read(&[
        (&[], "0 clauses"),
        (&[0x00], "24 contract 1"),
        (&[IN], "24 contract 0"),
        (&[0x00, 0x00, 0x00], "24 contract 3"),
        (&[0x00, 0x00, AND], "24 contract 3"),
        (&[0x00, 0x00, AND, 0x00], "24 contract 4"),
        (&[0x00, 0x00, AND, IN], "24 contract 3"),
    ]);
}

/// The earliest byte, of several.
#[test]
fn the_earliest_fault_is_told() {
    all_read(&[
        (&[0x00, 0x40, AND, AND, 0x01], "24 contract 1"),
        (&[0x00, 0x00, 0x01, 0x00, 0x40], "24 contract 2"),
        (&[0x00, 0x00, AND, AND, 0x00, 0x40], "24 contract 3"),
    ]);
}

/// Names are a key list in which every record is exact and of width 64, and there are 16
/// at most.
#[test]
fn names_of_other_kind_and_width() {
    let draft = |keys: &str| drafting(&[], &[], &list_of(keys));
    assert_eq!(draft(""), "true");
    assert_eq!(draft("a exact 64"), "true");
    assert_eq!(draft("a exact 64 required\nb exact 64"), "true");
    for kind in ["ternary", "lpm", "range", "optional"] {
        let keys = format!("a exact 64\nb {kind} 64");
        assert_eq!(draft(&keys), "3 list 80", "{kind}");
    }
    for width in [1, 32, 63, 65, 128] {
        let keys = format!("a exact 64\nb exact 64\nc exact {width}");
        assert_eq!(draft(&keys), "3 list 160", "{width}");
    }
}

#[test]
fn names_up_to_16_and_lists_up_to_32() {
    assert_eq!(drafting(&[0x20, 0xff], &[], &inputs(16)), "i15 == i15");
    for count in [17, 18, 32] {
        assert_eq!(drafting(&[], &[], &inputs(count)), "3 list 1280");
    }
    // The 17th is refused even where it repeats a name, or is of another width.
    let mut repeated = inputs(17);
    let (first, last) = repeated.split_at_mut(1280);
    last.copy_from_slice(&first[..80]);
    assert_eq!(drafting(&[], &[], &repeated), "3 list 1280");
    let mut many = inputs(32);
    many.extend_from_slice(&list_of("more exact 64"));
    assert_eq!(drafting(&[], &[], &many), "2 list 2640");
    assert_eq!(drafting(&[], &[], &[0; 79]), "2 list 79");
}

/// 3 and 4 are one stage: the earliest record is told, and at one record 3 comes first.
#[test]
fn repeated_names_and_the_order_of_3_and_4() {
    let with_width = |record: usize, width: u8| {
        let mut names = inputs(3);
        names.copy_within(0..80, 160);
        names[record * Key::SIZE + 2] = width;
        drafting(&[], &[], &names)
    };
    assert_eq!(with_width(0, 64), "4 list 160");
    assert_eq!(with_width(0, 63), "3 list 0");
    assert_eq!(with_width(1, 63), "3 list 80");
    assert_eq!(with_width(2, 63), "3 list 160");
    let mut names = inputs(4);
    names.copy_within(0..80, 160);
    names[240 + 2] = 63;
    assert_eq!(drafting(&[], &[], &names), "4 list 160");
}

#[test]
fn flags_of_names() {
    let with_flag = |flag: u8| {
        let mut names = inputs(2);
        names[80 + Key::FLAG] = flag;
        drafting(&[0x00, 0x10], &[7], &names)
    };
    for presence in Presence::ALL {
        assert_eq!(with_flag(presence.byte()), "i1 == 7");
    }
    assert_eq!(with_flag(2), "3 list 80");
    assert_eq!(with_flag(255), "3 list 80");
}

/// A table that is too long is refused whether its numbers are used or not; the offset
/// counts numbers.
#[test]
fn tables_of_0_16_and_17() {
    let table: Vec<u64> = (0..17).collect();
    let names = inputs(1);
    assert_eq!(drafting(&[0x00, 0x0f], &table[..16], &names), "i0 == 15");
    assert_eq!(drafting(&[0x20, 0x00], &[], &names), "i0 == i0");
    assert_eq!(drafting(&[0x00, 0x00], &[], &names), "24 contract 1");
    assert_eq!(drafting(&[], &table, &names), "24 table 16");
    assert_eq!(drafting(&[], &[0; 4_000], &names), "24 table 16");
    assert_eq!(table.len(), MOST_INDICES + 1);
}

/// Names, table, contract, text: in this order, whatever the later ones are.
#[test]
fn stages_in_their_order() {
    let long_table = [0; 17];
    let wrong = [0x01];
    assert_eq!(drafting(&wrong, &long_table, &[0; 3]), "2 list 3");
    assert_eq!(drafting(&wrong, &long_table, &inputs(17)), "3 list 1280");
    assert_eq!(drafting(&wrong, &long_table, &inputs(1)), "24 table 16");
    assert_eq!(drafting(&wrong, &[0], &inputs(1)), "24 contract 0");
    // However long it is, the whole contract is looked at before its text is.
    let mut long = [0x00, 0x00].repeat(LONGEST_INPUT / 2);
    assert_eq!(drafting(&long, &[0], &inputs(1)), "21 buffer 4096");
    *long.last_mut().expect("not empty") = 0x10;
    assert_eq!(drafting(&long, &[0], &inputs(1)), "24 contract 65535");
}
