//! Requests in readable form.

use crate::changes::Change;
use crate::entry_tables::AnswersAndEntries;
use crate::pack;
use crate::reference::blocks::{check_bytes, BLOCK, INSTRUCTIONS_IN_BLOCK};
use crate::reference::code::{Instruction, Parts};
use crate::reference::entries::{Entry, Record};
use crate::reference::keys::{key_list, Key};
use crate::reference::pact::{Assertion, Comparator, Conjunction, Opcode};
use crate::reference::Input;
use crate::requests::{Call, Lent, Request};
use crate::tables::TableAndBuffer;

/// The request in lines.
pub fn request(request: &Request) -> String {
    let Some(call) = Call::from_byte(request.call) else {
        return format!("unknown call {}\n", request.call);
    };
    let mut lines = format!("{}\n", call.name());
    for (input, bytes) in call.inputs().into_iter().zip(&request.inputs) {
        lines.push_str(&match input {
            Some(Lent::One(input)) => one(input, bytes, list_of(request)),
            Some(Lent::Change) => change(bytes, list_of(request)),
            Some(Lent::TableAndBuffer) => table_and_buffer(bytes),
            Some(Lent::Entries) => entries(bytes, list_of(request)),
            Some(Lent::AnswersAndEntries) => answers_and_entries(bytes, list_of(request)),
            None => passed_over(bytes),
        });
    }
    lines
}

fn one(input: Input, bytes: &[u8], keys: &[u8]) -> String {
    match input {
        Input::Text => text(bytes),
        Input::List => list(bytes),
        Input::Entry => entry("entry", bytes, keys),
        Input::Blocks => blocks(bytes),
        Input::Buffer => start_of("buffer", bytes),
        Input::Contract => contract(bytes),
        Input::Table => start_of("table", bytes),
    }
}

/// The earlier answer, the old entry and the new one.
fn change(bytes: &[u8], list: &[u8]) -> String {
    let Some(change) = Change::from_bytes(bytes) else {
        return start_of("no change", bytes);
    };
    let earlier = format!("  earlier answer: {}\n", change.earlier_answer());
    let old = entry("old entry", &change.old, list);
    let new = entry("new entry", &change.new, list);
    [earlier, old, new].concat()
}

fn table_and_buffer(bytes: &[u8]) -> String {
    let Some(TableAndBuffer { table, buffer }) = TableAndBuffer::from_bytes(bytes) else {
        return start_of("no table", bytes);
    };
    let numbers: Vec<String> = table.iter().map(u64::to_string).collect();
    let table = format!("  table, {} numbers: {}\n", table.len(), numbers.join(" "));
    [table, start_of("buffer", &buffer)].concat()
}

fn answers_and_entries(bytes: &[u8], list: &[u8]) -> String {
    let Some(lent) = AnswersAndEntries::from_bytes(bytes) else {
        return start_of("no answers", bytes);
    };
    let answers = start_of("answers", &lent.answers);
    [answers, entries(&lent.entries, list)].concat()
}

/// A line for each opcode with what belongs to it, as far as the opcodes are good.
fn contract(contract: &[u8]) -> String {
    let mut lines = format!("  contract, {} bytes:\n", contract.len());
    let mut place = 0;
    while place < contract.len() {
        let rest = &contract[place..];
        let (length, words) = match Opcode::from_byte(rest[0]) {
            Some(Opcode::Comparator(comparator)) if rest.len() > 1 => {
                (2, assertion(Assertion::new(comparator, rest[1])))
            }
            Some(Opcode::Comparator(_)) => (1, "cut after its opcode".to_string()),
            Some(Opcode::Conjunction(conjunction)) => (1, conjoined(conjunction)),
            None => (rest.len(), "from here no opcode".to_string()),
        };
        lines.push_str(&format!("    {} {words}\n", hex(&rest[..length])));
        place += length;
    }
    lines
}

fn assertion(assertion: Assertion) -> String {
    let Comparator {
        inverted,
        load,
        relation,
    } = assertion.comparator;
    let (left, right) = (assertion.left, assertion.right);
    let compared = format!("Input({left}) {relation:?} {load:?}({right})");
    negated(inverted, compared)
}

fn conjoined(conjunction: Conjunction) -> String {
    negated(conjunction.inverted, format!("{:?}", conjunction.linking))
}

fn negated(inverted: bool, words: String) -> String {
    if inverted {
        format!("Not {words}")
    } else {
        words
    }
}

/// The key list of a request; empty if it has none.
fn list_of(request: &Request) -> &[u8] {
    let index = request.input(Input::List);
    index.map_or(&[], |index| &request.inputs[index])
}

fn text(text: &[u8]) -> String {
    let escaped = text.escape_ascii().to_string().replace("\\'", "'");
    format!("  text, {} bytes: \"{escaped}\"\n", text.len())
}

fn list(list: &[u8]) -> String {
    let mut lines = format!("  key list, {} bytes:\n", list.len());
    for record in list.chunks(Key::SIZE) {
        let key = if record.len() == Key::SIZE {
            Key::from_record(record)
        } else {
            None
        };
        lines.push_str("    ");
        match key {
            Some(key) => lines.push_str(&pack::keys_to_text(&[key])),
            None => lines.push_str(&format!("{}\n", hex(record))),
        }
    }
    lines
}

fn entry(name: &str, entry: &[u8], list: &[u8]) -> String {
    let head = format!("  {name}, {} bytes: ", entry.len());
    let readable = key_list(list).and_then(|keys| {
        let entry = Entry::from_bytes(entry, &keys)?;
        Ok(pack::entry_to_text(&entry, &keys))
    });
    match readable {
        Ok(line) => format!("{head}{line}\n"),
        Err(_) => format!("{head}\n{}", entry_in_hex(entry)),
    }
}

/// Entries laid end to end, the last of which may be cut.
fn entries(bytes: &[u8], list: &[u8]) -> String {
    let whole = bytes.chunks_exact(Entry::size(list.len() / Key::SIZE));
    let cut = whole.remainder();
    let mut lines = format!("  entries laid end to end, {} bytes:\n", bytes.len());
    for bytes in whole {
        lines.push_str(&entry("entry", bytes, list));
    }
    if !cut.is_empty() {
        lines.push_str(&entry("cut entry", cut, list));
    }
    lines
}

fn entry_in_hex(entry: &[u8]) -> String {
    let (priority, records) = entry.split_at(entry.len().min(Entry::PRIORITY_SIZE));
    let mut lines = format!("    {}\n", hex(priority));
    for record in records.chunks(Record::SIZE) {
        lines.push_str(&format!("    {}\n", hex(record)));
    }
    lines
}

fn blocks(blocks: &[u8]) -> String {
    let mut lines = format!("  blocks, {} bytes:\n", blocks.len());
    for block in blocks.chunks(BLOCK) {
        if block.len() < BLOCK {
            lines.push_str(&format!("    cut block: {}\n", hex(block)));
        } else {
            lines.push_str(&whole_block(block));
        }
    }
    lines
}

fn whole_block(block: &[u8]) -> String {
    let word = |place: usize| usize::from(u16::from_be_bytes([block[place], block[place + 1]]));
    let check = if block[508..] == check_bytes(block) {
        "good"
    } else {
        "bad"
    };
    let mut lines = format!(
        "    number {}, count {}, total {}, keys {}, check {} ({check})\n",
        word(0),
        word(2),
        word(504),
        word(506),
        hex(&block[508..])
    );
    let code = &block[4..504];
    for (index, bytes) in code.chunks(Parts::SIZE).enumerate() {
        let counted = index < word(2).min(INSTRUCTIONS_IN_BLOCK);
        if counted || bytes.iter().any(|&byte| byte != 0) {
            lines.push_str(&instruction(bytes, counted));
        }
    }
    lines
}

fn instruction(bytes: &[u8], counted: bool) -> String {
    let words = match Instruction::from_parts(Parts::from_bytes(bytes)) {
        Some(instruction) => format!("{instruction:?}"),
        None => "no instruction".to_string(),
    };
    let beyond = if counted { "" } else { ", beyond the count" };
    let (head, constant) = bytes.split_at(4);
    format!("      {} {} {words}{beyond}\n", hex(head), hex(constant))
}

/// An input that should play no part.
fn passed_over(input: &[u8]) -> String {
    if input.is_empty() {
        return String::new();
    }
    start_of("passed over", input)
}

fn start_of(name: &str, bytes: &[u8]) -> String {
    let start = &bytes[..bytes.len().min(8)];
    format!("  {name}, {} bytes: {}...\n", bytes.len(), hex(start))
}

pub fn hex(bytes: &[u8]) -> String {
    bytes.iter().map(|byte| format!("{byte:02x}")).collect()
}
