//! Document 01, "Refusal numbers": "Stages run in the order below, those that a
//! call has." "Stages: 1; 2; 3 and 4; 5 to 7; 8 to 10; 11 to 13; 14; 15; 16; 17;
//! 18; 19; 20. A refusal changes nothing lent." Document 02, request a: "A print
//! over 4,096 bytes, or over the lent buffer, is refused with number 21, placed
//! in the buffer at its length here and in every later request. Bytes after a
//! print, or after a text that a later request writes, stay." Request m: 25, and "a
//! refused list or text comes before that". Beyond both: a table that is run has 19 and
//! then 15, once its blocks are loaded.

use super::agreeing::{is_in_some_order, part_codes};
use super::answers::{Answer, Input, Refusal};
use super::blocks::{blocks_of, bytes_needed, checked_layout};
use super::code::{in_parts, Instruction};
use super::contracts::clauses;
use super::counting::{not_too_many, Counts};
use super::drafting::{surely_too_long, tree_of};
use super::entries::Entry;
use super::explaining::{first_false_part, key_of_record, Explanation};
use super::fixing::without_octal;
use super::grammar::tree;
use super::keys::{key_list, name_list, Key};
use super::loading::checked_code;
use super::meaning::holds;
use super::pact::MOST_INDICES;
use super::parts::typed_parts;
use super::printing::print_of;
use super::rechecking::{reuses, Rechecked};
use super::running::{outcome, Outcome};
use super::running_all::{enough_answers, verdict_byte, whole_entries, Totals};
use super::summaries::Summary;
use super::tokens::tokens;
use super::translating::instructions;
use super::tree::Node;
use super::types::{typed_text, Typed};

/// The longest text, and the longest that a call writes: that is a text again.
pub const LONGEST_TEXT: usize = 4096;

/// Reads a text; the answer is the number of nodes of its tree.
pub fn read(text: &[u8]) -> Answer {
    let reading = || {
        text_length(text)?;
        Ok(Answer::Read(text_tree(text)?.count()))
    };
    reading().into()
}

/// Checks the types of a text against a key list.
pub fn check(text: &[u8], list: &[u8]) -> Answer {
    checked_text(text, list).map(|_| Answer::Passed).into()
}

/// Judges one entry directly from the text.
pub fn judge(text: &[u8], list: &[u8], entry: &[u8]) -> Answer {
    let judging = || {
        let (tree, keys) = checked_text(text, list)?;
        let entry = Entry::from_bytes(entry, &keys)?;
        Ok(verdict(holds(&tree, &keys, &entry)))
    };
    judging().into()
}

/// Translates a text into blocks at the front of the buffer. Every later byte
/// stays, and on a refusal every byte.
pub fn translate(text: &[u8], list: &[u8], buffer: &mut [u8]) -> Answer {
    let mut translating = || {
        let (tree, keys) = checked_text(text, list)?;
        let code = in_parts(&instructions(&tree));
        let needed = bytes_needed(code.len());
        if buffer.len() < needed {
            return Err(Refusal::new(15, Input::Buffer, buffer.len()));
        }
        buffer[..needed].copy_from_slice(&blocks_of(&code, keys.len()));
        Ok(Answer::Translated(code.len()))
    };
    translating().into()
}

/// Loads blocks; the answer is the number of their instructions.
pub fn load(list: &[u8], blocks: &[u8]) -> Answer {
    loaded(list, blocks)
        .map(|(code, _)| Answer::Loaded(code.len()))
        .into()
}

/// Loads blocks and runs them on an entry; the answer tells the steps too.
pub fn run(list: &[u8], blocks: &[u8], entry: &[u8]) -> Answer {
    let running = || {
        let (code, keys) = loaded(list, blocks)?;
        let entry = Entry::from_bytes(entry, &keys)?;
        Ok(Answer::Ran(outcome(&code, &keys, &entry)))
    };
    running().into()
}

/// Loads blocks once and runs them on every entry of a table, with a byte for each at
/// the front of the answers. Every later byte stays, and on a refusal every byte.
pub fn run_all(list: &[u8], blocks: &[u8], entries: &[u8], answers: &mut [u8]) -> Answer {
    let mut running = || {
        let (code, keys) = loaded(list, blocks)?;
        let entries = whole_entries(entries, keys.len())?;
        enough_answers(answers, entries.len())?;
        let outcomes: Vec<Option<Outcome>> = entries
            .iter()
            .map(|bytes| Entry::from_bytes(bytes, &keys).ok())
            .map(|entry| Some(outcome(&code, &keys, &entry?)))
            .collect();
        for (answer, &outcome) in answers.iter_mut().zip(&outcomes) {
            *answer = verdict_byte(outcome);
        }
        Ok(Answer::RanAll(Totals::of(&outcomes)))
    };
    running().into()
}

/// Prints a text at the front of the buffer. Every later byte stays, and on a
/// refusal every byte.
pub fn print(text: &[u8], buffer: &mut [u8]) -> Answer {
    let mut printing = || {
        text_length(text)?;
        let print = print_of(&text_tree(text)?);
        Ok(Answer::Printed(write_text(&print, buffer)?))
    };
    printing().into()
}

/// Judges an entry, and tells what broke; it has the stages of `judge`.
pub fn explain<'t, 'l>(text: &'t [u8], list: &'l [u8], entry: &[u8]) -> Explanation<'t, 'l> {
    let answer = judge(text, list, entry);
    let shown = match answer {
        Answer::Violated => first_false_part(text, list, entry),
        Answer::Refused {
            number: 20, offset, ..
        } => key_of_record(offset, list),
        _ => None,
    };
    shown.unwrap_or(Explanation::Nothing(answer))
}

/// What a text names, with the stages of `check`: "We make summaries from text
/// and list; none is taken from a caller."
pub fn summarize(text: &[u8], list: &[u8]) -> Answer {
    checked_text(text, list)
        .map(|(tree, _)| Answer::Summary(Summary::of(&tree)))
        .into()
}

/// Judges a new entry, unless the earlier answer for an old one can be reused. It
/// has the stages of `judge` for the new entry; the old one is never refused.
pub fn recheck(text: &[u8], list: &[u8], old: &[u8], earlier: Answer, new: &[u8]) -> Rechecked {
    match checked_text(text, list) {
        Ok((tree, keys)) if reuses(Summary::of(&tree), &keys, old, new) => {
            Rechecked::Reused(earlier)
        }
        _ => Rechecked::Judged(judge(text, list, new)),
    }
}

/// Copies a text to the front of the buffer with its octal numerals in hex: "It
/// refuses first with 1, 5, 6 or 7 by the old rules, then a result over the lent
/// buffer with 21". Every later byte stays, and on a refusal every byte.
pub fn fix_octal(text: &[u8], buffer: &mut [u8]) -> Answer {
    let mut fixing = || {
        text_length(text)?;
        let fixed = without_octal(text)?;
        Ok(Answer::Fixed(write_text(&fixed, buffer)?))
    };
    fixing().into()
}

/// Makes a text of a Pact contract at the front of the buffer: 2 to 4 of the names, 24
/// of the table, 24 of the contract, then "A text over a limit of 01, or over the lent
/// buffer, is 21." Every later byte stays, and on a refusal every byte.
pub fn pact(contract: &[u8], table: &[u64], names: &[u8], buffer: &mut [u8]) -> Answer {
    let mut drafting = || {
        let names = name_list(names)?;
        if table.len() > MOST_INDICES {
            return Err(Refusal::new(24, Input::Table, MOST_INDICES));
        }
        let clauses = clauses(contract, names.len(), table.len())?;
        let over = Refusal::new(21, Input::Buffer, buffer.len());
        if surely_too_long(&clauses) {
            return Err(over);
        }
        let text = print_of(&tree_of(&clauses, &names, table));
        // Over a limit of 01 is what `read` refuses, which has no other fault to find.
        text_length(&text).map_err(|_| over)?;
        text_tree(&text).map_err(|_| over)?;
        Ok(Answer::Drafted(write_text(&text, buffer)?))
    };
    drafting().into()
}

/// Holds blocks that another translator made of a text against our own translation:
/// "agrees" exactly when the blocks load and fit, and "Blocks that load and do not fit
/// give "differs"." Text and list are refused first, then the blocks.
pub fn compare(text: &[u8], list: &[u8], blocks: &[u8]) -> Answer {
    let comparing = || {
        checked_text(text, list)?;
        let (code, keys) = loaded(list, blocks)?;
        let fits = is_in_some_order(&in_parts(&code), &part_codes(text, &keys)?);
        Ok(if fits {
            Answer::Agrees
        } else {
            Answer::Differs
        })
    };
    comparing().into()
}

/// Counts entries laid end to end, for a text and for each of its parts. It has the
/// stages of `check`, then 25; what is wrong with an entry is counted and not refused.
pub fn count(text: &[u8], list: &[u8], entries: &[u8]) -> Result<Counts, Refusal> {
    let (tree, keys) = checked_text(text, list)?;
    not_too_many(entries, &keys)?;
    let parts = typed_parts(text, &keys)?;
    Ok(Counts::of(&tree, &parts, &keys, entries))
}

/// Stage 1.
fn text_length(text: &[u8]) -> Result<(), Refusal> {
    if text.len() > LONGEST_TEXT {
        return Err(Refusal::text(1, LONGEST_TEXT));
    }
    Ok(())
}

/// Writes a text to the front of the buffer, and tells its length: refusal 21.
fn write_text(text: &[u8], buffer: &mut [u8]) -> Result<usize, Refusal> {
    let length = text.len();
    if length > LONGEST_TEXT || length > buffer.len() {
        return Err(Refusal::new(21, Input::Buffer, buffer.len()));
    }
    buffer[..length].copy_from_slice(text);
    Ok(length)
}

/// Stages 5 to 7, with 22, and 8 to 10.
pub fn text_tree(text: &[u8]) -> Result<Node<'_>, Refusal> {
    tree(&tokens(text)?, text.len())
}

/// Stages 1 to 14, with 22 and 23.
fn checked_text<'l>(text: &[u8], list: &'l [u8]) -> Result<(Typed, Vec<Key<'l>>), Refusal> {
    text_length(text)?;
    let keys = key_list(list)?;
    let tree = typed_text(&text_tree(text)?, &keys)?;
    Ok((tree, keys))
}

/// Stages 2 to 4 and 16 to 18.
fn loaded<'l>(list: &'l [u8], blocks: &[u8]) -> Result<(Vec<Instruction>, Vec<Key<'l>>), Refusal> {
    let keys = key_list(list)?;
    let total = checked_layout(blocks, keys.len())?;
    let code = checked_code(blocks, total, &keys)?;
    Ok((code, keys))
}

fn verdict(accepted: bool) -> Answer {
    if accepted {
        Answer::Accepted
    } else {
        Answer::Violated
    }
}
