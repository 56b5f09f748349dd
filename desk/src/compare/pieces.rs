//! What can be left out of a request, or made simpler in it.

use std::ops::Range;

use super::both;
use crate::reference::blocks::{all_parts, blocks_of, checked_layout, BLOCK};
use crate::reference::code::{landing, Instruction, Parts};
use crate::reference::entries::Entry;
use crate::reference::keys::Key;
use crate::reference::pact::Opcode;
use crate::reference::tokens::old_tokens;
use crate::reference::Input;
use crate::requests::{Entries, Request};

/// A way to divide a request into pieces.
#[derive(Clone, Copy, PartialEq, Eq, Debug)]
pub enum Division {
    /// Key records, each with its entry record and its number in the code.
    Keys,
    /// Parts of the text, each with its code in blocks that are made of it, if there are
    /// blocks.
    Parts,
    /// Tokens of the text, each with the blanks after it.
    Tokens,
    /// Pairs of parentheses of the text, in the order of their opening ones.
    Parentheses,
    /// Instructions of blocks of good layout; totals and checks are made again,
    /// and skips land where they did.
    Instructions,
    /// Whole blocks as they stand.
    Blocks,
    /// Assertions of a contract, each with the conjunction before it.
    Assertions,
    /// Numbers of a table.
    Numbers,
    /// Whole entries of those laid end to end, each with its byte of the answers that are
    /// lent for them.
    Answered,
    /// Whole entries of those laid end to end.
    Entries,
    /// Bytes of the answers that are lent for entries.
    Answers,
    /// Bytes of a cut last entry, from its front.
    Cut,
    /// Bytes of one of the three inputs.
    Bytes(usize),
    /// Bytes of one of the three inputs that are not zero.
    NonZeros(usize),
}

/// What is done with a stretch of pieces.
#[derive(Clone, Copy, PartialEq, Eq, Debug)]
pub enum Deed {
    /// Left out; bytes that are not zero become zero.
    Drop,
    /// Its first and its last piece are left out, as with parentheses.
    Unwrap,
    /// Replaced by true, false or the number 0.
    True,
    False,
    Zero,
}

impl Deed {
    /// The shortest stretch of pieces that this makes simpler.
    pub fn shortest(self, division: Division) -> usize {
        match (self, division) {
            (Deed::Drop | Deed::Zero, _) | (Deed::True, Division::Parts) => 1,
            (Deed::True | Deed::False, _) => 2,
            (Deed::Unwrap, _) => 3,
        }
    }

    pub fn token(self) -> Option<&'static [u8]> {
        match self {
            Deed::Drop | Deed::Unwrap => None,
            Deed::True => Some(b"true"),
            Deed::False => Some(b"false"),
            Deed::Zero => Some(b"0"),
        }
    }

    fn instruction(self) -> Option<Instruction> {
        match self {
            Deed::Drop | Deed::Unwrap => None,
            Deed::True => Some(Instruction::PushBool(true)),
            Deed::False => Some(Instruction::PushBool(false)),
            Deed::Zero => Some(Instruction::PushInt(0)),
        }
    }
}

/// All steps that are tried, coarse ones first.
pub const STEPS: [(Division, Deed); 27] = [
    (Division::Keys, Deed::Drop),
    (Division::Answered, Deed::Drop),
    (Division::Entries, Deed::Drop),
    (Division::Answers, Deed::Drop),
    (Division::Cut, Deed::Drop),
    (Division::Parts, Deed::Drop),
    (Division::Parts, Deed::True),
    (Division::Parentheses, Deed::Drop),
    (Division::Tokens, Deed::Drop),
    (Division::Tokens, Deed::Unwrap),
    (Division::Tokens, Deed::True),
    (Division::Tokens, Deed::False),
    (Division::Tokens, Deed::Zero),
    (Division::Instructions, Deed::Drop),
    (Division::Instructions, Deed::Unwrap),
    (Division::Instructions, Deed::True),
    (Division::Instructions, Deed::False),
    (Division::Instructions, Deed::Zero),
    (Division::Blocks, Deed::Drop),
    (Division::Assertions, Deed::Drop),
    (Division::Numbers, Deed::Drop),
    (Division::Bytes(0), Deed::Drop),
    (Division::Bytes(1), Deed::Drop),
    (Division::Bytes(2), Deed::Drop),
    (Division::NonZeros(0), Deed::Drop),
    (Division::NonZeros(1), Deed::Drop),
    (Division::NonZeros(2), Deed::Drop),
];

impl Division {
    /// How many pieces the request has.
    pub fn count(self, request: &Request) -> usize {
        let length = |input: Option<usize>| input.map_or(0, |i| request.inputs[i].len());
        match self {
            Division::Keys => length(request.input(Input::List)) / Key::SIZE,
            Division::Parts => both::part_pieces(request).len(),
            Division::Parentheses => pairs(&token_pieces(request)).len(),
            Division::Tokens => token_pieces(request).len(),
            Division::Instructions => code(request).map_or(0, |(_, code, _)| code.len()),
            Division::Blocks => length(request.input(Input::Blocks)) / BLOCK,
            Division::Assertions => assertion_pieces(request).len(),
            Division::Numbers => request
                .table_and_buffer()
                .map_or(0, |(_, lent)| lent.table.len()),
            Division::Answered => Division::Answers
                .count(request)
                .min(Division::Entries.count(request)),
            Division::Entries => request
                .entries()
                .map_or(0, |entries| entries.bytes(request).len() / entries.size),
            Division::Answers => request
                .answers_and_entries()
                .map_or(0, |(_, lent)| lent.answers.len()),
            Division::Cut => request
                .entries()
                .map_or(0, |entries| entries.bytes(request).len() % entries.size),
            Division::Bytes(input) => request.inputs[input].len(),
            Division::NonZeros(input) => non_zeros(&request.inputs[input]).count(),
        }
    }

    /// The request with this done to these pieces.
    pub fn simpler(self, request: &Request, deed: Deed, stretch: Range<usize>) -> Request {
        let mut simpler = request.clone();
        match self {
            Division::Keys => drop_keys(&mut simpler, stretch),
            Division::Parts => both::change(&mut simpler, deed, stretch),
            Division::Parentheses => {
                if let Some(input) = request.input(Input::Text) {
                    let mut pieces = token_pieces(request);
                    for (open, close) in &pairs(&pieces)[stretch] {
                        pieces[*open].clear();
                        pieces[*close].clear();
                    }
                    simpler.inputs[input] = pieces.concat();
                }
            }
            Division::Tokens => {
                if let Some(input) = request.input(Input::Text) {
                    let filling = deed.token().map(|token| [token, b" "].concat());
                    let pieces = changed(token_pieces(request), deed, stretch, filling);
                    simpler.inputs[input] = pieces.concat();
                }
            }
            Division::Instructions => {
                if let Some((input, code, keys)) = code(request) {
                    let code = changed_code(&code, deed, stretch);
                    simpler.inputs[input] = blocks_of(&code, keys);
                }
            }
            Division::Blocks => {
                if let Some(input) = request.input(Input::Blocks) {
                    let bytes = stretch.start * BLOCK..stretch.end * BLOCK;
                    simpler.inputs[input].drain(bytes);
                }
            }
            Division::Assertions => {
                if let Some(input) = request.input(Input::Contract) {
                    let pieces = changed(assertion_pieces(request), deed, stretch, None);
                    simpler.inputs[input] = pieces.concat();
                }
            }
            Division::Numbers => {
                if let Some((input, mut lent)) = request.table_and_buffer() {
                    lent.table.drain(stretch);
                    simpler.inputs[input] = lent.to_bytes();
                }
            }
            Division::Answered => {
                drop_entries(&mut simpler, &stretch);
                drop_answers(&mut simpler, stretch);
            }
            Division::Entries => drop_entries(&mut simpler, &stretch),
            Division::Answers => drop_answers(&mut simpler, stretch),
            Division::Cut => {
                if let Some(Entries { input, .. }) = request.entries() {
                    let bytes = &mut simpler.inputs[input];
                    let cut = bytes.len() - self.count(request);
                    bytes.drain(cut + stretch.start..cut + stretch.end);
                }
            }
            Division::Bytes(input) => {
                simpler.inputs[input].drain(stretch);
            }
            Division::NonZeros(input) => {
                let places: Vec<usize> = non_zeros(&request.inputs[input]).collect();
                for &place in &places[stretch] {
                    simpler.inputs[input][place] = 0;
                }
            }
        }
        simpler
    }
}

/// The pieces after the deed; a filling takes the stretch's place.
fn changed<T>(mut pieces: Vec<T>, deed: Deed, stretch: Range<usize>, filling: Option<T>) -> Vec<T> {
    if deed == Deed::Unwrap {
        pieces.remove(stretch.end - 1);
        pieces.remove(stretch.start);
    } else {
        pieces.splice(stretch, filling);
    }
    pieces
}

/// The code after the deed. Each skip that is left lands at the instruction that it
/// landed at before, or at the next one that is left.
pub fn changed_code(code: &[Parts], deed: Deed, stretch: Range<usize>) -> Vec<Parts> {
    // Each instruction with the number that it has before the deed.
    let numbered = (0..).zip(code.iter().copied()).collect();
    let filling = deed
        .instruction()
        .map(|filling| (stretch.start, filling.parts()));
    let left = changed(numbered, deed, stretch, filling);
    let numbers: Vec<usize> = left.iter().map(|&(number, _)| number).collect();
    let mut code_left: Vec<Parts> = left.into_iter().map(|(_, parts)| parts).collect();
    for (index, parts) in code_left.iter_mut().enumerate() {
        let before = landing(numbers[index], parts.operand);
        // A landing beyond the end stays there by itself.
        if parts.operation == Parts::SKIP && before <= code.len() {
            let passed = numbers[index + 1..]
                .iter()
                .filter(|&&number| number < before);
            parts.operand = passed.count() as u16;
        }
    }
    code_left
}

fn non_zeros(bytes: &[u8]) -> impl Iterator<Item = usize> + '_ {
    (0..bytes.len()).filter(|&place| bytes[place] != 0)
}

/// The text cut before each of its tokens, octal numerals among them; nothing if
/// there are no good ones.
fn token_pieces(request: &Request) -> Vec<Vec<u8>> {
    let Some(input) = request.input(Input::Text) else {
        return Vec::new();
    };
    let text = &request.inputs[input];
    let mut cuts: Vec<usize> = match old_tokens(text) {
        Ok(found) => found
            .into_iter()
            .map(|(stretch, _)| stretch.start)
            .collect(),
        Err(_) => return Vec::new(),
    };
    cuts.push(text.len());
    cuts.windows(2)
        .map(|cut| text[cut[0]..cut[1]].to_vec())
        .collect()
}

/// The pairs of parentheses among the pieces of a text, by their indices.
fn pairs(pieces: &[Vec<u8>]) -> Vec<(usize, usize)> {
    let mut open = Vec::new();
    let mut pairs = Vec::new();
    for (index, piece) in pieces.iter().enumerate() {
        match piece.first() {
            Some(b'(') => open.push(index),
            Some(b')') => pairs.extend(open.pop().map(|before| (before, index))),
            _ => {}
        }
    }
    pairs.sort_unstable();
    pairs
}

/// The contract cut behind each of its assertions, good or not; what stands behind the
/// last one is a piece too.
fn assertion_pieces(request: &Request) -> Vec<Vec<u8>> {
    let Some(input) = request.input(Input::Contract) else {
        return Vec::new();
    };
    let mut pieces = Vec::new();
    let mut rest = &request.inputs[input][..];
    while !rest.is_empty() {
        let conjunctions = rest.iter().take_while(|&&byte| is_conjunction(byte));
        let length = rest.len().min(conjunctions.count() + ASSERTION);
        let (piece, behind) = rest.split_at(length);
        pieces.push(piece.to_vec());
        rest = behind;
    }
    pieces
}

/// The bytes of an assertion: opcode and index.
const ASSERTION: usize = 2;

fn is_conjunction(byte: u8) -> bool {
    matches!(Opcode::from_byte(byte), Some(Opcode::Conjunction(_)))
}

/// The input that holds blocks of good layout, their code and number of keys.
pub fn code(request: &Request) -> Option<(usize, Vec<Parts>, usize)> {
    let input = request.input(Input::Blocks)?;
    let blocks = &request.inputs[input];
    let keys = request.inputs[request.input(Input::List)?].len() / Key::SIZE;
    let total = checked_layout(blocks, keys).ok()?;
    Some((input, all_parts(blocks, total).collect(), keys))
}

/// Drops whole entries of those laid end to end.
fn drop_entries(request: &mut Request, entries: &Range<usize>) {
    if let Some(Entries { input, start, size }) = request.entries() {
        let place = |entry: usize| start + entry * size;
        request.inputs[input].drain(place(entries.start)..place(entries.end));
    }
}

/// Drops bytes of the answers that are lent for entries.
fn drop_answers(request: &mut Request, answers: Range<usize>) {
    if let Some((input, mut lent)) = request.answers_and_entries() {
        lent.answers.drain(answers);
        request.inputs[input] = lent.to_bytes();
    }
}

/// Drops key records with all that belongs to them.
fn drop_keys(request: &mut Request, keys: Range<usize>) {
    let Some(list) = request.input(Input::List) else {
        return;
    };
    let blocks = code(request);
    let entries = request.entries();
    request.inputs[list].drain(keys.start * Key::SIZE..keys.end * Key::SIZE);
    if let Some(entry) = request.input(Input::Entry) {
        drop_records(&mut request.inputs[entry], &keys);
    }
    if let Some((input, mut change)) = request.change() {
        drop_records(&mut change.old, &keys);
        drop_records(&mut change.new, &keys);
        request.inputs[input] = change.to_bytes();
    }
    if let Some(Entries { input, start, size }) = entries {
        let entries = request.inputs[input].split_off(start);
        for entry in entries.chunks(size) {
            request.inputs[input].extend(without_records(entry, &keys));
        }
    }
    if let Some((input, mut code, count)) = blocks {
        for parts in &mut code {
            renumber(parts, &keys);
        }
        request.inputs[input] = blocks_of(&code, count - keys.len());
    }
}

/// Drops the records of these keys from an entry that is long enough.
fn drop_records(entry: &mut Vec<u8>, keys: &Range<usize>) {
    let records = Entry::size(keys.start)..Entry::size(keys.end);
    if entry.len() >= records.end {
        entry.drain(records);
    }
}

/// An entry, whole or cut, without what it has of the records of these keys.
fn without_records(entry: &[u8], keys: &Range<usize>) -> Vec<u8> {
    let place = |key: usize| Entry::size(key).min(entry.len());
    [&entry[..place(keys.start)], &entry[place(keys.end)..]].concat()
}

/// Lets an instruction that pushes a key after the dropped ones push it still.
fn renumber(parts: &mut Parts, dropped: &Range<usize>) {
    let pushes_key = matches!(parts.operation, 3 | 4);
    if pushes_key && usize::from(parts.operand) >= dropped.end {
        parts.operand -= dropped.len() as u16;
    }
}
