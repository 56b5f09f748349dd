//! The parts of a text together with their code in blocks that another translator made
//! of it: what is done to one is done to the other, so that blocks that agree still do.
//! Where entries are counted for each part there are no blocks, and only the text has
//! parts.

use std::ops::Range;

use super::pieces::{changed_code, code, Deed};
use crate::reference::agreeing::{part_codes, Code};
use crate::reference::blocks::blocks_of;
use crate::reference::code::{landing, Parts};
use crate::reference::keys::key_list;
use crate::reference::parts::parts;
use crate::reference::Input;
use crate::requests::Request;

/// A part of the text: its stretch of the text and its code.
pub struct Part {
    text: Vec<u8>,
    code: Code,
}

/// The parts of a request with a good text, and with blocks of good layout or entries
/// to count; else nothing.
pub fn part_pieces(request: &Request) -> Vec<Part> {
    found_parts(request).unwrap_or_default()
}

fn found_parts(request: &Request) -> Option<Vec<Part>> {
    if code(request).is_none() && request.entries().is_none() {
        return None;
    }
    let text = &request.inputs[request.input(Input::Text)?];
    let keys = key_list(&request.inputs[request.input(Input::List)?]).ok()?;
    let codes = part_codes(text, &keys).ok()?;
    let texts = parts(text).ok()?.into_iter();
    Some(
        texts
            .zip(codes)
            .map(|(part, code)| Part {
                text: part.piece.bytes.to_vec(),
                code,
            })
            .collect(),
    )
}

/// Leaves these parts out of text and blocks, or makes each of them true.
pub fn change(request: &mut Request, deed: Deed, stretch: Range<usize>) {
    let mut left = part_pieces(request);
    let Some(text) = request.input(Input::Text) else {
        return;
    };
    if let Some((input, mut changed, keys)) = code(request) {
        for part in &left[stretch.clone()] {
            changed = without(&changed, &part.code, deed);
        }
        request.inputs[input] = blocks_of(&changed, keys);
    }
    let filling = deed.token().unwrap_or_default();
    for part in &mut left[stretch] {
        part.text = filling.to_vec();
    }
    let texts: Vec<Vec<u8>> = left
        .into_iter()
        .map(|part| part.text)
        .filter(|text| !text.is_empty())
        .collect();
    request.inputs[text] = texts.join(&b';');
}

/// The code with the deed done to a part where it stands by itself, if it does.
fn without(code: &[Parts], part: &[Parts], deed: Deed) -> Code {
    let Some(Range { start, end }) = place_of(code, part) else {
        return code.to_vec();
    };
    match deed {
        Deed::Drop if start > 0 => changed_code(code, deed, start - 1..end + 1),
        // The first part goes with the skip behind it and the join where that lands.
        Deed::Drop if end < code.len() => {
            let join = landing(end, code[end].operand) - 1;
            let unjoined = changed_code(code, deed, join..join + 1);
            changed_code(&unjoined, deed, 0..end + 1)
        }
        _ => changed_code(code, deed, start..end),
    }
}

/// Where a part stands behind a skip over it and a join, or else as the first.
fn place_of(code: &[Parts], part: &[Parts]) -> Option<Range<usize>> {
    let over = part.len() + 1;
    let stands_at = |start: usize| code[start..].starts_with(part);
    (1..code.len())
        .find(|&start| {
            let before = code[start - 1];
            let skipped = before.operation == Parts::SKIP && usize::from(before.operand) == over;
            skipped && start + over <= code.len() && stands_at(start)
        })
        .or(stands_at(0).then_some(0))
        .map(|start| start..start + part.len())
}
