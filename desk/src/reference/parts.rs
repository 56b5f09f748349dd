//! Document 02, request c: the parts of a text "between top-level ";" signs,
//! those outside parentheses". "A part's stretch runs from its first token to
//! its last."
//!
//! The signs are those of the text. Its tree does not tell the parts: the texts
//! `(a;b);c` and `a;b;c` have one tree, but two parts and three.

use std::fmt;
use std::ops::Range;

use super::answers::Refusal;
use super::grammar::tree;
use super::keys::Key;
use super::tokens::{tokens, Shape, Symbol, Token};
use super::tree::Node;
use super::types::{typed_text, Typed};

/// A piece of an input, no copy: where it starts, and its bytes.
#[derive(Clone, Copy, PartialEq, Eq, Debug)]
pub struct Piece<'i> {
    pub start: usize,
    pub bytes: &'i [u8],
}

/// A part of a text: its tree, and its stretch as a piece of the text.
#[derive(Clone, PartialEq, Eq, Debug)]
pub struct Part<'t> {
    pub tree: Node<'t>,
    pub piece: Piece<'t>,
}

impl Piece<'_> {
    /// From its first byte to one past its last.
    pub fn stretch(&self) -> Range<usize> {
        self.start..self.start + self.bytes.len()
    }
}

/// Its start and its length.
impl fmt::Display for Piece<'_> {
    fn fmt(&self, out: &mut fmt::Formatter) -> fmt::Result {
        write!(out, "{} {}", self.start, self.bytes.len())
    }
}

/// The parts of a text in their order, or the text's refusal in stages 5 to 10.
pub fn parts(text: &[u8]) -> Result<Vec<Part<'_>>, Refusal> {
    let all = tokens(text)?;
    tree(&all, text.len())?;
    cut_at_top_level(without_trailing(&all))
        .into_iter()
        .map(|part| {
            let (start, end) = (part[0].place, part[part.len() - 1].end);
            Ok(Part {
                tree: tree(part, text.len())?,
                piece: Piece {
                    start,
                    bytes: &text[start..end],
                },
            })
        })
        .collect()
}

/// The trees of the parts with types, each by itself, or the refusal of one.
pub fn typed_parts(text: &[u8], keys: &[Key]) -> Result<Vec<Typed>, Refusal> {
    parts(text)?
        .iter()
        .map(|part| typed_text(&part.tree, keys))
        .collect()
}

/// The trailing ";" divides nothing.
fn without_trailing<'a, 't>(all: &'a [Token<'t>]) -> &'a [Token<'t>] {
    match all {
        [before @ .., last] if last.shape == Shape::Symbol(Symbol::Semicolon) => before,
        _ => all,
    }
}

/// The tokens between ";" signs outside parentheses.
fn cut_at_top_level<'a, 't>(all: &'a [Token<'t>]) -> Vec<&'a [Token<'t>]> {
    let mut open = 0;
    let mut start = 0;
    let mut found = Vec::new();
    for (index, token) in all.iter().enumerate() {
        match token.shape {
            Shape::Symbol(Symbol::Open) => open += 1,
            Shape::Symbol(Symbol::Close) => open -= 1,
            Shape::Symbol(Symbol::Semicolon) if open == 0 => {
                found.push(&all[start..index]);
                start = index + 1;
            }
            _ => {}
        }
    }
    found.push(&all[start..]);
    found
}
