//! Document 01, "Tokens and grammar": "Loosest to tightest: ";" left, "->" at
//! most once, "||" left, "&&" left, one comparison at most, prefix "!" and "-",
//! atoms." "One trailing ";" is allowed, at top level only. A level is opened
//! by each prefix operator and each parenthesis (not an address's); 64 may be
//! open." Refusals 8, 9 and 10.
//!
//! Each function reads one rung of the ladder and stops at the first token that
//! cannot belong to it, so a token that no sentence could continue with is met
//! before anything after it.

use super::addresses::AddressType;
use super::answers::Refusal;
use super::numbers::{Base, Literal};
use super::tokens::{Shape, Symbol, Token};
use super::tree::{Comparison, Join, Node, What};

pub const MOST_LEVELS: usize = 64;

type Reading<'t> = Result<Node<'t>, Refusal>;

/// The tree of a whole text: stage 8 to 10.
pub fn tree<'t>(tokens: &[Token<'t>], text_length: usize) -> Reading<'t> {
    let mut reader = Reader {
        tokens,
        next: 0,
        levels: 0,
        text_length,
    };
    let root = reader.sequence(Depth::Top)?;
    if reader.next < tokens.len() {
        return Err(reader.no_continuation());
    }
    Ok(root)
}

/// Where a sequence stands: a trailing ";" is allowed at the top only.
#[derive(Clone, Copy, PartialEq, Eq)]
enum Depth {
    Top,
    Parenthesis,
}

struct Reader<'a, 't> {
    tokens: &'a [Token<'t>],
    /// The index of the next token.
    next: usize,
    /// How many levels are open.
    levels: usize,
    text_length: usize,
}

impl<'t> Reader<'_, 't> {
    fn sequence(&mut self, depth: Depth) -> Reading<'t> {
        let mut left = self.implication()?;
        while let Some(place) = self.take(Symbol::Semicolon) {
            if depth == Depth::Top && self.peek().is_none() {
                break;
            }
            let right = self.implication()?;
            left = join(place, Join::Sequence, left, right);
        }
        Ok(left)
    }

    fn implication(&mut self) -> Reading<'t> {
        let left = self.disjunction()?;
        let Some(place) = self.take(Symbol::Arrow) else {
            return Ok(left);
        };
        let right = self.disjunction()?;
        Ok(join(place, Join::Implies, left, right))
    }

    fn disjunction(&mut self) -> Reading<'t> {
        let mut left = self.conjunction()?;
        while let Some(place) = self.take(Symbol::Or) {
            let right = self.conjunction()?;
            left = join(place, Join::Or, left, right);
        }
        Ok(left)
    }

    fn conjunction(&mut self) -> Reading<'t> {
        let mut left = self.comparison()?;
        while let Some(place) = self.take(Symbol::And) {
            let right = self.comparison()?;
            left = join(place, Join::And, left, right);
        }
        Ok(left)
    }

    fn comparison(&mut self) -> Reading<'t> {
        let left = self.prefix()?;
        let Some((place, comparison)) = self.take_comparison() else {
            return Ok(left);
        };
        let right = self.prefix()?;
        Ok(Node {
            place,
            what: What::Compare(comparison, Box::new(left), Box::new(right)),
        })
    }

    fn prefix(&mut self) -> Reading<'t> {
        let operator: fn(Box<Node<'t>>) -> What<'t> = match self.peek() {
            Some(Shape::Symbol(Symbol::Not)) => What::Not,
            Some(Shape::Symbol(Symbol::Minus)) => What::Minus,
            _ => return self.atom(),
        };
        let place = self.open_level()?;
        let operand = self.prefix()?;
        self.levels -= 1;
        Ok(Node {
            place,
            what: operator(Box::new(operand)),
        })
    }

    fn atom(&mut self) -> Reading<'t> {
        match self.peek() {
            Some(Shape::Numeral(literal)) => Ok(self.leaf(What::Number(literal))),
            Some(Shape::Word(word)) => self.word(word),
            Some(Shape::Symbol(Symbol::Colons)) => self.attribute(),
            Some(Shape::Symbol(Symbol::Open)) => self.parenthesis(),
            _ => Err(self.no_continuation()),
        }
    }

    fn word(&mut self, word: &'t [u8]) -> Reading<'t> {
        if word == b"true" || word == b"false" {
            return Ok(self.leaf(What::Bool(word == b"true")));
        }
        if let Some(address_type) = AddressType::named(word) {
            // "begin an address only before "(", else they are keys"
            if self.peek_second() == Some(Shape::Symbol(Symbol::Open)) {
                return self.address(address_type);
            }
        }
        let key = self.leaf(What::Key(word));
        if self.take(Symbol::Colons).is_none() {
            return Ok(key);
        }
        let (name, name_place) = self.undotted_word()?;
        Ok(Node {
            place: key.place,
            what: What::Field {
                key: word,
                name,
                name_place,
            },
        })
    }

    fn attribute(&mut self) -> Reading<'t> {
        let place = self.advance();
        let (name, name_place) = self.undotted_word()?;
        Ok(Node {
            place,
            what: What::Attribute { name, name_place },
        })
    }

    fn address(&mut self, address_type: AddressType) -> Reading<'t> {
        let place = self.advance();
        self.expect(Symbol::Open)?;
        let Some(Shape::Quoted(contents)) = self.peek() else {
            return Err(self.no_continuation());
        };
        let quote = self.advance();
        // A bad string is refused at its quote even if ")" is missing, since
        // the quote is the earlier place.
        let Some(number) = address_type.number(contents) else {
            return Err(Refusal::text(10, quote));
        };
        self.expect(Symbol::Close)?;
        Ok(Node {
            place,
            what: What::Number(Literal {
                base: Base::Decimal,
                number,
            }),
        })
    }

    fn parenthesis(&mut self) -> Reading<'t> {
        self.open_level()?;
        let inside = self.sequence(Depth::Parenthesis)?;
        self.expect(Symbol::Close)?;
        self.levels -= 1;
        Ok(inside)
    }

    fn undotted_word(&mut self) -> Result<(&'t [u8], usize), Refusal> {
        match self.peek() {
            Some(Shape::Word(word)) if !word.contains(&b'.') => Ok((word, self.advance())),
            _ => Err(self.no_continuation()),
        }
    }

    /// Passes the next token, which opens a level, and gives its place.
    fn open_level(&mut self) -> Result<usize, Refusal> {
        let place = self.advance();
        if self.levels == MOST_LEVELS {
            return Err(Refusal::text(9, place));
        }
        self.levels += 1;
        Ok(place)
    }

    fn leaf(&mut self, what: What<'t>) -> Node<'t> {
        let place = self.advance();
        Node { place, what }
    }

    fn peek(&self) -> Option<Shape<'t>> {
        self.tokens.get(self.next).map(|token| token.shape)
    }

    fn peek_second(&self) -> Option<Shape<'t>> {
        self.tokens.get(self.next + 1).map(|token| token.shape)
    }

    /// Passes the next token, which must be there, and gives its place.
    fn advance(&mut self) -> usize {
        let place = self.tokens[self.next].place;
        self.next += 1;
        place
    }

    /// Passes the next token if it is this symbol.
    fn take(&mut self, symbol: Symbol) -> Option<usize> {
        (self.peek() == Some(Shape::Symbol(symbol))).then(|| self.advance())
    }

    fn take_comparison(&mut self) -> Option<(usize, Comparison)> {
        let comparison = match self.peek() {
            Some(Shape::Symbol(symbol)) => comparison(symbol)?,
            _ => return None,
        };
        Some((self.advance(), comparison))
    }

    fn expect(&mut self, symbol: Symbol) -> Result<(), Refusal> {
        match self.take(symbol) {
            Some(_) => Ok(()),
            None => Err(self.no_continuation()),
        }
    }

    /// Refusal 8 at the next token, or at the text's length if there is none.
    fn no_continuation(&self) -> Refusal {
        let place = self.tokens.get(self.next).map(|token| token.place);
        Refusal::text(8, place.unwrap_or(self.text_length))
    }
}

fn join<'t>(place: usize, join: Join, left: Node<'t>, right: Node<'t>) -> Node<'t> {
    Node {
        place,
        what: What::Join(join, Box::new(left), Box::new(right)),
    }
}

fn comparison(symbol: Symbol) -> Option<Comparison> {
    match symbol {
        Symbol::Equal => Some(Comparison::Equal),
        Symbol::NotEqual => Some(Comparison::NotEqual),
        Symbol::Greater => Some(Comparison::Greater),
        Symbol::GreaterEqual => Some(Comparison::GreaterEqual),
        Symbol::Less => Some(Comparison::Less),
        Symbol::LessEqual => Some(Comparison::LessEqual),
        _ => None,
    }
}
