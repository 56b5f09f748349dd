//! Random restrictions, led by grammar and types, so that many pass; and, where
//! faults are asked for, restrictions with wrong names, fields and types.

use super::bits::{self, Signed};
use super::entries::value;
use super::rng::Rng;
use super::spelling;
use crate::lists::NamedKey;
use crate::reference::bits::width_of;
use crate::reference::entries::{Entry, Record};
use crate::reference::fields::Field;
use crate::reference::keys::Kind;
use crate::reference::ladder::Rung;
use crate::reference::numbers::all_ones;
use crate::reference::tree::Join;
use crate::reference::types::Type;

pub type Tokens = Vec<Vec<u8>>;

const ORDERINGS: [&str; 4] = [">", ">=", "<", "<="];
const EQUALITIES: [&str; 2] = ["==", "!="];

/// Writes a restriction over these keys, with about so many joins. The entry
/// lends numbers, so that comparisons come out both ways. A fault is planted at
/// about one place in `fault_in`; 0 plants none.
pub fn tokens(
    rng: &mut Rng,
    keys: &[NamedKey],
    entry: &Entry,
    joins: usize,
    fault_in: usize,
) -> Tokens {
    let mut writer = Writer {
        rng,
        keys,
        entry,
        fault_in,
        tokens: Vec::new(),
    };
    writer.boolean(Rung::Sequence, joins);
    if writer.rng.one_in(6) {
        writer.put(";");
    }
    writer.tokens
}

/// What an operand of a comparison is about: a key, and the width that an int meets
/// beside the other operand.
#[derive(Clone, Copy, Default)]
struct About {
    key: Option<usize>,
    meets: Option<u8>,
}

struct Writer<'a> {
    rng: &'a mut Rng,
    keys: &'a [NamedKey],
    entry: &'a Entry,
    fault_in: usize,
    tokens: Tokens,
}

impl Writer<'_> {
    fn put(&mut self, token: &str) {
        self.put_bytes(token.as_bytes());
    }

    fn put_bytes(&mut self, token: &[u8]) {
        self.tokens.push(token.to_vec());
    }

    fn fault(&mut self) -> bool {
        self.fault_in > 0 && self.rng.one_in(self.fault_in)
    }

    fn in_parentheses(&mut self, write: impl FnOnce(&mut Self)) {
        self.put("(");
        write(self);
        self.put(")");
    }

    /// A bool that may stand at this rung.
    fn boolean(&mut self, rung: Rung, joins: usize) {
        if self.rng.one_in(12) {
            return self.in_parentheses(|w| w.boolean(Rung::Sequence, joins));
        }
        if joins == 0 {
            return self.boolean_without_join(rung);
        }
        if self.rng.one_in(8) {
            self.put("!");
            return self.boolean(Rung::Prefix, joins);
        }
        let join = self.rng.pick(&Join::ALL);
        if join.rung() < rung {
            return self.in_parentheses(|w| w.boolean(Rung::Sequence, joins));
        }
        // A fault leaves out parentheses that the operands may need.
        let (left, right) = if self.fault() {
            (join.rung(), join.rung())
        } else {
            join.operand_rungs()
        };
        let of_left = self.rng.below(joins);
        self.boolean(left, of_left);
        self.put(join.spelling());
        if self.fault() {
            return self.number(About::default());
        }
        self.boolean(right, joins - 1 - of_left);
    }

    fn boolean_without_join(&mut self, rung: Rung) {
        match self.rng.below(12) {
            0 => {
                let truth = self.rng.pick(&["true", "false"]);
                self.put(truth);
            }
            1 => {
                self.put("!");
                self.boolean(Rung::Prefix, 0);
            }
            _ if rung > Rung::Comparison => self.in_parentheses(Self::comparison),
            _ => self.comparison(),
        }
    }

    fn comparison(&mut self) {
        match self.rng.below(32) {
            0 | 1 => return self.comparison_of_bools(),
            2 | 3 => return self.comparison_of_ints(),
            _ => {}
        }
        let (left, key) = self.any_operand_type();
        let right = self.partner(left);
        let meets = width_of(left).or(width_of(right));
        let about = About { key, meets };
        let ordered = |held| matches!(held, Type::Int | Type::Bits(_));
        let may_order = ordered(left) && ordered(right);
        let operator = if may_order && self.rng.one_in(2) || self.fault() {
            self.rng.pick(&ORDERINGS)
        } else {
            self.rng.pick(&EQUALITIES)
        };
        let (first, second) = if self.rng.one_in(3) {
            (right, left)
        } else {
            (left, right)
        };
        self.operand(first, about);
        self.put(operator);
        self.operand(second, about);
    }

    fn comparison_of_bools(&mut self) {
        self.boolean(Rung::Prefix, 0);
        let operator = self.rng.pick(&EQUALITIES);
        self.put(operator);
        if self.fault() {
            self.number(About::default());
        } else {
            self.boolean(Rung::Prefix, 0);
        }
    }

    /// Ints of either sign that lie close together.
    fn comparison_of_ints(&mut self) {
        let near = self.telling_number(None);
        self.signed(near);
        let operator = match self.rng.below(3) {
            0 => self.rng.pick(&EQUALITIES),
            _ => self.rng.pick(&ORDERINGS),
        };
        self.put(operator);
        let other = near.wrapping_add(self.rng.pick(&[0, 0, 1, u128::MAX]));
        self.signed(other);
    }

    fn signed(&mut self, number: u128) {
        for _ in 0..self.rng.pick(&[0, 1, 1, 2]) {
            self.put("-");
        }
        self.put_numeral(number);
    }

    /// With a fault an octal one, now and then: it hides all other faults.
    fn put_numeral(&mut self, number: u128) {
        let octal = self.fault() && self.rng.one_in(4);
        let numeral = if octal {
            spelling::octal(self.rng, number)
        } else {
            spelling::numeral(self.rng, number)
        };
        self.tokens.push(numeral);
    }

    /// The type of some operand that the keys allow, and the key it is about.
    fn any_operand_type(&mut self) -> (Type, Option<usize>) {
        if self.keys.is_empty() || self.rng.one_in(8) {
            return (Type::Int, None);
        }
        let index = self.rng.below(self.keys.len());
        let key = self.keys[index].key();
        let held = match self.rng.below(3) {
            0 if key.kind == Kind::Lpm => Type::Int,
            0 | 1 => Type::Bits(key.width),
            _ => key.bare_type(),
        };
        (held, Some(index))
    }

    /// A type that may meet this one; with a fault, one that nearly may.
    fn partner(&mut self, held: Type) -> Type {
        if self.fault() {
            return self.wrong_partner(held);
        }
        match held {
            Type::Bool => Type::Bool,
            Type::Match(_, width) if self.rng.one_in(4) => Type::Bits(width),
            _ if self.rng.one_in(4) => held,
            _ => Type::Int,
        }
    }

    /// Most often the bare type of another kind of key of that width, or of a
    /// key of nearly that width.
    fn wrong_partner(&mut self, held: Type) -> Type {
        let like = match held {
            Type::Bits(width) => self.pick_key(|key| key.width.abs_diff(width) == 1),
            Type::Match(kind, width) => self
                .pick_key(|key| key.width == width && key.kind != kind)
                .or_else(|| self.pick_key(|key| key.width.abs_diff(width) == 1)),
            Type::Bool | Type::Int => None,
        };
        match like {
            Some(index) => self.keys[index].key().bare_type(),
            None => self.any_operand_type().0,
        }
    }

    /// An operand of a comparison of about this type; an int where no key can
    /// give the type.
    fn operand(&mut self, held: Type, about: About) {
        if self.rng.one_in(14) {
            return self.in_parentheses(|w| w.operand(held, about));
        }
        if self.fault() {
            return self.wrong_operand();
        }
        match held {
            Type::Bool => self.boolean(Rung::Prefix, 0),
            Type::Int => self.int(about),
            Type::Bits(width) => self.bits(width, about),
            Type::Match(kind, width) => {
                let fits = |key: &NamedKey| key.kind == kind && key.width == width;
                match self.pick_key(fits) {
                    Some(key) => self.put_key(key),
                    None => self.number(about),
                }
            }
        }
    }

    fn int(&mut self, about: About) {
        match self.rng.below(10) {
            0 | 1 => self.int_of_entry(),
            2 => {
                self.put("-");
                self.int_of_entry();
            }
            _ => self.number(about),
        }
    }

    /// An int that is no number of the text: it is reduced where it meets a width.
    fn int_of_entry(&mut self) {
        let lpm = self.pick_key(|key| key.kind == Kind::Lpm);
        match lpm {
            Some(key) if self.rng.one_in(2) => self.put_field(key, Field::PrefixLength),
            _ => self.priority(),
        }
    }

    fn bits(&mut self, width: u8, about: About) {
        if self.rng.one_in(8) {
            self.put("-");
            return self.bits(width, about);
        }
        let Some(key) = self.pick_key(|key| key.width == width) else {
            return self.number(about);
        };
        let kind = self.keys[key].kind;
        if kind == Kind::Exact && self.rng.one_in(2) {
            return self.put_key(key);
        }
        let fields: Vec<Field> = Field::ALL
            .into_iter()
            .filter(|&field| field.belongs_to(kind) && field != Field::PrefixLength)
            .collect();
        let field = self.rng.pick(&fields);
        self.put_field(key, field);
    }

    fn pick_key(&mut self, fits: impl Fn(&NamedKey) -> bool) -> Option<usize> {
        let fitting: Vec<usize> = (0..self.keys.len())
            .filter(|&index| fits(&self.keys[index]))
            .collect();
        if fitting.is_empty() {
            None
        } else {
            Some(self.rng.pick(&fitting))
        }
    }

    fn put_key(&mut self, index: usize) {
        let name = self.keys[index].name.clone();
        self.tokens.push(name);
    }

    fn put_field(&mut self, index: usize, field: Field) {
        self.put_key(index);
        self.put("::");
        self.put(field.name());
    }

    fn priority(&mut self) {
        self.put("::");
        self.put("priority");
    }

    /// Something that is likely to be refused where it stands.
    fn wrong_operand(&mut self) {
        match self.rng.below(8) {
            0 => self.put("nosuchkey"),
            6 => self.comparison(),
            5 if !self.keys.is_empty() => self.nearly_a_key(),
            1 if !self.keys.is_empty() => {
                let index = self.rng.below(self.keys.len());
                let field = self.rng.pick(&Field::ALL);
                self.put_field(index, field);
            }
            2 if !self.keys.is_empty() => {
                let index = self.rng.below(self.keys.len());
                self.put_key(index);
                self.put("::");
                let name = self
                    .rng
                    .pick(&["true", "priority", "Mask", "prefix", "ipv4"]);
                self.put(name);
            }
            3 => {
                self.put("::");
                let name = self.rng.pick(&["prio", "value", "true", "Priority", "mac"]);
                self.put(name);
            }
            4 if !self.keys.is_empty() => {
                let index = self.rng.below(self.keys.len());
                let sign = self.rng.pick(&["-", "!"]);
                self.put(sign);
                self.put_key(index);
            }
            _ => self.boolean(Rung::Prefix, 0),
        }
    }

    /// A word that is a key but for a few bytes.
    fn nearly_a_key(&mut self) {
        let mut name = self.rng.pick_ref(self.keys).name.clone();
        match self.rng.below(6) {
            0 => name.push(self.rng.pick(b"x0_")),
            1 => name.extend_from_slice(b".x"),
            2 => name.resize(65 + self.rng.below(100), b'x'),
            3 if name.len() > 1 => name.truncate(name.len() - 1),
            4 => {
                let upper = name.to_ascii_uppercase();
                name = upper;
            }
            _ => name.insert(0, b'_'),
        }
        self.tokens.push(name);
        if self.rng.one_in(4) {
            self.put("::");
            self.put("value");
        }
    }

    /// A numeral or an address, often near the entry's numbers for the key, with the
    /// minus signs that its number needs.
    fn number(&mut self, about: About) {
        let number = self.signed_number(about);
        let signs = number.signs(self.rng);
        self.under_signs(signs, number.magnitude);
    }

    fn under_signs(&mut self, signs: usize, magnitude: u128) {
        if signs == 0 {
            return self.numeral_or_address(magnitude);
        }
        self.put("-");
        if self.rng.one_in(8) {
            self.in_parentheses(|w| w.under_signs(signs - 1, magnitude));
        } else {
            self.under_signs(signs - 1, magnitude);
        }
    }

    fn numeral_or_address(&mut self, number: u128) {
        if self.rng.one_in(10) {
            let (word, quoted) = if self.fault() {
                spelling::bad_address(self.rng)
            } else {
                spelling::address(self.rng, number)
            };
            self.put_bytes(word);
            self.put("(");
            self.tokens.push(quoted);
            self.put(")");
        } else {
            self.put_numeral(number);
        }
    }

    /// A number that loses no bits at the width that it meets; with a fault, one
    /// that does.
    fn signed_number(&mut self, about: About) -> Signed {
        let telling = self.telling_number(about.key);
        match about.meets {
            Some(width) if self.fault() => bits::lost(self.rng, width),
            Some(width) => bits::kept(self.rng, width, telling),
            None if self.rng.one_in(5) => Signed::minus(telling),
            None => Signed::plus(telling),
        }
    }

    fn telling_number(&mut self, key: Option<usize>) -> u128 {
        let (width, record) = match key {
            Some(index) => {
                let key = self.keys[index].key();
                (key.width, self.entry.records[index].reading(&key))
            }
            None => (8, Record::ABSENT),
        };
        let near = match self.rng.below(8) {
            0..=2 => record.first,
            3 | 4 => record.second,
            5 => u128::from(record.prefix_length),
            6 => u128::from(self.entry.priority),
            _ => value(self.rng, width),
        };
        let over = all_ones(width).wrapping_add(1);
        match self.rng.below(16) {
            0 => near.wrapping_add(1),
            1 => near.wrapping_sub(1),
            2 => near.checked_add(over).unwrap_or(near),
            3 => all_ones(width),
            4 => over,
            5 => u128::MAX,
            6 => self.rng.number(),
            _ => near,
        }
    }
}

const SOUP: &str = "true false ipv4 ipv6 mac :: :: ( ( ) ) ! - ; -> || && == != < <= > >= \
                    '::' '1.2.3.4' 'bad' priority value mask 0 1 0x10 0o7 a.b k";

/// Tokens that stand together for no reason.
pub fn soup(rng: &mut Rng, keys: &[NamedKey], length: usize) -> Tokens {
    let words: Vec<&str> = SOUP.split_whitespace().collect();
    (0..length)
        .map(|_| {
            if !keys.is_empty() && rng.one_in(5) {
                rng.pick_ref(keys).name.clone()
            } else {
                rng.pick(&words).as_bytes().to_vec()
            }
        })
        .collect()
}

/// One small change to a row of tokens.
pub fn disturb(rng: &mut Rng, keys: &[NamedKey], tokens: &mut Tokens) {
    let place = rng.below(tokens.len() + 1);
    let other = soup(rng, keys, 1).remove(0);
    let taken = place.min(tokens.len().saturating_sub(1));
    match rng.below(6) {
        0 => tokens.insert(place, other),
        1 => tokens.truncate(place),
        2 if !tokens.is_empty() => tokens[taken] = other,
        3 if !tokens.is_empty() => {
            let copy = tokens[taken].clone();
            tokens.insert(place, copy);
        }
        4 if !tokens.is_empty() => {
            let with = rng.below(tokens.len());
            tokens.swap(taken, with);
        }
        _ if !tokens.is_empty() => {
            tokens.remove(taken);
        }
        _ => tokens.push(other),
    }
}

/// A text that is an operand by itself, not a bool.
pub fn number_alone(rng: &mut Rng, keys: &[NamedKey], entry: &Entry) -> Tokens {
    let mut writer = Writer {
        rng,
        keys,
        entry,
        fault_in: 0,
        tokens: Vec::new(),
    };
    let (held, key) = writer.any_operand_type();
    let about = About { key, meets: None };
    if writer.rng.one_in(2) {
        writer.in_parentheses(|w| w.operand(held, about));
    } else {
        writer.operand(held, about);
    }
    writer.tokens
}
