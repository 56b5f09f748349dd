//! Document 02, request f: "Keep with a text a 32-bit set with one bit for each
//! key the text names, and a mark for ::priority. Report how many keys it names."

use std::fmt;

use super::types::Typed;

/// What a text names.
#[derive(Clone, Copy, PartialEq, Eq, Debug, Default)]
pub struct Summary {
    /// Bit k, which is worth 2^k, for record k of the key list.
    pub keys: u32,
    /// Does it name ::priority?
    pub priority: bool,
}

impl Summary {
    /// A key is named where it stands alone and where a field of it stands.
    pub fn of(tree: &Typed) -> Summary {
        match tree {
            Typed::Bool(_) | Typed::Number(_) => Summary::default(),
            Typed::Key(index) | Typed::Field(index, _) => Summary {
                keys: 1 << index,
                priority: false,
            },
            Typed::Priority => Summary {
                keys: 0,
                priority: true,
            },
            Typed::Not(inner) | Typed::Minus(inner) | Typed::Convert(_, inner) => {
                Summary::of(inner)
            }
            Typed::Compare(_, left, right) | Typed::Join(_, left, right) => {
                let (left, right) = (Summary::of(left), Summary::of(right));
                Summary {
                    keys: left.keys | right.keys,
                    priority: left.priority || right.priority,
                }
            }
        }
    }

    /// Does the text name the key of this index?
    pub fn names(&self, index: usize) -> bool {
        self.keys >> index & 1 == 1
    }

    /// How many keys the text names; ::priority is none.
    pub fn count(&self) -> usize {
        (0..u32::BITS as usize)
            .filter(|&index| self.names(index))
            .count()
    }
}

/// The end of a line of the program `answers`: the set, the mark and the count.
impl fmt::Display for Summary {
    fn fmt(&self, out: &mut fmt::Formatter) -> fmt::Result {
        let mark = u8::from(self.priority);
        write!(out, "{} {mark} {}", self.keys, self.count())
    }
}
