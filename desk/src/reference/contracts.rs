//! Document 02, request k: "IN, a nonzero reserved bit, an unused operation number, an
//! index without a user number or name, a conjunction with no assertion directly
//! before it, and a cut contract are 24 at the earliest contract byte concerned, or at
//! the length if cut." The byte concerned by an index is the index byte, and a
//! contract that ends in a conjunction is cut.

use super::answers::{Input, Refusal};
use super::pact::{Assertion, Clause, Conjunction, Load, Opcode};

/// The clauses of a contract, with so many names and user numbers.
pub fn clauses(contract: &[u8], names: usize, users: usize) -> Result<Vec<Clause>, Refusal> {
    let mut clauses: Vec<Clause> = Vec::new();
    // A conjunction that no assertion has followed yet.
    let mut open: Option<Conjunction> = None;
    let mut place = 0;
    while place < contract.len() {
        match Opcode::from_byte(contract[place]).ok_or(fault(place))? {
            Opcode::Conjunction(conjunction) => {
                if clauses.is_empty() || open.is_some() {
                    return Err(fault(place));
                }
                open = Some(conjunction);
                place += 1;
            }
            Opcode::Comparator(comparator) => {
                let index_code = *contract.get(place + 1).ok_or(fault(contract.len()))?;
                let assertion = Assertion::new(comparator, index_code);
                if !has_indices(assertion, names, users) {
                    return Err(fault(place + 1));
                }
                match (open.take(), clauses.last_mut()) {
                    (Some(conjunction), Some(clause)) => {
                        clause.links.push((conjunction, assertion));
                    }
                    _ => clauses.push(Clause {
                        first: assertion,
                        links: Vec::new(),
                    }),
                }
                place += 2;
            }
        }
    }
    match open {
        Some(_) => Err(fault(contract.len())),
        None => Ok(clauses),
    }
}

/// Have both indices a name, or a user number?
fn has_indices(assertion: Assertion, names: usize, users: usize) -> bool {
    let most_right = match assertion.comparator.load {
        Load::User => users,
        Load::Input => names,
    };
    assertion.left < names && assertion.right < most_right
}

fn fault(place: usize) -> Refusal {
    Refusal::new(24, Input::Contract, place)
}
