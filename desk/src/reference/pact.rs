//! Source document 000, "Pact Byte Code": opcodes, index codes, and what a contract
//! says. Document 02, request k, where 000 leaves room: "An assertion is two bytes,
//! opcode and index, as in 000's hex (its remark on three is wrong). A conjunction
//! opcode after an assertion continues the clause, joined from the left".

/// "A Pact may have up to 16 input arguments and up to 16 entries in a user data
/// table."
pub const MOST_INDICES: usize = 16;

/// "COMPARATOR_OP: EQ | GT | GTE | IN", without IN, which no text can say. Each
/// stands at the index that its operation number names.
#[derive(Clone, Copy, PartialEq, Eq, Debug)]
pub enum Relation {
    Equal,
    Greater,
    GreaterEqual,
}

/// "LOAD: LOAD_INPUT_VS_USER | LD_INPUT_VS_INPUT": what an input is compared to.
#[derive(Clone, Copy, PartialEq, Eq, Debug)]
pub enum Load {
    User,
    Input,
}

/// "CONJUNCTION_OP: AND | OR | XOR"; each stands at the index that its operation
/// number names.
#[derive(Clone, Copy, PartialEq, Eq, Debug)]
pub enum Linking {
    And,
    Or,
    Xor,
}

/// "COMPARATOR: (INVERSION + LOAD + COMPARATOR_OP)"
#[derive(Clone, Copy, PartialEq, Eq, Debug)]
pub struct Comparator {
    pub inverted: bool,
    pub load: Load,
    pub relation: Relation,
}

/// "CONJUNCTION: (INVERSION + CONJUNCTION_OP)"
#[derive(Clone, Copy, PartialEq, Eq, Debug)]
pub struct Conjunction {
    pub inverted: bool,
    pub linking: Linking,
}

#[derive(Clone, Copy, PartialEq, Eq, Debug)]
pub enum Opcode {
    Comparator(Comparator),
    Conjunction(Conjunction),
}

/// "ASSERTION: COMPARATOR LOAD_INDEX LOAD_INDEX"
#[derive(Clone, Copy, PartialEq, Eq, Debug)]
pub struct Assertion {
    pub comparator: Comparator,
    pub left: usize,
    pub right: usize,
}

/// Assertions that are joined from the left. "CONTRACT: CLAUSE*" is a list of these.
#[derive(Clone, PartialEq, Eq, Debug)]
pub struct Clause {
    pub first: Assertion,
    pub links: Vec<(Conjunction, Assertion)>,
}

impl Relation {
    pub const ALL: [Relation; 3] = [Relation::Equal, Relation::Greater, Relation::GreaterEqual];

    fn holds(self, i: u64, j: u64) -> bool {
        match self {
            Relation::Equal => i == j,
            Relation::Greater => i > j,
            Relation::GreaterEqual => i >= j,
        }
    }
}

impl Load {
    pub const ALL: [Load; 2] = [Load::User, Load::Input];
}

impl Linking {
    pub const ALL: [Linking; 3] = [Linking::And, Linking::Or, Linking::Xor];

    fn holds(self, left: bool, right: bool) -> bool {
        match self {
            Linking::And => left && right,
            Linking::Or => left || right,
            Linking::Xor => left != right,
        }
    }
}

/// "8-bit big endian opcode": bit 7 "operator type", bit 6 "not", bits 5 - 2
/// "operation", bits 1 - 0 "RESERVED".
impl Opcode {
    const CONJUNCTION: u8 = 1 << 7;
    const NOT: u8 = 1 << 6;
    /// Of a comparator only: bit 5 "determines the LOADs to compare".
    const INPUT_VS_INPUT: u8 = 1 << 5;
    const RESERVED: u8 = 0b11;

    /// None for IN, a reserved bit that is not zero, and an operation number that is
    /// not used.
    pub fn from_byte(byte: u8) -> Option<Opcode> {
        if byte & Opcode::RESERVED != 0 {
            return None;
        }
        let inverted = byte & Opcode::NOT != 0;
        if byte & Opcode::CONJUNCTION != 0 {
            let operation = usize::from(byte >> 2 & 0b1111);
            let linking = *Linking::ALL.get(operation)?;
            return Some(Opcode::Conjunction(Conjunction { inverted, linking }));
        }
        let operation = usize::from(byte >> 2 & 0b111);
        Some(Opcode::Comparator(Comparator {
            inverted,
            load: Load::ALL[usize::from(byte & Opcode::INPUT_VS_INPUT != 0)],
            relation: *Relation::ALL.get(operation)?,
        }))
    }

    pub fn byte(self) -> u8 {
        let bit = |set: bool, bit: u8| if set { bit } else { 0 };
        match self {
            Opcode::Comparator(Comparator {
                inverted,
                load,
                relation,
            }) => {
                let load = bit(load == Load::Input, Opcode::INPUT_VS_INPUT);
                bit(inverted, Opcode::NOT) | load | (relation as u8) << 2
            }
            Opcode::Conjunction(Conjunction { inverted, linking }) => {
                Opcode::CONJUNCTION | bit(inverted, Opcode::NOT) | (linking as u8) << 2
            }
        }
    }
}

impl Assertion {
    /// "bits 7 - 4: LHS index, 3 - 0: RHS index"
    pub fn new(comparator: Comparator, index_code: u8) -> Assertion {
        Assertion {
            comparator,
            left: usize::from(index_code >> 4),
            right: usize::from(index_code & 0b1111),
        }
    }

    pub fn to_bytes(self) -> [u8; 2] {
        let index_code = self.left << 4 | self.right;
        let index_code = u8::try_from(index_code).expect("indices are below 16");
        [Opcode::Comparator(self.comparator).byte(), index_code]
    }

    fn holds(self, inputs: &[u64], users: &[u64]) -> bool {
        let right = match self.comparator.load {
            Load::User => users[self.right],
            Load::Input => inputs[self.right],
        };
        let holds = self.comparator.relation.holds(inputs[self.left], right);
        holds != self.comparator.inverted
    }
}

impl Clause {
    pub fn to_bytes(&self) -> Vec<u8> {
        let mut bytes = self.first.to_bytes().to_vec();
        for (conjunction, assertion) in &self.links {
            bytes.push(Opcode::Conjunction(*conjunction).byte());
            bytes.extend(assertion.to_bytes());
        }
        bytes
    }

    fn holds(&self, inputs: &[u64], users: &[u64]) -> bool {
        let mut so_far = self.first.holds(inputs, users);
        for (conjunction, assertion) in &self.links {
            let joined = conjunction
                .linking
                .holds(so_far, assertion.holds(inputs, users));
            so_far = joined != conjunction.inverted;
        }
        so_far
    }
}

/// What a contract says of its inputs and the user numbers: "A series of independent
/// clauses ("implicit and")".
pub fn holds(clauses: &[Clause], inputs: &[u64], users: &[u64]) -> bool {
    clauses.iter().all(|clause| clause.holds(inputs, users))
}
