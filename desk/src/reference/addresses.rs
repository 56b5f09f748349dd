//! Document 01, "Tokens and grammar": "Addresses: ipv4 is four decimals 0 to
//! 255 without leading zeros; mac is six pairs of hex digits with colons; ipv6
//! follows RFC 4291 section 2.2, forms 1 and 2, where "::" stands for one or
//! more zero groups. All become whole numbers of type int, first byte highest."
//! Refusal 10 is given where these functions give none.

#[derive(Clone, Copy, PartialEq, Eq, Debug)]
pub enum AddressType {
    Ipv4,
    Ipv6,
    Mac,
}

impl AddressType {
    pub fn named(word: &[u8]) -> Option<AddressType> {
        match word {
            b"ipv4" => Some(AddressType::Ipv4),
            b"ipv6" => Some(AddressType::Ipv6),
            b"mac" => Some(AddressType::Mac),
            _ => None,
        }
    }

    /// The number that the contents of an address string stand for.
    pub fn number(self, contents: &[u8]) -> Option<u128> {
        match self {
            AddressType::Ipv4 => ipv4(contents),
            AddressType::Ipv6 => ipv6(contents),
            AddressType::Mac => mac(contents),
        }
    }
}

pub fn ipv4(contents: &[u8]) -> Option<u128> {
    let parts = parts(contents, b'.');
    if parts.len() != 4 {
        return None;
    }
    join(&parts, 256, decimal_byte)
}

pub fn mac(contents: &[u8]) -> Option<u128> {
    let parts = parts(contents, b':');
    if parts.len() != 6 || parts.iter().any(|part| part.len() != 2) {
        return None;
    }
    join(&parts, 256, hex)
}

pub fn ipv6(contents: &[u8]) -> Option<u128> {
    let Some(gap) = contents.windows(2).position(|pair| pair == b"::") else {
        let groups = parts(contents, b':');
        return if groups.len() == 8 {
            join(&groups, 1 << 16, hex_group)
        } else {
            None
        };
    };
    let before = groups_beside_gap(&contents[..gap]);
    let after = groups_beside_gap(&contents[gap + 2..]);
    // The gap stands for at least one group.
    if before.len() + after.len() > 7 {
        return None;
    }
    let low = join(&after, 1 << 16, hex_group)?;
    let high = join(&before, 1 << 16, hex_group)?;
    let empty_groups_and_after = 8 - before.len();
    // With nothing before the gap, high is 0 and need not be moved (a move by
    // all 128 bits is no move that the machine has).
    let high = if before.is_empty() {
        0
    } else {
        high << (16 * empty_groups_and_after)
    };
    Some(high | low)
}

fn parts(contents: &[u8], separator: u8) -> Vec<&[u8]> {
    contents.split(|&byte| byte == separator).collect()
}

/// The groups on one side of "::"; there may be none.
fn groups_beside_gap(side: &[u8]) -> Vec<&[u8]> {
    if side.is_empty() {
        Vec::new()
    } else {
        parts(side, b':')
    }
}

fn join(parts: &[&[u8]], base: u128, read: fn(&[u8]) -> Option<u128>) -> Option<u128> {
    let mut number = 0;
    for part in parts {
        number = number * base + read(part)?;
    }
    Some(number)
}

fn decimal_byte(digits: &[u8]) -> Option<u128> {
    let leading_zero = digits.len() > 1 && digits[0] == b'0';
    if digits.is_empty() || digits.len() > 3 || leading_zero {
        return None;
    }
    let number = in_base(digits, 10)?;
    (number <= 255).then_some(number)
}

fn hex_group(digits: &[u8]) -> Option<u128> {
    if (1..=4).contains(&digits.len()) {
        hex(digits)
    } else {
        None
    }
}

fn hex(digits: &[u8]) -> Option<u128> {
    in_base(digits, 16)
}

fn in_base(digits: &[u8], base: u32) -> Option<u128> {
    let mut number = 0;
    for &byte in digits {
        number = number * u128::from(base) + u128::from(char::from(byte).to_digit(base)?);
    }
    Some(number)
}
