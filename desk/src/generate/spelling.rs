//! Ways to write numbers, addresses and the blanks between tokens.

use super::damage;
use super::rng::Rng;
use crate::reference::words::continues_id;

/// One of the numeral's many spellings; none is octal.
pub fn numeral(rng: &mut Rng, number: u128) -> Vec<u8> {
    let zeros = zeros_before(rng);
    match rng.below(10) {
        0 => format!("0d{zeros}{number}"),
        1 => format!("0D{zeros}{number}"),
        2 => format!("0b{zeros}{number:b}"),
        3 => format!("0B{zeros}{number:b}"),
        4 | 5 => format!("0x{zeros}{number:x}"),
        6 => format!("0X{zeros}{number:X}"),
        7 => format!("{zeros}{number}"),
        _ => format!("{number}"),
    }
    .into_bytes()
}

/// One of the octal numerals of a number.
pub fn octal(rng: &mut Rng, number: u128) -> Vec<u8> {
    let prefix = rng.pick(&["0o", "0O"]);
    let zeros = zeros_before(rng);
    format!("{prefix}{zeros}{number:o}").into_bytes()
}

/// Most often none.
fn zeros_before(rng: &mut Rng) -> String {
    if rng.one_in(8) {
        "0".repeat(rng.between(1, 5))
    } else {
        String::new()
    }
}

/// The word and the quoted string of an address for this number.
pub fn address(rng: &mut Rng, number: u128) -> (&'static [u8], Vec<u8>) {
    let mut types = vec![2];
    if number < 1 << 48 {
        types.push(1);
    }
    if number < 1 << 32 {
        types.push(0);
    }
    let (word, contents) = match rng.pick(&types) {
        0 => ("ipv4", ipv4(number)),
        1 => ("mac", mac(rng, number)),
        _ => ("ipv6", ipv6(rng, number)),
    };
    (word.as_bytes(), format!("'{contents}'").into_bytes())
}

/// The word and the quoted string of an address that is nearly good.
pub fn bad_address(rng: &mut Rng) -> (&'static [u8], Vec<u8>) {
    const IPV4: &str =
        "256.0.0.1 1.2.3.256 01.2.3.4 1.2.3.00 1.2.3 1.2.3.4.5 1.2.3. .1.2.3 1..2.3 \
                        1.2.3.1000 1.2.3.a 1.2.3.-1 1,2.3.4 1.2.3.0x4 :: 1.2.3.4/8";
    const MAC: &str = "0:00:00:00:00:00 00:00:00:00:00:0 000:00:00:00:00:00 00:00:00:00:00 \
                       00:00:00:00:00:00:00 00-00-00-00-00-00 0g:00:00:00:00:00 000000000000 \
                       00:00:00:00:00: :00:00:00:00:00 00::00:00:00:00";
    const IPV6: &str =
        "1:2:3:4:5:6:7 1:2:3:4:5:6:7:8:9 1:2:3:4:5:6:7:8:: ::1:2:3:4:5:6:7:8 1::2::3 \
                        ::: : 12345:: 00000:: g:: :1:: ::1: 1:::2 ::1.2.3.4 ::1%0 ::/0 \
                        1:2:3:4::5:6:7:8 1:2:3:4:5:6:7: :2:3:4:5:6:7:8 1 x";
    let (word, list) = rng.pick(&[("ipv4", IPV4), ("mac", MAC), ("ipv6", IPV6)]);
    let all: Vec<&str> = list.split_whitespace().collect();
    let mut contents = rng.pick(&all).as_bytes().to_vec();
    match rng.below(10) {
        0 => contents.insert(0, b' '),
        1 => contents.push(b' '),
        2 => contents.clear(),
        3 | 4 => damage::any(rng, &mut contents),
        _ => {}
    }
    let quoted = [b"'", &contents[..], b"'"].concat();
    (word.as_bytes(), quoted)
}

fn ipv4(number: u128) -> String {
    let bytes = (number as u32).to_be_bytes();
    bytes.map(|byte| byte.to_string()).join(".")
}

fn mac(rng: &mut Rng, number: u128) -> String {
    let bytes = &number.to_be_bytes()[10..];
    let pairs: Vec<String> = bytes.iter().map(|byte| format!("{byte:02x}")).collect();
    either_case(rng, pairs.join(":"))
}

fn ipv6(rng: &mut Rng, number: u128) -> String {
    let groups: Vec<u16> = number
        .to_be_bytes()
        .chunks(2)
        .map(|pair| u16::from_be_bytes([pair[0], pair[1]]))
        .collect();
    let spell = |groups: &[u16], rng: &mut Rng| {
        let spelled: Vec<String> = groups.iter().map(|&group| hex_group(rng, group)).collect();
        spelled.join(":")
    };
    let zeros: Vec<usize> = (0..8).filter(|&i| groups[i] == 0).collect();
    let spelled = if zeros.is_empty() || rng.one_in(4) {
        spell(&groups, rng)
    } else {
        // "::" may stand for any run of zero groups, a single one too.
        let start = rng.pick(&zeros);
        let run = groups[start..].iter().take_while(|&&g| g == 0).count();
        let end = start + rng.between(1, run);
        let before = spell(&groups[..start], rng);
        let after = spell(&groups[end..], rng);
        format!("{before}::{after}")
    };
    either_case(rng, spelled)
}

fn hex_group(rng: &mut Rng, group: u16) -> String {
    if rng.one_in(5) {
        format!("{group:04x}")
    } else {
        format!("{group:x}")
    }
}

fn either_case(rng: &mut Rng, text: String) -> String {
    if rng.one_in(4) {
        text.to_uppercase()
    } else {
        text
    }
}

/// How much blank stands between tokens.
#[derive(Clone, Copy, PartialEq, Eq)]
pub enum Blanks {
    /// Only where two tokens would run together.
    Needed,
    /// One space between all.
    One,
    /// All sorts, comments too.
    Wild,
}

/// A text of these tokens.
pub fn text(rng: &mut Rng, tokens: &[Vec<u8>]) -> Vec<u8> {
    let blanks = rng.pick(&[Blanks::Needed, Blanks::One, Blanks::One, Blanks::Wild]);
    text_with(rng, tokens, blanks)
}

pub fn text_with(rng: &mut Rng, tokens: &[Vec<u8>], blanks: Blanks) -> Vec<u8> {
    let mut text = Vec::new();
    if blanks == Blanks::Wild {
        wild_blank(rng, &mut text);
    }
    for token in tokens {
        let runs_together = match (text.last(), token.first()) {
            (Some(&last), Some(&first)) => continues_id(last) && continues_id(first),
            _ => false,
        };
        if runs_together || blanks == Blanks::One && !text.is_empty() {
            text.push(b' ');
        }
        text.extend_from_slice(token);
        if blanks == Blanks::Wild {
            wild_blank(rng, &mut text);
        }
    }
    text
}

const REMARKS: &[&[u8]] = &[b"", b" a remark", b"'", b"// (\xff;\0\r", b" 0o17"];

fn wild_blank(rng: &mut Rng, text: &mut Vec<u8>) {
    match rng.below(16) {
        0 => text.extend_from_slice(b"  "),
        1 => text.push(b'\t'),
        2 => text.push(b'\n'),
        3 => text.extend_from_slice(b"\r\n"),
        4 => {
            let remark = rng.pick(REMARKS);
            text.extend_from_slice(b"//");
            text.extend_from_slice(remark);
            text.push(b'\n');
        }
        5..=10 => text.push(b' '),
        _ => {}
    }
}
