//! Damage to bytes of any sort.

use super::rng::Rng;

/// Bytes that mean something in a text, or nearly do.
const TELLING: &[u8] = b"'\".:;&|-=!<>()/ \n\t\r\x0b\x0c\0\xff\xa0`@#0179afgxXbBoOdD_aztrue";

/// Takes one byte off the end, or adds one.
pub fn cut_or_extend(rng: &mut Rng, bytes: &mut Vec<u8>) {
    if !bytes.is_empty() && rng.one_in(2) {
        bytes.pop();
    } else {
        let byte = if rng.one_in(2) { 0 } else { rng.byte() };
        bytes.push(byte);
    }
}

/// One small change: a byte deleted, inserted, replaced or flipped, the end cut
/// off, or a stretch doubled or left out.
pub fn any(rng: &mut Rng, bytes: &mut Vec<u8>) {
    if bytes.is_empty() {
        bytes.push(telling_byte(rng));
        return;
    }
    let place = rng.below(bytes.len());
    match rng.below(8) {
        0 => {
            bytes.remove(place);
        }
        1 => bytes.insert(place, telling_byte(rng)),
        2 => bytes[place] = telling_byte(rng),
        3 => bytes[place] ^= 1 << rng.below(8),
        4 => bytes.truncate(place),
        5 => double_stretch(rng, bytes, place),
        6 => {
            let end = (place + rng.between(1, 8)).min(bytes.len());
            bytes.drain(place..end);
        }
        _ => {
            let other = rng.below(bytes.len());
            bytes.swap(place, other);
        }
    }
}

fn telling_byte(rng: &mut Rng) -> u8 {
    if rng.one_in(8) {
        rng.byte()
    } else {
        rng.pick(TELLING)
    }
}

fn double_stretch(rng: &mut Rng, bytes: &mut Vec<u8>, place: usize) {
    let end = (place + rng.between(1, 12)).min(bytes.len());
    let stretch = bytes[place..end].to_vec();
    bytes.splice(place..place, stretch);
}
