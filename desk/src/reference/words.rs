//! Document 01, "Tokens and grammar": "A run that starts with a letter or
//! underscore is a word, id ('.' id)*, with no blank inside". Key names have
//! the same form ("a key by 004's grammar").

/// May this byte start an id?
pub fn starts_id(byte: u8) -> bool {
    byte.is_ascii_alphabetic() || byte == b'_'
}

/// May this byte stand in an id after its first?
pub fn continues_id(byte: u8) -> bool {
    byte.is_ascii_alphanumeric() || byte == b'_'
}

/// The length of the longest word at the front of these bytes, 0 if none.
///
/// A dot that no id start follows is not part of it.
pub fn word_length(bytes: &[u8]) -> usize {
    let mut length = id_length(bytes);
    while length > 0 && bytes.get(length) == Some(&b'.') {
        let next = id_length(&bytes[length + 1..]);
        if next == 0 {
            break;
        }
        length += 1 + next;
    }
    length
}

fn id_length(bytes: &[u8]) -> usize {
    match bytes.first() {
        Some(&first) if starts_id(first) => bytes.iter().take_while(|&&b| continues_id(b)).count(),
        _ => 0,
    }
}
