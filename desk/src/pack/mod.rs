//! Readable key lists and entries, and their bytes.
//!
//! A readable key list has a key on each line: its name, its kind (exact,
//! ternary, lpm, range or optional) and its width in bits, and then the word
//! `required` if no entry may leave the key out.
//!
//! ```text
//! ipv6.dst lpm 128      # a remark runs to the end of the line
//! ipv6.src lpm 128 required
//! ```
//!
//! A readable entry is one line of items with semicolons between them:
//!
//! ```text
//! priority 10; v 1; d 0x20 &&& 0xf0; p 0xc0/2; r 80..443; o *
//! ```
//!
//! - `priority N`, or `::priority N` where a key is called priority; 0 if left
//!   out.
//! - exact: `v N`.
//! - ternary and optional: `d N &&& MASK`; without a mask, all ones.
//! - lpm: `p N/LENGTH`; without a length, the whole width.
//! - range: `r LOW..HIGH`; one number stands for both.
//! - absent: `o *`, or the key left out, where it is neither exact nor required.
//!
//! Numbers are numerals of the restriction language (42, 0x2a, 0b101010) or
//! bare addresses: 10.0.0.1, fe80::1, 00:1b:44:11:3a:b7.

pub mod entries;
pub mod keys;
pub mod lines;
pub mod numbers;

pub use entries::{entries_from_text, entries_to_text, entry_to_text};
pub use keys::{keys_from_text, keys_to_text};
pub use lines::Problem;
