//! An implementation of document 01, and of what document 02 changes in it,
//! written from their words alone.
//!
//! "Wanted: reading a restriction, checking its types against a key list,
//! judging one entry directly from the text, translating a text into blocks,
//! loading blocks, running loaded blocks on an entry." And document 02's "Print
//! a restriction in house style", "Tell me on site what broke", "A summary beside
//! each rule", "Stop early, and count", "Octal goes", "Numbers that lose bits", "Take
//! in Pact contracts", "Check a contractor's translator" and "A count before I drive
//! home". And beyond both, the run of a whole table.
//!
//! The files follow the documents' sections. Plainness comes before speed:
//! what stands here is meant to be held against the paper, line by line.

pub mod addresses;
pub mod agreeing;
pub mod answers;
pub mod bits;
pub mod blocks;
pub mod calls;
pub mod code;
pub mod contracts;
pub mod counting;
pub mod drafting;
pub mod entries;
pub mod explaining;
pub mod fields;
pub mod fixing;
pub mod grammar;
pub mod keys;
pub mod ladder;
pub mod loading;
pub mod meaning;
pub mod numbers;
pub mod pact;
pub mod parts;
pub mod printing;
pub mod rechecking;
pub mod running;
pub mod running_all;
pub mod summaries;
pub mod tokens;
pub mod translating;
pub mod tree;
pub mod types;
pub mod values;
pub mod words;

pub use answers::{Answer, Input};
pub use calls::{check, compare, count, explain, fix_octal, judge, load, pact};
pub use calls::{print, read, recheck, run, run_all, summarize, translate};
pub use counting::Counts;
pub use explaining::Explanation;
pub use rechecking::Rechecked;
pub use running::Outcome;
pub use running_all::Totals;
pub use summaries::Summary;
