//! The desk of Polluxvalve: a second implementation of the documents, with
//! tools that compare the product with it and that turn readable key lists
//! and entries into bytes.

pub mod changes;
pub mod commands;
pub mod compare;
pub mod entry_tables;
pub mod generate;
pub mod lists;
pub mod pack;
pub mod reference;
pub mod requests;
pub mod show;
pub mod tables;
