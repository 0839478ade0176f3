//! An implementation of document 01 and of the orders of document 02 that have landed,
//! written from their text alone. It follows the definitions word by word: clarity comes
//! before speed, and no code is taken from the library or from the benchmark.

pub mod accepted;
pub mod build;
pub mod check;
pub mod decode;
pub mod format;
pub mod hash;
pub mod keys;
pub mod leaves;
pub mod print;
pub mod questions;
pub mod rebuild;
pub mod replies;
pub mod rule_sentences;
pub mod rules;
pub mod strike;
pub mod tables;
pub mod trie;
pub mod walk;
