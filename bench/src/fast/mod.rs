//! What one would ship without proofs: words of bits, rank and select tables, and a
//! heap where it helps.

pub mod accepted;
pub mod ask;
mod bits;
pub mod build;
pub mod check;
mod count;
mod dense;
pub mod hash;
mod locate;
mod range;
mod seek;
mod sparse;
mod trie;
pub mod walk;
