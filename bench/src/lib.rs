//! A fast implementation of succinct range filters without proofs, to compare the
//! proved library with, the key lists and questions on which they are compared, and how
//! often an image is wrong about a key.

pub mod fast;
pub mod keys;
pub mod questions;
pub mod rates;
