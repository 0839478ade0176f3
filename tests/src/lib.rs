//! What the tests share: an implementation written from documents 01 and 02 to compare with,
//! the calls of the proved library, the printer program, painted stacks, generators of inputs,
//! published values, and the comparisons themselves.

pub mod accepted;
pub mod answer;
pub mod compare;
pub mod examples;
pub mod generate;
pub mod library;
pub mod printer;
pub mod random;
pub mod reference;
pub mod refused;
pub mod settings;
pub mod stack;
pub mod tally;
pub mod vectors;
