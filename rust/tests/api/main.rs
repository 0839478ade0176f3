//! The package from outside: the documents' examples, hash bits, refusals, leaves, damaged images,
//! question files, the traits of its types, its build script, and the README's example.

mod build_script;
mod damaged_images;
mod examples;
mod hash_bits;
mod leaves;
mod question_files;
mod readme;
mod refusals;
mod shared;
mod traits;
