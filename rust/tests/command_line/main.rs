//! Tests of the command line. What it should write is worked out by hand from document 01's
//! examples.

mod ask;
mod build;
mod check;
mod examples;
mod help;
mod info;
mod leaves;
mod long_files;
mod picture;
mod pipes;
mod program;
mod tour;
