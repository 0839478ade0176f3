//! The README's example in Rust is the one at the head of the crate's documentation, which runs.

use std::fs;
use std::path::Path;

/// Gives a file of the repository, by its path from the package.
fn read(path: &str) -> String {
    let path = Path::new(env!("CARGO_MANIFEST_DIR")).join(path);
    fs::read_to_string(&path).unwrap_or_else(|error| panic!("{}: {error}", path.display()))
}

/// Gives the lines of the first block of code that a line opens.
fn first_block<'a>(text: &'a str, opening: &str) -> Vec<&'a str> {
    let behind = text.lines().skip_while(|line| *line != opening).skip(1);
    behind.take_while(|line| !line.ends_with("```")).collect()
}

#[test]
fn the_readme_quotes_the_crate() {
    let (readme, source) = (read("../README.md"), read("src/lib.rs"));
    let documented: Vec<&str> = first_block(&source, "//! ```")
        .into_iter()
        .map(|line| line.trim_start_matches("//!"))
        .map(|line| line.strip_prefix(' ').unwrap_or(line))
        .filter(|line| !line.starts_with("# "))
        .collect();
    assert!(documented.len() > 5, "the crate's example is missing");
    assert_eq!(first_block(&readme, "```rust"), documented);
}
