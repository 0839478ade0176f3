//! The README's table of false positives is that of the benchmark's page.

const README: &str = include_str!("../../README.md");
const PAGE: &str = include_str!("../../docs/benchmark.md");

/// How the head of the table begins.
const HEAD: &str = "| 65,535 keys, question |";

/// Gives the lines of the table, its head first.
fn table(page: &str) -> Vec<&str> {
    let lines = page.lines().skip_while(|line| !line.starts_with(HEAD));
    lines.take_while(|line| line.starts_with('|')).collect()
}

#[test]
fn false_positives_are_those_of_the_page() {
    assert!(table(PAGE).len() > 2);
    assert_eq!(table(README), table(PAGE));
}
