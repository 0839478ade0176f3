//! The help of the program and of each subcommand.

use crate::program::Folder;

const SUBCOMMANDS: [&str; 7] = ["build", "check", "info", "ask", "leaves", "picture", "tour"];

/// Asserts that a text fits a terminal.
fn assert_fits(text: &str) {
    for line in text.lines() {
        assert!(line.chars().count() <= 80, "over 80 columns: {line}");
    }
}

#[test]
fn the_program_lists_its_subcommands() {
    let folder = Folder::new("help_program");
    let help = folder.run(&["--help"]).done();
    assert_eq!(folder.run(&["-h"]).done(), help);
    assert!(help.starts_with("usage: range-filter SUBCOMMAND"));
    for subcommand in SUBCOMMANDS {
        let start = format!("  {subcommand} ");
        assert!(
            help.lines().any(|line| line.starts_with(&start)),
            "{subcommand}"
        );
    }
    assert_fits(&help);
}

#[test]
fn each_subcommand_has_a_help() {
    let folder = Folder::new("help_subcommands");
    for subcommand in SUBCOMMANDS {
        let help = folder.run(&[subcommand, "--help"]).done();
        assert!(
            help.starts_with(&format!("usage: range-filter {subcommand} ")),
            "{help}"
        );
        assert!(help.contains("\nExit status: 0 "), "{help}");
        assert_fits(&help);
        assert_eq!(folder.run(&[subcommand, "-h"]).done(), help);
    }
}

#[test]
fn the_version_is_the_packages() {
    let folder = Folder::new("help_version");
    let expected = format!("range-filter {}\n", env!("CARGO_PKG_VERSION"));
    assert_eq!(folder.run(&["--version"]).done(), expected);
}

#[test]
fn other_first_words_are_refused() {
    let folder = Folder::new("help_unknown");
    let list = "`range-filter --help` lists them";
    let none: [&str; 0] = [];
    assert_eq!(
        folder.run(&none).failed(2),
        format!("a subcommand is missing: {list}")
    );
    assert_eq!(
        folder.run(&["prove"]).failed(2),
        format!("there is no subcommand 'prove': {list}")
    );
}
