//! Readers that go before the program has written all.

use std::io::{BufRead, BufReader, Read};

use crate::program::{many_keys, Folder};

#[test]
fn a_reader_that_takes_one_line_ends_the_program_quietly() {
    let folder = Folder::new("pipes_leaves");
    folder.build("image", &many_keys(65_535), &[]);
    let mut child = folder.start(&["leaves", "image"]);
    let mut output = BufReader::new(child.stdout.take().unwrap());
    let mut line = String::new();
    output.read_line(&mut line).unwrap();
    assert_eq!(line, "leaves 65535\n");
    drop(output);
    let mut errors = String::new();
    child
        .stderr
        .take()
        .unwrap()
        .read_to_string(&mut errors)
        .unwrap();
    assert_eq!(errors, "");
    assert_eq!(child.wait().unwrap().code(), Some(0));
}

#[test]
fn a_reader_that_takes_nothing_ends_the_program_quietly() {
    let folder = Folder::new("pipes_nothing");
    folder.build("image", "D1\nD12\nD2\nV\n", &[]);
    let calls: [&[&str]; 6] = [
        &["--help"],
        &["check", "image"],
        &["info", "image"],
        &["ask", "image", "point", "D1"],
        &["leaves", "image"],
        &["picture", "image"],
    ];
    for arguments in calls {
        let mut child = folder.start(arguments);
        drop(child.stdout.take());
        let output = child.wait_with_output().unwrap();
        assert_eq!(output.stderr, b"", "{arguments:?}");
        assert_eq!(output.status.code(), Some(0), "{arguments:?}");
    }
}
