//! The leaf printer's program, which `rt ci` makes, or `rt run` in its folder.

use std::io::{ErrorKind, Write};
use std::path::PathBuf;
use std::process::{ChildStdin, Command, Stdio};
use std::thread;

/// Gives what the program prints for an input that is written to it at once.
pub fn print(input: &[u8]) -> String {
    print_in_pieces(input, input.len().max(1))
}

/// Gives what the program prints for an input that is written to it in pieces of some
/// length; the program has to end well and to print nothing on standard error.
pub fn print_in_pieces(input: &[u8], piece: usize) -> String {
    let mut child = Command::new(program())
        .stdin(Stdio::piped())
        .stdout(Stdio::piped())
        .stderr(Stdio::piped())
        .spawn()
        .expect("the printer's program starts");
    let stdin = child.stdin.take().expect("standard input is a pipe");
    let output = thread::scope(|scope| {
        scope.spawn(|| feed(stdin, input, piece));
        child.wait_with_output()
    });
    let output = output.expect("the printer's program ends");
    assert!(output.status.success(), "{}", output.status);
    assert_eq!(output.stderr, b"", "standard error");
    String::from_utf8(output.stdout).expect("the text is ASCII")
}

/// Gives the path of the program below the repository root.
fn program() -> PathBuf {
    let folder = PathBuf::from(env!("CARGO_MANIFEST_DIR")).join("../crates/print_leaves");
    let path = folder.join("out/print_leaves");
    assert!(
        path.is_file(),
        "{} is missing: `rt run <stdin` in crates/print_leaves makes it",
        path.display()
    );
    path
}

/// Writes an input in pieces and closes it. The program may end before it has read a too
/// long input, so that a closed pipe is no failure.
fn feed(mut stdin: ChildStdin, input: &[u8], piece: usize) {
    for part in input.chunks(piece) {
        match stdin.write_all(part) {
            Ok(()) => thread::yield_now(),
            Err(error) if error.kind() == ErrorKind::BrokenPipe => return,
            Err(error) => panic!("the input can't be written: {error}"),
        }
    }
}
