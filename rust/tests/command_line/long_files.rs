//! Files that are far too long.

use std::fs::File;
use std::time::{Duration, Instant};

use crate::program::{Folder, Outcome};

/// The time in which a long file is refused, with room for a busy machine.
const BOUND: Duration = Duration::from_secs(5);

/// Runs the program over a file of zero bytes and asserts that it ends soon.
fn run_over(test: &str, bytes: u64, arguments: &[&str]) -> Outcome {
    let folder = Folder::new(test);
    let file = File::create(folder.path("zeros")).unwrap();
    file.set_len(bytes).unwrap();
    let start = Instant::now();
    let outcome = folder.run(arguments);
    assert!(start.elapsed() < BOUND, "{:?}", start.elapsed());
    assert_eq!(folder.names(), ["zeros"]);
    outcome
}

#[test]
fn fifty_million_zero_bytes_are_no_image() {
    let outcome = run_over("long_check", 50_000_000, &["check", "zeros"]);
    assert_eq!((outcome.status, outcome.errors.as_str()), (1, ""));
    assert!(outcome.output.starts_with("refused with 11, FRAME_WRONG: "));
    assert!(outcome
        .output
        .ends_with(" (it does not begin with the mark HD)\n"));
    for subcommand in ["info", "ask", "leaves", "picture"] {
        let outcome = run_over("long_others", 50_000_000, &[subcommand, "zeros"]);
        let sentence = outcome.failed(1);
        assert!(sentence.starts_with("zeros is refused with 11, FRAME_WRONG: "));
    }
}

#[test]
fn a_longer_file_is_not_read() {
    // So many bytes could not be read within the bound.
    for subcommand in ["check", "info", "ask", "leaves", "picture"] {
        let outcome = run_over("long_unread", 1 << 36, &[subcommand, "zeros"]);
        let sentence = "zeros is no image: it has over 67,108,864 bytes, \
                        and no image has 12.3 million; name a file that `range-filter build` wrote";
        assert_eq!(outcome.failed(1), sentence);
    }
}

#[test]
fn fifty_million_zero_bytes_are_no_keys() {
    for sort in [&[][..], &["--sort"][..]] {
        let arguments = [&["build", "zeros", "-o", "image"], sort].concat();
        let outcome = run_over("long_keys", 50_000_000, &arguments);
        let sentence =
            "zeros, line 1: the line has over 1024 bytes, and no key is so long: shorten it";
        assert_eq!(outcome.failed(1), sentence);
    }
}

#[test]
fn an_endless_file_is_refused() {
    let folder = Folder::new("long_endless");
    let start = Instant::now();
    let sentence = folder.run(&["check", "/dev/zero"]).failed(1);
    assert!(
        sentence.starts_with("/dev/zero is no image: "),
        "{sentence}"
    );
    let keys = folder.run(&["build", "/dev/zero", "-o", "image"]).failed(1);
    assert!(
        keys.starts_with("/dev/zero, line 1: the line has over 1024 bytes"),
        "{keys}"
    );
    assert!(start.elapsed() < BOUND, "{:?}", start.elapsed());
}

#[test]
fn noise_is_no_image() {
    let folder = Folder::new("long_noise");
    let mut state: u64 = 20_261_116;
    let mut noise = b"HD".to_vec();
    noise.resize_with(1_000_000, || {
        state = state
            .wrapping_mul(6_364_136_223_846_793_005)
            .wrapping_add(1);
        (state >> 56) as u8
    });
    folder.write("noise", noise);
    let start = Instant::now();
    let outcome = folder.run(&["check", "noise"]);
    assert!(start.elapsed() < BOUND, "{:?}", start.elapsed());
    assert_eq!((outcome.status, outcome.errors.as_str()), (1, ""));
    assert!(outcome.output.starts_with("refused with 11, FRAME_WRONG: "));
}
