//! `range-filter ask`.

use std::io::{BufRead, BufReader, Write};
use std::sync::mpsc;
use std::thread;
use std::time::Duration;

use crate::examples::{in_version_2, with_slots, IMAGE_A, IMAGE_VAN, SLOTS_A};
use crate::program::{Folder, Outcome};

/// Puts questions from arguments to an image.
fn ask(test: &str, image: &[u8], words: &[&str]) -> Outcome {
    let folder = Folder::new(test);
    folder.write("image", image);
    let arguments = [&["ask", "image"], words].concat();
    folder.run(&arguments)
}

/// Puts questions from standard input to list A's image.
fn ask_lines(test: &str, lines: &str) -> Outcome {
    let folder = Folder::new(test);
    folder.write("image", IMAGE_A);
    folder.run_with_input(&["ask", "image"], lines.as_bytes())
}

/// Document 01's questions to list A and their replies.
const QUESTIONS_A: &str = "\
point D1
point D10
point D
point D2x
point \"\"
count D12Z D2
count D11 D13
count D2a V
seek \"\"
seek D13
seek D2a
seek W
range D11 D13
range D13 D1Z
stem D
stem E
";
const REPLIES_A: &str = "\
point D1: 1 rule 3 (exact leaf)
point D10: 0 rule 1 (the branch is missing)
point D: 0 rule 2 (the key ended at a node that is no exact leaf)
point D2x: 1 rule 4 (open leaf with equal suffix)
point \"\": 0 rule 2 (the key ended at a node that is no exact leaf)
count D12Z D2: 2
count D11 D13: 1
count D2a V: 2
seek \"\": 0 D1
seek D13: 2 D2
seek D2a: 2 D2a
seek W: none
range D11 D13: 1
range D13 D1Z: 0
stem D: 1
stem E: 0
";

#[test]
fn document_01s_questions_as_arguments() {
    let words: Vec<&str> = QUESTIONS_A.split_whitespace().collect();
    assert_eq!(ask("ask_arguments", IMAGE_A, &words).done(), REPLIES_A);
    let second = in_version_2(IMAGE_A);
    assert_eq!(ask("ask_version_2", &second, &words).done(), REPLIES_A);
}

#[test]
fn document_01s_questions_as_lines() {
    assert_eq!(ask_lines("ask_lines", QUESTIONS_A).done(), REPLIES_A);
}

#[test]
fn real_bits_decide() {
    let words = ["point", "VAX", "point", "VB", "seek", "VB", "seek", "V"];
    let expected = "\
point VAX: 1 rule 4 (open leaf with equal suffix)
point VB: 0 rule 5 (open leaf with another suffix)
seek VB: none
seek V: 3 VA
";
    assert_eq!(ask("ask_suffix", IMAGE_VAN, &words).done(), expected);
}

#[test]
fn hash_bits_decide_points_alone() {
    let words = "point D2 point D2x range D2x D2x stem D2x count D2x D2x seek D2x";
    let words: Vec<&str> = words.split(' ').collect();
    let expected = "\
point D2: 1 rule 4 (open leaf with equal suffix)
point D2x: 0 rule 5 (open leaf with another suffix)
range D2x D2x: 1
stem D2x: 1
count D2x D2x: 1
seek D2x: 2 D2x
";
    let image = with_slots(0, 8, SLOTS_A);
    assert_eq!(ask("ask_hash", &image, &words).done(), expected);
}

#[test]
fn an_empty_image_has_no_nodes() {
    let folder = Folder::new("ask_empty");
    folder.build("image", "", &[]);
    let output = folder
        .run(&["ask", "image", "point", "D1", "seek", ""])
        .done();
    assert_eq!(output, "point D1: 0 rule 6 (no nodes)\nseek \"\": none\n");
}

#[test]
fn keys_are_read_and_written_with_escapes() {
    let folder = Folder::new("ask_escapes");
    folder.build("image", "a b\\\\\nab\n\\xFF\\x00\n", &["--real-bits", "16"]);
    let words = [
        "seek",
        "a b",
        "seek",
        "a\\x20b\\\\c",
        "point",
        "\\xff\\x00",
        "seek",
        "\\x22\\x22",
    ];
    let expected = "\
seek a\\x20b: 0 a\\x20b\\\\
seek a\\x20b\\\\c: 0 a\\x20b\\\\c
point \\xFF\\x00: 1 rule 4 (open leaf with equal suffix)
seek \\x22\\x22: 0 a\\x20b\\\\
";
    let arguments = [&["ask", "image"], &words[..]].concat();
    assert_eq!(folder.run(&arguments).done(), expected);
}

#[test]
fn words_are_parted_by_blanks_and_tabs() {
    let output = ask_lines(
        "ask_blanks",
        "  point\t D1  \ncount \t D11\tD13\npoint D\\x20",
    )
    .done();
    let expected = "\
point D1: 1 rule 3 (exact leaf)
count D11 D13: 1
point D\\x20: 0 rule 1 (the branch is missing)
";
    assert_eq!(output, expected);
}

#[test]
fn words_behind_the_image_are_no_options() {
    let expected = "point --help: 0 rule 1 (the branch is missing)\n";
    assert_eq!(
        ask("ask_options", IMAGE_A, &["point", "--help"]).done(),
        expected
    );
}

#[test]
fn no_questions_get_no_replies() {
    assert_eq!(ask_lines("ask_none", "").done(), "");
}

#[test]
fn bad_lines_are_told_and_the_others_replied_to() {
    let long = "A".repeat(65);
    let lines = format!(
        "point D1\nprint D1\n\nrange D1\npoint D1 D2\npoint \\q\n\
         stem {long}\nrange V D1\nstem D\r\nseek W\n"
    );
    let outcome = ask_lines("ask_bad_lines", &lines);
    assert_eq!(outcome.status, 1);
    assert_eq!(
        outcome.output,
        "point D1: 1 rule 3 (exact leaf)\nseek W: none\n"
    );
    let expected = "\
range-filter: line 2: 'print' is no kind of question: take point, range, stem, count or seek
range-filter: line 3: the line has no question: write a kind and its keys, or remove it
range-filter: line 4: range takes two keys, a lower and an upper bound, and here are 1
range-filter: line 5: point takes one key, and here are 2
range-filter: line 6: the backslash in column 1 of the key starts no escape: \
write \\\\ for a backslash, or \\x and two hexadecimal digits for another byte
range-filter: line 7: the key has 65 bytes, and the longest has 64: shorten it
range-filter: line 8: the lower bound is above the upper one: exchange them
range-filter: line 9: a carriage return stands before the line feed: \
remove it, or write \\x0D if it belongs to the key
";
    assert_eq!(outcome.errors, expected);
}

#[test]
fn a_too_long_line_is_passed_over() {
    let lines = format!("point {}\npoint D1\n", "A".repeat(1_000_000));
    let outcome = ask_lines("ask_long_line", &lines);
    assert_eq!(outcome.status, 1);
    assert_eq!(outcome.output, "point D1: 1 rule 3 (exact leaf)\n");
    let expected =
        "range-filter: line 1: the line has over 1024 bytes, and no key is so long: shorten it\n";
    assert_eq!(outcome.errors, expected);
}

#[test]
fn refused_questions_of_arguments_are_told_by_number() {
    let outcome = ask("ask_refused", IMAGE_A, &["range", "V", "D1", "point", "D1"]);
    assert_eq!(outcome.status, 1);
    assert_eq!(outcome.output, "point D1: 1 rule 3 (exact leaf)\n");
    let expected =
        "range-filter: question 1: the lower bound is above the upper one: exchange them\n";
    assert_eq!(outcome.errors, expected);
}

#[test]
fn arguments_that_are_no_questions_are_refused() {
    let sentence = ask("ask_no_kind", IMAGE_A, &["D1"]).failed(2);
    assert_eq!(
        sentence,
        "'D1' is no kind of question: take point, range, stem, count or seek"
    );
    let sentence = ask("ask_no_key", IMAGE_A, &["point", "D1", "range", "D1"]).failed(2);
    assert_eq!(
        sentence,
        "range takes two keys, a lower and an upper bound, and here are 1"
    );
}

#[test]
fn a_reply_comes_before_the_next_question_is_written() {
    let folder = Folder::new("ask_talk");
    folder.write("image", IMAGE_A);
    let mut child = folder.start(&["ask", "image"]);
    let mut questions = child.stdin.take().unwrap();
    let replies = BufReader::new(child.stdout.take().unwrap());
    let (sender, receiver) = mpsc::channel();
    let reader = thread::spawn(move || {
        let mut lines = replies.lines().map_while(Result::ok);
        lines.try_for_each(|line| sender.send(line))
    });
    for (question, expected) in QUESTIONS_A.lines().zip(REPLIES_A.lines()) {
        writeln!(questions, "{question}").unwrap();
        let reply = receiver.recv_timeout(Duration::from_secs(5));
        assert_eq!(reply.as_deref(), Ok(expected));
    }
    drop(questions);
    assert!(child.wait().unwrap().success());
    reader.join().unwrap().unwrap();
}
