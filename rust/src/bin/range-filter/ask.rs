//! `range-filter ask`: questions to an image.

use std::ffi::OsString;
use std::io::{self, IsTerminal, Write};
use std::path::Path;

use range_filter::Filter;

use crate::arguments::{Arguments, Shape};
use crate::command::Command;
use crate::ending::{tell, Ending, Failure};
use crate::files::{open_filter, read_image};
use crate::lines::Lines;
use crate::progress::Progress;
use crate::question::{Kind, Question};

/// The subcommand.
pub const COMMAND: Command = Command {
    name: "ask",
    summary: "put questions to an image",
    help: HELP,
    shape: Shape {
        words: true,
        ..Shape::IMAGE
    },
    run,
};

const HELP: &str = "\
usage: range-filter ask IMAGE [QUESTION..]

Puts questions to an image and writes a line for each reply. The questions stand
behind the image's name, or, if there is none, one a line on standard input.

  question            its reply
  point KEY           0 (not stored) or 1 (may be stored), the rule behind it
                      as a number, 1 to 6, and in words
  range LOWER UPPER   0 or 1: a key from bound to bound, both included
  stem STEM           0 or 1: a key that begins so
  count LOWER UPPER   how many keys from bound to bound, both included; a list
                      of keys with this image has at most two fewer
  seek START          the place, from 0, and the smallest key from the start
                      on that may be stored, or the word none

Hash bits of an image are for points alone. A point may get 0 where the range
from that one key to itself gets 1: the range has only the real bits to go by.

A reply is the question, a colon, a blank and the words above, parted by blanks:

  point D1: 1 rule 3 (exact leaf)
  range D11 D13: 1
  stem D: 1
  count D12Z D2: 2
  seek D13: 2 D2
  seek W: none

Words are parted by blanks or tabs. In a key \\xHH stands for the byte with these
two hexadecimal digits, so that a blank is \\x20, and \\\\ for a backslash. The
empty key is \"\". A key has at most 64 bytes. Replies are written the same way.

A line that is no question is told on standard error with its number, and the
others get their replies.

Exit status: 0 all are replied to; 1 the image or a question is refused; 2 the
arguments are not as above, or a file can't be read.
";

/// Reads the image and replies to the questions.
fn run(arguments: &Arguments, output: &mut dyn Write) -> Result<Ending, Failure> {
    let path = arguments.needed_operand(0);
    let questions = read_words(&arguments.words)?;
    let image = read_image(path)?;
    let filter = open_filter(path, &image)?;
    if questions.is_empty() {
        return reply_to_lines(&filter, output);
    }
    let mut ending = Ending::Done;
    for (question, number) in questions.into_iter().zip(1..) {
        let place = format!("question {number}");
        ending = ending.max(reply(&filter, question, &place, output)?);
    }
    Ok(ending)
}

/// A question, or why its words are none.
type Read = Result<Question, String>;

/// Parts the words of the arguments into questions. An empty word is the empty key.
fn read_words(words: &[OsString]) -> Result<Vec<Read>, Failure> {
    let words: Vec<&[u8]> = words.iter().map(|word| word.as_encoded_bytes()).collect();
    let mut questions = Vec::new();
    let mut rest = words.as_slice();
    while let Some((word, behind)) = rest.split_first() {
        let kind = Kind::read(word).map_err(Failure::Unable)?;
        let (keys, left) = behind
            .split_at_checked(kind.keys())
            .ok_or_else(|| Failure::Unable(kind.wrong_keys(behind.len())))?;
        questions.push(Question::read(kind, keys));
        rest = left;
    }
    Ok(questions)
}

/// Replies to the questions on standard input. Replies go out before a line is waited for.
fn reply_to_lines(filter: &Filter, output: &mut dyn Write) -> Result<Ending, Failure> {
    let mut lines = Lines::new(Path::new("standard input"), io::stdin());
    let mut progress = Progress::new("lines read", !io::stdout().is_terminal());
    let mut ending = Ending::Done;
    while let Some(line) = lines.next_line()? {
        let question = line.and_then(Question::read_line);
        let place = format!("line {}", lines.number());
        ending = ending.max(reply(filter, question, &place, output)?);
        if lines.must_wait() {
            output.flush()?;
        }
        progress.step();
    }
    Ok(ending)
}

/// Writes the reply to a question, or tells why there is none and where the question stands.
fn reply(
    filter: &Filter,
    question: Read,
    place: &str,
    output: &mut dyn Write,
) -> io::Result<Ending> {
    let replied = question.and_then(|question| match question.reply(filter) {
        Ok(reply) => Ok(format!("{question}: {reply}")),
        Err(refusal) => Err(refusal.to_string()),
    });
    match replied {
        Ok(line) => writeln!(output, "{line}").map(|()| Ending::Done),
        Err(why) => {
            tell(&format!("{place}: {why}"));
            Ok(Ending::Refused)
        }
    }
}
