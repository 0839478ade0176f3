//! What the tour writes, in lines of at most 80 columns.

use std::io::{self, Write};

use range_filter::{Filter, Settings};

use super::answer::Answer;
use super::run::Run;
use crate::info::bits_a_key;
use crate::question::{Kind, Question};
use crate::text::{grouped, show_key, show_settings};

/// The columns of a line.
const WIDTH: usize = 80;
/// The columns before what is said of a question.
const INDENT: usize = 16;
/// The most records of an answer that are shown.
const SHOWN: usize = 3;

/// Writes the settings of the filters, and the runs with the sizes of their filters.
pub fn write_runs(
    runs: &[Run],
    filters: &[Filter],
    settings: Settings,
    output: &mut dyn Write,
) -> io::Result<()> {
    let (number, settings) = (runs.len(), show_settings(settings));
    writeln!(
        output,
        "{number} runs, each with a filter of these settings:"
    )?;
    writeln!(output, "{settings}.\n")?;
    let head = ["records", "run bytes", "filter bytes", "bits a key"];
    write_row("run", head.map(str::to_string), output)?;
    for (run, filter) in runs.iter().zip(filters) {
        let [records, bytes, image] = sizes(run).map(grouped);
        let columns = [records, bytes, image, bits_a_key(filter)];
        write_row(&run.name, columns, output)?;
    }
    let sum = |column: usize| grouped(runs.iter().map(|run| sizes(run)[column]).sum());
    write_row("all", [sum(0), sum(1), sum(2), String::new()], output)
}

/// Gives the records and the bytes of a run, and the bytes of its filter.
fn sizes(run: &Run) -> [usize; 3] {
    [run.records.len(), run.bytes, run.image.len()]
}

/// Writes a row of the table of the runs.
fn write_row(name: &str, columns: [String; 4], output: &mut dyn Write) -> io::Result<()> {
    let [records, bytes, image, bits] = columns;
    let row = format!("{name:24}{records:>8}{bytes:>12}{image:>15}{bits:>13}");
    writeln!(output, "{}", row.trim_end())
}

/// Writes a question, which runs were read and passed over for it, and what was found.
pub fn write_answer(
    words: &str,
    question: &Question,
    answer: &Answer,
    output: &mut dyn Write,
) -> io::Result<()> {
    writeln!(output)?;
    if !words.is_empty() {
        writeln!(output, "{words}")?;
    }
    write_wrapped("asked", &question.to_string(), output)?;
    write_wrapped("read", &names(answer.useful()), output)?;
    write_wrapped("read in vain", &names(answer.in_vain()), output)?;
    let passed_over = answer.passed_over.iter().copied();
    write_wrapped("passed over", &names(passed_over), output)?;
    write_found(question, answer, output)
}

/// Gives the names of runs, with commas between them.
fn names<'a>(runs: impl Iterator<Item = &'a Run>) -> String {
    let names: Vec<&str> = runs.map(|run| run.name.as_str()).collect();
    names.join(", ")
}

/// Writes what was found: how many records, and the first of them.
fn write_found(question: &Question, answer: &Answer, output: &mut dyn Write) -> io::Result<()> {
    let found = answer.records().count();
    let mut words = counted(found, "record");
    if question.kind() == Kind::Count {
        let allowed: usize = answer.read.iter().map(|reading| reading.allowed).sum();
        words.push_str(&format!(" (by the filters at most {allowed})"));
    }
    write_wrapped("found", &words, output)?;
    for record in answer.records().take(SHOWN) {
        let key = show_key(&record.key);
        writeln!(output, "{:INDENT$}{key}  {}", "", record.value)?;
    }
    if found > SHOWN {
        writeln!(output, "{:INDENT$}and {} more", "", found - SHOWN)?;
    }
    if !answer.right {
        writeln!(output, "  WRONG: a full reading of all runs says otherwise")?;
    }
    Ok(())
}

/// Writes a name and words behind it, in as many lines as they take; nothing if there are no words.
fn write_wrapped(name: &str, words: &str, output: &mut dyn Write) -> io::Result<()> {
    let mut line = format!("  {name}");
    let mut column = INDENT;
    for word in words.split_whitespace() {
        if line.len() > INDENT && line.len() + 1 + word.len() > WIDTH {
            writeln!(output, "{line}")?;
            line.clear();
            column = INDENT;
        }
        line = format!("{line:column$}{word}");
        column = line.len() + 1;
    }
    if line.len() > INDENT {
        writeln!(output, "{line}")?;
    }
    Ok(())
}

/// Gives a number of things in words, as "1 record" and "2 records".
pub fn counted(number: usize, thing: &str) -> String {
    let ending = if number == 1 { "" } else { "s" };
    format!("{} {thing}{ending}", grouped(number))
}
