//! `range-filter tour`: filters at work on sample runs.

mod answer;
mod report;
mod run;
mod tally;

use std::fs;
use std::io::Write;
use std::mem;
use std::path::{Path, PathBuf};

use range_filter::{Filter, Settings};

use crate::arguments::{Arguments, Shape};
use crate::build::read_settings;
use crate::command::Command;
use crate::ending::{Ending, Failure};
use crate::files::{open, open_filter, unreadable};
use crate::lines::Lines;
use crate::question::{Kind, Question};
use answer::Answer;
use run::Run;
use tally::Tally;

/// The subcommand.
pub const COMMAND: Command = Command {
    name: "tour",
    summary: "show filters at work on sample runs",
    help: HELP,
    shape: Shape {
        options: &["--image-version", "--dense", "--real-bits", "--hash-bits"],
        flags: &[],
        operands: &["FOLDER"],
        needed: 0,
        words: false,
    },
    run,
};

const HELP: &str = "\
usage: range-filter tour [FOLDER] [--image-version V] [--dense L]
                         [--real-bits N] [--hash-bits H]

Shows filters at work on the runs of a folder (samples, if none is named). Each
file that ends in .tsv is a run: records by ascending keys, one a line, a key, a
tab and a value. The file questions.txt has the questions: points, ranges, stems
and counts in the form of `range-filter ask`, each below a line with # and words
that explain it.

The tour builds a filter for each run, puts each question to all filters, reads
only the runs that they name, and compares what it finds with a full reading of
all runs. At the end it says how many reads were saved. It also puts each stored
key to the filter of its run, which has to allow for it.

  --image-version V   the version of the filters, 1 or 2 (1 if it is not given)
  --dense L           their dense levels, 0 to 4 (0 if it is not given)
  --real-bits N       their real bits, 0 to 16 (8 if it is not given)
  --hash-bits H       their hash bits, 0 to 16 (0 if it is not given)

Exit status: 0 all answers are right; 1 one is not, or a file is refused; 2 the
arguments are not as above, or a file can't be read.
";

/// The real bits of the filters, if no other number is given.
const REAL_BITS: u8 = 8;

/// Reads runs and questions, asks, and writes what came of it.
fn run(arguments: &Arguments, output: &mut dyn Write) -> Result<Ending, Failure> {
    let folder = arguments.operand(0).unwrap_or(Path::new("samples"));
    let settings = read_settings(arguments, Settings::default().with_real_bits(REAL_BITS))?;
    let runs = read_runs(folder, settings)?;
    let questions = read_questions(&folder.join("questions.txt"))?;
    let filters = open_filters(&runs)?;
    report::write_runs(&runs, &filters, settings, output)?;
    let mut tally = Tally::default();
    for (words, question) in &questions {
        let answer = Answer::find(question, &runs, &filters)?;
        tally.add_answer(&answer);
        report::write_answer(words, question, &answer, output)?;
    }
    for (run, filter) in runs.iter().zip(&filters) {
        tally.add_stored_keys(run, filter);
    }
    tally.write(output)?;
    Ok(tally.ending())
}

/// Opens the filter of each run.
fn open_filters(runs: &[Run]) -> Result<Vec<Filter<'_>>, Failure> {
    let filters = runs
        .iter()
        .map(|run| open_filter(Path::new(&run.name), &run.image));
    filters.collect()
}

/// Reads the runs of a folder, by the order of their names.
fn read_runs(folder: &Path, settings: Settings) -> Result<Vec<Run>, Failure> {
    let entries = fs::read_dir(folder).map_err(|error| unreadable(folder, &error))?;
    let mut paths: Vec<PathBuf> = entries.flatten().map(|entry| entry.path()).collect();
    paths.retain(|path| path.extension().is_some_and(|ending| ending == "tsv"));
    paths.sort();
    if paths.is_empty() {
        return Err(Failure::Unable(format!(
            "there is no run in {}: name a folder that has files ending in .tsv",
            folder.display()
        )));
    }
    let runs = paths.into_iter().map(|path| Run::read(path, settings));
    runs.collect()
}

/// Reads the questions of a file, each with the words of the line above it.
fn read_questions(path: &Path) -> Result<Vec<(String, Question)>, Failure> {
    let mut lines = Lines::new(path, open(path)?);
    let mut questions = Vec::new();
    let mut words = String::new();
    while let Some(line) = lines.next_line()? {
        let line = line.and_then(read_line);
        match line.map_err(|why| lines.refused(&why))? {
            Line::Words(read) => words = read,
            Line::Question(question) => questions.push((mem::take(&mut words), question)),
        }
    }
    Ok(questions)
}

/// A line of the file of questions.
enum Line {
    /// Words that explain the next question; none in an empty line.
    Words(String),
    /// A question.
    Question(Question),
}

/// Reads a line of the file of questions.
fn read_line(line: &[u8]) -> Result<Line, String> {
    if line.is_empty() || line.starts_with(b"#") {
        let words = line.strip_prefix(b"#").unwrap_or_default().trim_ascii();
        return Ok(Line::Words(String::from_utf8_lossy(words).into_owned()));
    }
    let question = Question::read_line(line)?;
    if question.kind() == Kind::Seek {
        return Err("the tour puts no seeks: take a range".to_string());
    }
    Ok(Line::Question(question))
}
