//! What the tour comes to.

use std::io::{self, Write};

use range_filter::Filter;

use super::answer::Answer;
use super::report::counted;
use super::run::Run;
use crate::ending::Ending;
use crate::text::grouped;

/// Counts over all questions and all stored keys.
#[derive(Debug, Default)]
pub struct Tally {
    questions: usize,
    wrong: usize,
    read: usize,
    in_vain: usize,
    passed_over: usize,
    keys: usize,
    denied: usize,
}

impl Tally {
    /// Adds a question.
    pub fn add_answer(&mut self, answer: &Answer) {
        self.questions += 1;
        self.wrong += usize::from(!answer.right);
        self.read += answer.read.len();
        self.in_vain += answer.in_vain().count();
        self.passed_over += answer.passed_over.len();
    }

    /// Puts each stored key of a run to its filter.
    pub fn add_stored_keys(&mut self, run: &Run, filter: &Filter) {
        let denied = |key: &[u8]| !filter.may_contain(key).unwrap_or(false);
        let keys = run.records.iter().map(|record| &*record.key);
        self.keys += run.records.len();
        self.denied += keys.filter(|key| denied(key)).count();
    }

    /// Writes what all comes to.
    pub fn write(&self, output: &mut dyn Write) -> io::Result<()> {
        let reads = self.read + self.passed_over;
        let (saved, reads) = (grouped(self.passed_over), grouped(reads));
        let (read, in_vain) = (counted(self.read, "run"), grouped(self.in_vain));
        writeln!(
            output,
            "\n{saved} of {reads} reads were saved: {read} read, {in_vain} in vain."
        )?;
        let questions = grouped(self.questions);
        match self.wrong {
            0 => writeln!(
                output,
                "All {questions} answers are those of a full reading of all runs."
            )?,
            wrong => writeln!(
                output,
                "WRONG: {wrong} of {questions} answers are not those of a full reading."
            )?,
        }
        let keys = grouped(self.keys);
        match self.denied {
            0 => writeln!(
                output,
                "No stored key was denied: all {keys} were put to their filters."
            ),
            denied => writeln!(output, "WRONG: {denied} of {keys} stored keys were denied."),
        }
    }

    /// Gives how the tour ends: well if no answer is wrong and no stored key was denied.
    pub fn ending(&self) -> Ending {
        if self.wrong == 0 && self.denied == 0 {
            Ending::Done
        } else {
            Ending::Refused
        }
    }
}

#[cfg(test)]
mod tests {
    use super::{Ending, Tally};

    /// Gives what a tally writes.
    fn written(tally: &Tally) -> String {
        let mut output = Vec::new();
        tally.write(&mut output).expect("a vector takes all bytes");
        String::from_utf8(output).expect("the output is text")
    }

    /// Gives a tally of a tour on which all went well.
    fn good() -> Tally {
        Tally {
            questions: 3,
            read: 2,
            in_vain: 1,
            passed_over: 1_004,
            keys: 20,
            ..Tally::default()
        }
    }

    #[test]
    fn a_good_tour_ends_well() {
        let expected = "
1,004 of 1,006 reads were saved: 2 runs read, 1 in vain.
All 3 answers are those of a full reading of all runs.
No stored key was denied: all 20 were put to their filters.
";
        assert_eq!(written(&good()), expected);
        assert_eq!(good().ending(), Ending::Done);
    }

    #[test]
    fn a_wrong_answer_is_told() {
        let tally = Tally { wrong: 1, ..good() };
        assert!(
            written(&tally).contains("\nWRONG: 1 of 3 answers are not those of a full reading.\n")
        );
        assert_eq!(tally.ending(), Ending::Refused);
    }

    #[test]
    fn a_denied_key_is_told() {
        let tally = Tally {
            denied: 2,
            ..good()
        };
        assert!(written(&tally).contains("\nWRONG: 2 of 20 stored keys were denied.\n"));
        assert_eq!(tally.ending(), Ending::Refused);
    }
}
