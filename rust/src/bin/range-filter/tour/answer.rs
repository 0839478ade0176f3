//! What comes of a question of the tour.

use range_filter::{Filter, Refusal};

use super::run::{Record, Run};
use crate::ending::Failure;
use crate::question::{Kind, Question};

/// What came of a question that was put to the filters of all runs.
pub struct Answer<'a> {
    /// The runs that the filters named, which were read.
    pub read: Vec<Reading<'a>>,
    /// The runs whose filters said no.
    pub passed_over: Vec<&'a Run>,
    /// Whether a full reading of all runs gives the same.
    pub right: bool,
}

/// A run that was read.
pub struct Reading<'a> {
    /// The run.
    pub run: &'a Run,
    /// The number of keys that its filter allowed for.
    pub allowed: usize,
    /// The records that the question is about.
    pub records: Vec<Record>,
}

impl<'a> Answer<'a> {
    /// Puts a question to each filter and reads the runs whose filters do not say no.
    pub fn find(
        question: &Question,
        runs: &'a [Run],
        filters: &[Filter],
    ) -> Result<Answer<'a>, Failure> {
        let mut answer = Answer {
            read: Vec::new(),
            passed_over: Vec::new(),
            right: true,
        };
        for (run, filter) in runs.iter().zip(filters) {
            let refused = |refusal: Refusal| Failure::Refused(format!("{question}: {refusal}"));
            let allowed = question.allowed(filter).map_err(refused)?;
            if allowed > 0 {
                let records = run.search(question)?;
                answer.read.push(Reading {
                    run,
                    allowed,
                    records,
                });
            } else {
                answer.passed_over.push(run);
            }
        }
        answer.right = answer.is_right(question, runs);
        Ok(answer)
    }

    /// Gives the records that were found, run by run.
    pub fn records(&self) -> impl Iterator<Item = &Record> {
        self.read.iter().flat_map(|reading| &reading.records)
    }

    /// Gives the runs that were read and had a record that the question is about.
    pub fn useful(&self) -> impl Iterator<Item = &Run> {
        let readings = self.read.iter();
        let useful = readings.filter(|reading| !reading.records.is_empty());
        useful.map(|reading| reading.run)
    }

    /// Gives the runs that were read and had none.
    pub fn in_vain(&self) -> impl Iterator<Item = &Run> {
        let readings = self.read.iter();
        let in_vain = readings.filter(|reading| reading.records.is_empty());
        in_vain.map(|reading| reading.run)
    }

    /// Says whether a full reading of all runs finds the same records, and whether the counts are
    /// the most keys that a run can have, of which it has all but two at least.
    fn is_right(&self, question: &Question, runs: &[Run]) -> bool {
        let all = runs.iter().flat_map(|run| &run.records);
        let covered = all.filter(|record| question.covers(&record.key));
        let counted = |reading: &Reading| {
            let found = reading.records.len();
            (found..=found + 2).contains(&reading.allowed)
        };
        let counts = question.kind() != Kind::Count || self.read.iter().all(counted);
        counts && covered.eq(self.records())
    }
}
