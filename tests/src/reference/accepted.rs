//! The calls over an accepted image: a question is put by value, its reply is given by
//! value, and nothing is said again of the image.

use super::keys::write_key;
use super::questions::{judge, Question};
use super::replies::{reply, Filter, Reply};
use super::walk::write_from;
use crate::accepted::{AcceptedCalls, Found, Number};
use crate::answer::Answer;

/// Gives the reply to a question, or the number of its fault.
fn judged_reply(filter: &Filter, question: Question) -> Result<Reply, u32> {
    judge(&question)?;
    Ok(reply(filter, &question))
}

/// Gives the number in the reply to a question, or the number of its fault.
fn number(filter: &Filter, question: Question) -> Number {
    judged_reply(filter, question).map(|reply| reply.number)
}

impl AcceptedCalls for Filter<'_> {
    fn point(&self, key: &[u8]) -> Number {
        number(self, Question::Point(key.to_vec()))
    }

    fn rule(&self, key: &[u8]) -> Number {
        let reply = judged_reply(self, Question::Point(key.to_vec()))?;
        Ok(reply.key[0].into())
    }

    fn range(&self, lower: &[u8], upper: &[u8]) -> Number {
        number(self, Question::Range(lower.to_vec(), upper.to_vec()))
    }

    fn begins_with(&self, stem: &[u8]) -> Number {
        number(self, Question::BeginsWith(stem.to_vec()))
    }

    fn count(&self, lower: &[u8], upper: &[u8]) -> Number {
        number(self, Question::Count(lower.to_vec(), upper.to_vec()))
    }

    fn seek(&self, start: &[u8], found: &mut Found) -> Number {
        let reply = judged_reply(self, Question::Seek(start.to_vec()))?;
        let mut bytes = Vec::new();
        write_key(&mut bytes, &reply.key);
        found[..bytes.len()].copy_from_slice(&bytes);
        Ok(reply.number)
    }

    fn walk(&self, place: u64, records: &mut [u8]) -> Answer {
        write_from(self.leaves, place, records)
    }
}
