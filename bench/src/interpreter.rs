//! The independent interpreter, with the library's answer words.
use crate::tuned::answer::Words;
use compare::answer::Answer;

pub fn check(table: &[u8]) -> i64 {
    compare::table::number_of(table)
}

pub fn run(table: &[u8], inputs: &[i64], limit: i64, room: &mut [i64]) -> Words {
    words(&compare::run::run(table, inputs, limit, room))
}

pub fn patch(table: &[u8], old: &[i64], changes: &[i64], room: &mut [i64]) -> Words {
    words(&compare::patch::patch(table, old, changes, room))
}

/// How many words the record of a run has.
pub fn record_words(table: &[u8], inputs: &[i64], limit: i64) -> usize {
    let mut effort = compare::run::Effort::default();
    compare::run::run_watched(table, inputs, limit, &mut [], &mut effort);
    effort.words
}

/// An answer as the library lays it out.
pub fn words(answer: &Answer) -> Words {
    let mut words = [0; 72];
    words[0] = answer.number;
    words[2..7].copy_from_slice(&[answer.steps, answer.walked, answer.reused, answer.fresh, answer.length]);
    words[8..40].copy_from_slice(&answer.values);
    words[40..72].copy_from_slice(&answer.changes);
    words
}
