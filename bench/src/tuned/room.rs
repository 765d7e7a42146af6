//! The lent room that a record is written to. Words past its end are counted and go to a scratch, so that only the end asks.
use super::answer::Refusal;

pub struct Room<'r> {
    words: &'r mut [i64],
    at: usize,
    scratch: Vec<i64>,
}

impl<'r> Room<'r> {
    pub fn new(words: &'r mut [i64]) -> Room<'r> {
        Room { words, at: 0, scratch: Vec::new() }
    }

    /// How many words the record has so far.
    #[inline(always)]
    pub fn at(&self) -> usize {
        self.at
    }

    /// Some words that were claimed before, to be set.
    #[inline(always)]
    pub fn part(&mut self, from: usize, count: usize) -> &mut [i64] {
        if from + count <= self.words.len() {
            &mut self.words[from..from + count]
        } else {
            self.scratch(count)
        }
    }

    #[cold]
    fn scratch(&mut self, count: usize) -> &mut [i64] {
        self.scratch.resize(count, 0);
        &mut self.scratch
    }

    /// The next words.
    #[inline(always)]
    pub fn claim(&mut self, count: usize) -> &mut [i64] {
        let from = self.at;
        self.at += count;
        self.part(from, count)
    }

    /// Write size and steps of the entry that began at a place and now ends.
    #[inline(always)]
    pub fn close(&mut self, from: usize, steps: i64) {
        let size = self.at - from;
        let opening = self.part(from, 3);
        opening[1] = size as i64;
        opening[2] = steps;
    }

    /// Copy words of an old record; past the end of the room they are only counted.
    #[inline(always)]
    pub fn copy(&mut self, words: &[i64]) {
        let from = self.at;
        self.at += words.len();
        if let Some(room) = self.words.get_mut(from..self.at) {
            room.copy_from_slice(words);
        }
    }

    /// End the record: zeros behind it; refusal 10 if it is longer than the room.
    pub fn finish(&mut self) -> Result<(), Refusal> {
        self.words.get_mut(self.at..).ok_or(Refusal::Room)?.fill(0);
        Ok(())
    }
}
