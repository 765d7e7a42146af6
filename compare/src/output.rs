//! The lent room, into which one pass writes the record (document 01, "The record").

/// A room being written; words past its end are counted, not stored.
pub struct Output<'r> {
    room: &'r mut [i64],
    at: usize,
}

impl<'r> Output<'r> {
    // A room with nothing written yet ("The record").
    pub fn new(room: &'r mut [i64]) -> Output<'r> {
        Output { room, at: 0 }
    }

    // How many words the record has so far ("Refusal numbers", on 10).
    #[inline]
    pub fn at(&self) -> usize {
        self.at
    }

    // Write the next word, or count it past the end ("Refusal numbers", on 10).
    #[inline]
    pub fn put(&mut self, word: i64) {
        if self.at < self.room.len() {
            self.room[self.at] = word;
        }
        self.at += 1;
    }

    // Leave out some words, to be set later; gives their place ("The record").
    #[inline]
    pub fn leave(&mut self, words: usize) -> usize {
        let place = self.at;
        self.at += words;
        place
    }

    // Set a word left out before ("The record").
    #[inline]
    pub fn set(&mut self, place: usize, word: i64) {
        if place < self.room.len() {
            self.room[place] = word;
        }
    }

    // Copy words of an old record ("Patching", the skip rule).
    #[inline]
    pub fn copy(&mut self, words: &[i64]) {
        if self.at < self.room.len() {
            let most = words.len().min(self.room.len() - self.at);
            self.room[self.at..self.at + most].copy_from_slice(&words[..most]);
        }
        self.at += words.len();
    }

    // End the record: refusal 10 if it is longer than the room, else zeros
    // behind it; gives its length ("Refusal numbers").
    pub fn finish(&mut self) -> Result<i64, i64> {
        if self.at > self.room.len() {
            return Err(10);
        }
        self.room[self.at..].fill(0);
        Ok(self.at as i64)
    }
}
