//! The answer of a run or a patch (document 01, "Refusal numbers").

/// What a run or a patch answers; number 0 is accepted.
#[derive(Clone, Debug, PartialEq, Eq)]
pub struct Answer {
    pub number: i64,
    pub steps: i64,
    pub walked: i64,
    pub reused: i64,
    pub fresh: i64,
    pub length: i64,
    pub values: [i64; 32],
    pub changes: [i64; 32],
}

impl Answer {
    // An answer refused with one number, all else zero ("Refusal numbers").
    pub fn refused(number: i64) -> Answer {
        Answer {
            number,
            steps: 0,
            walked: 0,
            reused: 0,
            fresh: 0,
            length: 0,
            values: [0; 32],
            changes: [0; 32],
        }
    }

    // The answer's 70 words in their order ("Refusal numbers", last paragraph).
    pub fn words(&self) -> Vec<i64> {
        let mut words = vec![
            self.number,
            self.steps,
            self.walked,
            self.reused,
            self.fresh,
            self.length,
        ];
        words.extend_from_slice(&self.values);
        words.extend_from_slice(&self.changes);
        words
    }

    // The answer that 70 words stand for ("Refusal numbers", last paragraph).
    pub fn from_words(words: &[i64]) -> Option<Answer> {
        if words.len() != 70 {
            return None;
        }
        let mut answer = Answer::refused(words[0]);
        answer.steps = words[1];
        answer.walked = words[2];
        answer.reused = words[3];
        answer.fresh = words[4];
        answer.length = words[5];
        answer.values.copy_from_slice(&words[6..38]);
        answer.changes.copy_from_slice(&words[38..70]);
        Some(answer)
    }

    // The name of one of the 70 words ("Refusal numbers", last paragraph).
    pub fn name(word: usize) -> String {
        match word {
            0 => "number".to_string(),
            1 => "steps".to_string(),
            2 => "walked".to_string(),
            3 => "reused".to_string(),
            4 => "fresh".to_string(),
            5 => "length".to_string(),
            6..=37 => format!("value {}", word - 6),
            _ => format!("change {}", word - 38),
        }
    }
}
