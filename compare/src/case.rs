//! The case format: a case a line, words apart by single spaces.
//!
//! ```text
//! table HEX = NUMBER
//! run HEX LIMIT NI INPUT.. ROOM = ANSWER : WORD..
//! patch HEX NO OLD.. NC CHANGE.. ROOM = ANSWER : WORD..
//! ```

use crate::answer::Answer;

/// How many words an answer has.
const ANSWER: usize = 70;

/// One case with the answer it expects.
#[derive(Clone, Debug, PartialEq, Eq)]
pub enum Case {
    Table {
        table: Vec<u8>,
        number: i64,
    },
    Run {
        table: Vec<u8>,
        limit: i64,
        inputs: Vec<i64>,
        answer: Answer,
        words: Vec<i64>,
    },
    Patch {
        table: Vec<u8>,
        old: Vec<i64>,
        changes: Vec<i64>,
        answer: Answer,
        words: Vec<i64>,
    },
}

impl Case {
    // The words that a case expects: a table's number, or the 70 words of an
    // answer and then the buffer's.
    pub fn expected(&self) -> Vec<i64> {
        match self {
            Case::Table { number, .. } => vec![*number],
            Case::Run { answer, words, .. } | Case::Patch { answer, words, .. } => {
                let mut all = answer.words();
                all.extend_from_slice(words);
                all
            }
        }
    }

    // How other words differ from those that a case expects, if they do.
    pub fn difference(&self, words: &[i64]) -> Option<String> {
        let expected = self.expected();
        for (at, (theirs, ours)) in expected.iter().zip(words).enumerate() {
            if theirs != ours {
                let name = word_name(at);
                return Some(format!("{name} {theirs} in the file, {ours} here"));
            }
        }
        if expected.len() == words.len() {
            return None;
        }
        let (theirs, ours) = (expected.len(), words.len());
        Some(format!("{theirs} words in the file, {ours} here"))
    }
}

// The name of one of the words that a case expects.
fn word_name(at: usize) -> String {
    match at.checked_sub(ANSWER) {
        None => Answer::name(at),
        Some(at) => format!("buffer word {at}:"),
    }
}

/// The words of a line being read.
struct Words<'a> {
    words: Vec<&'a str>,
    at: usize,
}

// All cases of a file, or the first wrong line and its reason.
pub fn parse_file(text: &str) -> Result<Vec<Case>, String> {
    let mut lines: Vec<&str> = text.split('\n').collect();
    if lines.last() == Some(&"") {
        lines.pop();
    }
    let mut cases = Vec::with_capacity(lines.len());
    for (number, line) in lines.iter().enumerate() {
        let case = parse(line).map_err(|why| format!("line {}: {why}", number + 1))?;
        cases.push(case);
    }
    Ok(cases)
}

// The case of a line, or why it is none.
pub fn parse(line: &str) -> Result<Case, String> {
    let mut words = Words {
        words: line.split(' ').collect(),
        at: 0,
    };
    if words.words.iter().any(|word| word.is_empty()) {
        return Err("an empty word: an empty line, or a space too many".to_string());
    }
    let case = match words.next("the case's kind")? {
        "table" => parse_table(&mut words)?,
        "run" => parse_run(&mut words)?,
        "patch" => parse_patch(&mut words)?,
        other => return Err(format!("`{other}` is no kind of case")),
    };
    if words.at != words.words.len() {
        return Err(format!("{} words too many", words.words.len() - words.at));
    }
    Ok(case)
}

// A table case behind its first word.
fn parse_table(words: &mut Words) -> Result<Case, String> {
    let table = words.hex()?;
    words.mark("=")?;
    let number = words.number("the refusal number")?;
    if !(0..=5).contains(&number) {
        return Err(format!("a table's number is 0 to 5, not {number}"));
    }
    Ok(Case::Table { table, number })
}

// A run case behind its first word.
fn parse_run(words: &mut Words) -> Result<Case, String> {
    let table = words.hex()?;
    let limit = words.number("the limit")?;
    let inputs = words.list("inputs")?;
    let (answer, buffer) = words.outcome()?;
    Ok(Case::Run {
        table,
        limit,
        inputs,
        answer,
        words: buffer,
    })
}

// A patch case behind its first word.
fn parse_patch(words: &mut Words) -> Result<Case, String> {
    let table = words.hex()?;
    let old = words.list("old words")?;
    let changes = words.list("changes")?;
    let (answer, buffer) = words.outcome()?;
    Ok(Case::Patch {
        table,
        old,
        changes,
        answer,
        words: buffer,
    })
}

impl<'a> Words<'a> {
    // The next word.
    fn next(&mut self, what: &str) -> Result<&'a str, String> {
        let word = self.words.get(self.at).copied();
        self.at += 1;
        word.ok_or_else(|| format!("the line ends before {what}"))
    }

    // A mark that must come next.
    fn mark(&mut self, mark: &str) -> Result<(), String> {
        let word = self.next(&format!("`{mark}`"))?;
        if word == mark {
            Ok(())
        } else {
            Err(format!(
                "word {}: `{mark}` should stand for `{word}`",
                self.at
            ))
        }
    }

    // A number of 64 bits, written in the one way.
    fn number(&mut self, what: &str) -> Result<i64, String> {
        let word = self.next(what)?;
        match word.parse::<i64>() {
            Ok(number) if number.to_string() == word => Ok(number),
            _ => Err(format!(
                "word {}: `{word}` is no number for {what}",
                self.at
            )),
        }
    }

    // A count and so many numbers.
    fn list(&mut self, what: &str) -> Result<Vec<i64>, String> {
        let count = self.number(&format!("the count of {what}"))?;
        self.numbers(count, what)
    }

    // So many numbers.
    fn numbers(&mut self, count: i64, what: &str) -> Result<Vec<i64>, String> {
        let left = self.words.len() - self.at;
        if count < 0 || count as u64 > left as u64 {
            return Err(format!("{count} {what}, but {left} words left"));
        }
        (0..count).map(|_| self.number(what)).collect()
    }

    // Bytes in lower-case hex; `-` for none.
    fn hex(&mut self) -> Result<Vec<u8>, String> {
        let word = self.next("the table")?;
        bytes_of_hex(word)
    }

    // The room, the answer and the words of the buffer.
    fn outcome(&mut self) -> Result<(Answer, Vec<i64>), String> {
        let room = self.number("the room")?;
        self.mark("=")?;
        let words = self.numbers(ANSWER as i64, "answer words")?;
        let answer = Answer::from_words(&words).ok_or("no answer")?;
        if !(0..=12).contains(&answer.number) {
            return Err(format!("{} is no refusal number", answer.number));
        }
        self.mark(":")?;
        let buffer = self.numbers(room, "buffer words")?;
        Ok((answer, buffer))
    }
}

// The bytes of lower-case hex; `-` stands for none.
pub fn bytes_of_hex(word: &str) -> Result<Vec<u8>, String> {
    if word == "-" {
        return Ok(Vec::new());
    }
    let digit = |byte: u8| match byte {
        b'0'..=b'9' => Ok(byte - b'0'),
        b'a'..=b'f' => Ok(byte - b'a' + 10),
        _ => Err("the table is not in lower-case hex".to_string()),
    };
    if word.is_empty() || word.len() & 1 == 1 {
        return Err("the table's hex has an odd count of digits, or none".to_string());
    }
    word.as_bytes()
        .chunks_exact(2)
        .map(|pair| Ok(16 * digit(pair[0])? + digit(pair[1])?))
        .collect()
}

// The lower-case hex of bytes; `-` for none.
pub fn hex_of_bytes(bytes: &[u8]) -> String {
    if bytes.is_empty() {
        return "-".to_string();
    }
    bytes.iter().map(|byte| format!("{byte:02x}")).collect()
}

// A count of words and the words, each with a space before it.
fn print_list(line: &mut String, words: &[i64]) {
    line.push_str(&format!(" {}", words.len()));
    for word in words {
        line.push_str(&format!(" {word}"));
    }
}

// The line of a case, without its line end.
pub fn print(case: &Case) -> String {
    format!("{} = {}", print_call(case), print_answer(case))
}

// A line up to its `=`: what is called.
pub fn print_call(case: &Case) -> String {
    let mut line = String::new();
    match case {
        Case::Table { table, .. } => {
            line.push_str(&format!("table {}", hex_of_bytes(table)));
        }
        Case::Run {
            table,
            limit,
            inputs,
            words,
            ..
        } => {
            line.push_str(&format!("run {} {limit}", hex_of_bytes(table)));
            print_list(&mut line, inputs);
            line.push_str(&format!(" {}", words.len()));
        }
        Case::Patch {
            table,
            old,
            changes,
            words,
            ..
        } => {
            line.push_str(&format!("patch {}", hex_of_bytes(table)));
            print_list(&mut line, old);
            print_list(&mut line, changes);
            line.push_str(&format!(" {}", words.len()));
        }
    }
    line
}

// A line behind its `=`: what is answered.
pub fn print_answer(case: &Case) -> String {
    let mut texts: Vec<String> = case.expected().iter().map(i64::to_string).collect();
    if texts.len() >= ANSWER {
        texts.insert(ANSWER, ":".to_string());
    }
    texts.join(" ")
}
