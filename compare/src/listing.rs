//! The listing program's rules (document 01, "The listing program").

use crate::answer::Answer;
use crate::patch::patch;
use crate::run::run;
use crate::table::check;

/// The words of room for each record.
pub const ROOM: usize = 2048;

// The listing of one session's bytes ("The listing program").
pub fn listing(input: &[u8]) -> Vec<u8> {
    let mut lines = String::new();
    let Some((bytes, patches, behind)) = open(input) else {
        return b"session refused\n".to_vec();
    };
    let table = match check(bytes) {
        Ok(table) => table,
        Err(number) => return format!("run {number}\n").into_bytes(),
    };
    let variables = table.variables;
    if behind.len() != 8 * (1 + variables + patches * variables) {
        return b"session refused\n".to_vec();
    }
    let words: Vec<i64> = behind.chunks_exact(8).map(word).collect();
    let mut record = vec![0; ROOM];
    let answer = run(bytes, &words[1..1 + variables], words[0], &mut record);
    line(&mut lines, "run", &answer, variables);
    if answer.number != 0 {
        return lines.into_bytes();
    }
    let mut room = vec![0; ROOM];
    for changes in words[1 + variables..].chunks_exact(variables) {
        let answer = patch(bytes, &record, changes, &mut room);
        line(&mut lines, "patch", &answer, variables);
        if answer.number == 0 {
            std::mem::swap(&mut record, &mut room);
        }
    }
    lines.into_bytes()
}

// The table, the patch count and the bytes behind the table, if the header is
// right and the table whole ("The listing program").
fn open(input: &[u8]) -> Option<(&[u8], usize, &[u8])> {
    if input.len() < 8 {
        return None;
    }
    let short = |at: usize| input[at] as usize + 256 * input[at + 1] as usize;
    let (length, patches) = (short(2), short(6));
    if short(0) != 8 || short(4) != 8 + length || patches > 64 || input.len() < 8 + length {
        return None;
    }
    Some((&input[8..8 + length], patches, &input[8 + length..]))
}

// A signed 64-bit word, little-endian ("The listing program").
fn word(bytes: &[u8]) -> i64 {
    let mut eight = [0; 8];
    eight.copy_from_slice(bytes);
    i64::from_le_bytes(eight)
}

// One line of the listing ("The listing program").
fn line(lines: &mut String, call: &str, answer: &Answer, variables: usize) {
    lines.push_str(call);
    if answer.number != 0 {
        lines.push_str(&format!(" {}\n", answer.number));
        return;
    }
    let counts = [
        0,
        answer.steps,
        answer.walked,
        answer.reused,
        answer.fresh,
        answer.length,
    ];
    for count in counts.iter().chain(&answer.values[..variables]) {
        lines.push_str(&format!(" {count}"));
    }
    lines.push('\n');
}

// A session's bytes from its parts; None if a header field cannot hold them
// ("The listing program").
pub fn session(table: &[u8], limit: i64, inputs: &[i64], lists: &[Vec<i64>]) -> Option<Vec<u8>> {
    if table.len() > 65_535 - 8 || lists.len() > 64 {
        return None;
    }
    let header = [8, table.len(), 8 + table.len(), lists.len()];
    let mut bytes = Vec::new();
    for field in header {
        bytes.extend_from_slice(&(field as u16).to_le_bytes());
    }
    bytes.extend_from_slice(table);
    bytes.extend_from_slice(&limit.to_le_bytes());
    for word in inputs.iter().chain(lists.iter().flatten()) {
        bytes.extend_from_slice(&word.to_le_bytes());
    }
    Some(bytes)
}
