//! Holding the product to a case file: the proved program `calls` executes
//! each case, and what it writes is compared word for word.

use crate::case::{parse, print_answer, print_call, Case};
use std::io::Write;
use std::path::Path;
use std::process::{Command, Output, Stdio};

/// The kinds of a call in the stream (the head of `crates/calls/src/main.rt`).
const CHECK: u32 = 0;
const RUN: u32 = 1;
const PATCH: u32 = 2;

/// How many of the cases that differ are shown.
const SHOWN: usize = 5;

// The bytes of a case as a call.
pub fn call(case: &Case) -> Vec<u8> {
    match case {
        Case::Table { table, .. } => encoded(CHECK, table, &[], &[], 0),
        Case::Run {
            table,
            limit,
            inputs,
            words,
            ..
        } => {
            let mut sent = vec![*limit];
            sent.extend_from_slice(inputs);
            encoded(RUN, table, &[], &sent, words.len())
        }
        Case::Patch {
            table,
            old,
            changes,
            words,
            ..
        } => encoded(PATCH, table, old, changes, words.len()),
    }
}

// A call's bytes: its kind and sizes, the table, the old words, the others.
fn encoded(kind: u32, table: &[u8], old: &[i64], others: &[i64], room: usize) -> Vec<u8> {
    let mut bytes = Vec::new();
    let words = old.len() + others.len();
    for number in [kind as usize, table.len(), words, old.len(), room] {
        let number = u32::try_from(number).unwrap_or(u32::MAX);
        bytes.extend_from_slice(&number.to_le_bytes());
    }
    bytes.extend_from_slice(table);
    for word in old.iter().chain(others) {
        bytes.extend_from_slice(&word.to_le_bytes());
    }
    bytes
}

// The calls of all cases, one behind the other.
pub fn stream(cases: &[Case]) -> Vec<u8> {
    cases.iter().flat_map(call).collect()
}

// Hold the product to cases, by a program that executes the stream of them;
// gives the exit status.
pub fn execute(cases: &[Case], program: &Path) -> Result<i32, String> {
    let output = ran(program, stream(cases))?;
    let text = String::from_utf8_lossy(&output.stdout);
    let mut wrong = differences(cases, &text);
    if !output.status.success() {
        wrong.insert(0, format!("the program ended with {}", output.status));
    }
    for line in wrong.iter().take(SHOWN) {
        println!("{line}");
    }
    let all = cases.len();
    if wrong.is_empty() && all > 0 {
        println!("execute: {all} cases hold of the product");
        return Ok(0);
    }
    println!("execute: {} differences in {all} cases", wrong.len());
    Ok(1)
}

// How the lines that a program wrote differ from the answers of the cases, a
// line for each difference.
pub fn differences(cases: &[Case], text: &str) -> Vec<String> {
    let mut wrong = Vec::new();
    let mut lines = text.split_terminator('\n');
    for (at, case) in cases.iter().enumerate() {
        let how = match lines.next() {
            Some(line) => line_difference(case, line),
            None => Some("no answer".to_string()),
        };
        wrong.extend(how.map(|how| format!("case at line {}: {how}", at + 1)));
    }
    wrong.extend(lines.next().map(|line| format!("a line too many: {line}")));
    if !text.is_empty() && !text.ends_with('\n') {
        wrong.push("the last line has no end".to_string());
    }
    wrong
}

// How a line differs from a case's answer, if it does.
fn line_difference(case: &Case, line: &str) -> Option<String> {
    if line == print_answer(case) {
        return None;
    }
    let other = format!("{} = {line}", print_call(case));
    let how = match parse(&other) {
        Ok(other) => case.difference(&other.expected()),
        Err(why) => Some(format!("no answer, {why}: {line:.60}")),
    };
    Some(how.unwrap_or_else(|| format!("written in another way: {line:.60}")))
}

// What a program writes when it is handed some bytes.
pub fn ran(program: &Path, bytes: Vec<u8>) -> Result<Output, String> {
    let failed = |why: std::io::Error| format!("{}: {why}", program.display());
    if !program.is_file() {
        return Err(format!("{}: no such file", program.display()));
    }
    let mut child = Command::new(program)
        .stdin(Stdio::piped())
        .stdout(Stdio::piped())
        .spawn()
        .map_err(failed)?;
    let input = child.stdin.take();
    let writer = std::thread::spawn(move || {
        // A program that ends early is seen by what it did not write.
        input.map(|mut input| input.write_all(&bytes))
    });
    let output = child.wait_with_output().map_err(failed)?;
    let _ = writer.join();
    Ok(output)
}
