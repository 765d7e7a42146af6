//! Holding the interpreter to the cases of a file.

use crate::case::Case;
use crate::patch::patch;
use crate::run::run;
use crate::table::number_of;

/// What stands in a buffer before a call, so that nothing written is seen.
const BEFORE: i64 = 777_777_777_777;

// The same case with the interpreter's own answer.
pub fn answered(case: &Case) -> Case {
    let mut own = case.clone();
    if let Case::Run { words, .. } | Case::Patch { words, .. } = &mut own {
        words.fill(BEFORE);
    }
    match &mut own {
        Case::Table { table, number } => *number = number_of(table),
        Case::Run {
            table,
            limit,
            inputs,
            answer,
            words,
        } => {
            *answer = run(table, inputs, *limit, words);
        }
        Case::Patch {
            table,
            old,
            changes,
            answer,
            words,
        } => {
            *answer = patch(table, old, changes, words);
        }
    }
    own
}

// How the interpreter's answer differs from a case's, if it does.
pub fn difference(case: &Case) -> Option<String> {
    case.difference(&answered(case).expected())
}

// Hold the interpreter to cases, printing each that fails; gives how many do.
pub fn interpret(cases: &[Case]) -> usize {
    let mut failed = 0;
    for (at, case) in cases.iter().enumerate() {
        if let Some(how) = difference(case) {
            failed += 1;
            println!("case at line {}: {how}", at + 1);
        }
    }
    println!(
        "{} cases, {} agree, {failed} differ",
        cases.len(),
        cases.len() - failed
    );
    failed
}
