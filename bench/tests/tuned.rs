//! The tuned version is held to the interpreter word for word, on generated calls of every sort.
use bench::interpreter::words;
use bench::tuned;
use bench::tuned::answer::LENGTH;
use compare::case::{parse_file, Case};
use compare::generate::{Generator, Sort};

/// What stands in a room before a call, so that a word that is not written is seen.
const BEFORE: i64 = 777_777_777_777;

/// The tuned version answers as a case says, and fills the room as it says.
fn hold(case: &Case) {
    match case {
        Case::Table { table, number } => assert_eq!(tuned::check(table), *number, "{case:?}"),
        Case::Run { table, limit, inputs, answer, words: room } => {
            let mut own = vec![BEFORE; room.len()];
            assert_eq!(tuned::run(table, inputs, *limit, &mut own), words(answer), "{case:?}");
            assert_eq!(own, *room, "{case:?}");
            hold_plain(table, inputs, *limit);
        }
        Case::Patch { table, old, changes, answer, words: room } => {
            let mut own = vec![BEFORE; room.len()];
            assert_eq!(tuned::patch(table, old, changes, &mut own), words(answer), "{case:?}");
            assert_eq!(own, *room, "{case:?}");
        }
    }
}

/// The plain run answers as a run in a room that is large enough, but for the record's length.
fn hold_plain(table: &[u8], inputs: &[i64], limit: i64) {
    let mut room = vec![0; 4_000];
    let mut run = words(&compare::run::run(table, inputs, limit, &mut room));
    run[LENGTH] = 0;
    if run[0] != 10 {
        assert_eq!(tuned::plain(table, inputs, limit), run);
    }
}

fn hold_generated(seed: u64, count: usize, sorts: &[Sort]) {
    let mut generator = Generator::of(seed, sorts);
    (0..count).for_each(|_| hold(&generator.case()));
}

#[test]
fn tables_and_runs() {
    hold_generated(61, 6_000, &[Sort::Table, Sort::Run]);
}

#[test]
fn patches_that_each_have_an_aim() {
    hold_generated(62, 600, &[Sort::Patch]);
}

#[test]
fn patches_of_damaged_records() {
    hold_generated(63, 15_000, &[Sort::Damaged]);
}

#[test]
fn chains_of_patches() {
    hold_generated(64, 10_500, &[Sort::Chain]);
}

#[test]
fn stored_cases() {
    for name in ["agreement", "extra", "calls"] {
        let text = std::fs::read_to_string(format!("../compare/cases/{name}.txt")).expect("the stored cases");
        parse_file(&text).expect("cases").iter().for_each(hold);
    }
}
