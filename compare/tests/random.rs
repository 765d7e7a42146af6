//! Demand 3 and the other promises on random programs.

use compare::generate::{random_changes, session, Session};
use compare::patch::patch;
use compare::random::Random;
use compare::run::run;
use compare::table::{check, Table};
use compare::text;
use compare::values::{plus, TRUTH};

// The inputs with their changes.
fn changed(table: &Table, inputs: &[i64], changes: &[i64]) -> Vec<i64> {
    let one = |v: usize| match table.types[v] {
        TRUTH => inputs[v] ^ changes[v],
        _ => inputs[v] + changes[v],
    };
    (0..table.variables).map(one).collect()
}

// Patch a left record and hold it to the run on the changed inputs; gives the
// new record if both accept, and the number.
fn hold(made: &Session, old: &[i64], changes: &[i64], room: usize) -> (i64, Vec<i64>) {
    let variables = made.table.variables;
    let inputs = changed(&made.table, &old[3..3 + variables], changes);
    let (mut by_patch, mut by_run) = (vec![7; room], vec![8; room]);
    let patched = patch(&made.bytes, old, changes, &mut by_patch);
    let rerun = run(&made.bytes, &inputs, old[1], &mut by_run);
    assert_eq!((patched.number, &by_patch), (rerun.number, &by_run));
    assert_eq!((patched.steps, patched.length), (rerun.steps, rerun.length));
    assert_eq!(
        patched.steps,
        patched.walked + patched.reused + patched.fresh
    );
    assert_eq!(patched.values, rerun.values);
    if patched.number != 0 {
        assert!(by_patch.iter().all(|&word| word == 0));
        assert!(patched.words()[1..].iter().all(|&word| word == 0));
        return (patched.number, by_patch);
    }
    for v in 0..variables {
        let new = plus(
            old[3 + variables + v],
            patched.changes[v],
            made.table.types[v],
        );
        assert_eq!(new, Some(rerun.values[v]));
    }
    assert!(by_patch[patched.length as usize..]
        .iter()
        .all(|&word| word == 0));
    (0, by_patch)
}

#[test]
fn demand_3_on_random_programs() {
    let mut random = Random::new(11);
    let mut numbers = [0; 13];
    for _ in 0..3000 {
        let made = session(&mut random, 300);
        for _ in 0..4 {
            let changes = random_changes(&mut random, &made.table, &made.inputs);
            let room = if random.chance(80) {
                2000
            } else {
                made.record.len()
            };
            let (number, _) = hold(&made, &made.record, &changes, room);
            numbers[number as usize] += 1;
        }
    }
    assert!(numbers[0] > 5000, "{numbers:?}");
    assert!(
        numbers[8] > 100 && numbers[9] > 100 && numbers[10] > 100,
        "{numbers:?}"
    );
}

#[test]
fn chains_of_20_patches() {
    let mut random = Random::new(12);
    let (mut links, mut whole) = (0, 0);
    for _ in 0..600 {
        let made = session(&mut random, 300);
        let mut record = made.record.clone();
        let mut accepted = 0;
        for _ in 0..20 {
            let inputs = record[3..3 + made.table.variables].to_vec();
            let changes = random_changes(&mut random, &made.table, &inputs);
            let (number, words) = hold(&made, &record, &changes, 4000);
            if number == 0 {
                accepted += 1;
                record = words;
            }
        }
        links += accepted;
        whole += (accepted == 20) as usize;
    }
    assert!(links > 6000 && whole > 50, "{links} {whole}");
}

#[test]
fn words_after_the_record_do_not_matter() {
    let mut random = Random::new(13);
    let mut accepted = 0;
    for _ in 0..1000 {
        let made = session(&mut random, 300);
        let changes = random_changes(&mut random, &made.table, &made.inputs);
        let mut longer = made.record.clone();
        longer.extend([i64::MIN, i64::MAX, 3, 0]);
        let (mut first, mut second) = (vec![1; 900], vec![2; 900]);
        let one = patch(&made.bytes, &made.record, &changes, &mut first);
        let two = patch(&made.bytes, &longer, &changes, &mut second);
        assert_eq!((&one, &first), (&two, &second));
        accepted += (one.number == 0) as usize;
    }
    assert!(accepted > 500);
}

#[test]
fn printed_tables_read_back() {
    let mut random = Random::new(14);
    let mut in_order = 0;
    for _ in 0..2000 {
        let made = session(&mut random, 300);
        let printed = text::print(&made.table);
        let bytes = text::assemble(printed.as_bytes()).unwrap();
        assert_eq!(bytes.len(), made.bytes.len());
        assert_eq!(text::print(&check(&bytes).unwrap()), printed);
        assert_eq!(
            text::assemble(text::print(&check(&bytes).unwrap()).as_bytes()).unwrap(),
            bytes
        );
        in_order += (bytes == made.bytes) as usize;
        let mut room = vec![0; 300];
        let answer = run(&bytes, &made.inputs, made.limit, &mut room);
        assert_eq!(
            (answer.number, answer.length),
            (0, made.record.len() as i64)
        );
    }
    assert!(in_order > 500);
}
