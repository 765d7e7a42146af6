//! The sharp cases, each with the number that document 01 gives.

use compare::patch::patch;
use compare::sharp::{record, SHARP};

#[test]
fn sharp_cases() {
    let mut wrong = Vec::new();
    for (place, case) in SHARP.iter().enumerate() {
        let (table, old) = record(case).expect("a record");
        let number = patch(&table, &old, case.changes, &mut [0; 100]).number;
        if number != case.number {
            wrong.push((
                place,
                case.script,
                case.root,
                case.changes,
                case.number,
                number,
            ));
        }
    }
    assert!(wrong.is_empty(), "{wrong:#?}");
    assert!(SHARP.len() > 70);
}
