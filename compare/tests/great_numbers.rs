//! The sorts of patches that are made in great numbers: damaged records, and
//! chains.

use compare::case::Case;
use compare::generate::{left, Generator, Sort, LINKS};
use compare::interpret::answered;
use compare::tally::{case_number, is_left, tally};

// So many cases of some sorts.
fn cases(seed: u64, sorts: &[Sort], count: usize) -> Vec<Case> {
    let mut generator = Generator::of(seed, sorts);
    (0..count).map(|_| generator.case()).collect()
}

// The table and the old record of a patch.
fn patched(case: &Case) -> (&[u8], &[i64]) {
    match case {
        Case::Patch { table, old, .. } => (table, old),
        other => panic!("{other:?} is no patch"),
    }
}

#[test]
fn the_same_seed_gives_the_same_cases() {
    for sort in [Sort::Damaged, Sort::Chain] {
        assert_eq!(cases(41, &[sort], 300), cases(41, &[sort], 300));
        assert_ne!(cases(41, &[sort], 300), cases(42, &[sort], 300));
    }
}

#[test]
fn answers_are_the_interpreters() {
    for case in cases(43, &[Sort::Damaged, Sort::Chain], 1000) {
        assert_eq!(case, answered(&case));
    }
}

#[test]
fn the_old_record_of_a_link_is_the_one_that_was_left() {
    let chain = LINKS + 1;
    let (mut accepted, mut refused) = (0, 0);
    for cases in cases(44, &[Sort::Chain], 200 * chain).chunks(chain) {
        let Case::Run { table, .. } = &cases[0] else {
            panic!("{:?} is no run", cases[0]);
        };
        let mut record = left(&cases[0]).expect("an accepted run");
        for link in &cases[1..] {
            assert_eq!(patched(link), (&table[..], record));
            assert!(is_left(table, record));
            match left(link) {
                Some(new) => {
                    accepted += 1;
                    record = new;
                }
                None => refused += 1,
            }
        }
    }
    assert!(accepted > 3000 && refused > 100, "{accepted} {refused}");
}

#[test]
fn damaged_records_are_those_that_no_call_left() {
    let cases = cases(45, &[Sort::Damaged], 2000);
    for case in &cases {
        let (table, old) = patched(case);
        assert!(!is_left(table, old));
    }
    for number in [0, 8, 9, 10, 11, 12] {
        let given = cases.iter().filter(|case| case_number(case) == number);
        assert!(given.count() > 5, "{number}");
    }
}

#[test]
fn a_call_is_within_the_limits_of_the_program() {
    let mut most = 0;
    for case in cases(46, &[Sort::Damaged, Sort::Chain], 20_000) {
        if let Case::Patch {
            table,
            old,
            changes,
            words,
            ..
        } = case
        {
            let sent = old.len() + changes.len();
            assert!(table.len() <= 8192 && sent <= 4096 && words.len() <= 4096);
            most = most.max(old.len());
        }
    }
    assert!(most > 2500, "{most}");
}

#[test]
fn patches_in_great_numbers_are_enough() {
    let mut all = cases(47, &[Sort::Damaged], 5000);
    all.extend(cases(47, &[Sort::Chain], 250 * (LINKS + 1)));
    let counts = tally(&all);
    assert_eq!(counts.missing_patches(10_000), Vec::<String>::new());
    assert_eq!((counts.of_kind(3), counts.of_kind(4)), (5000, 5000));
    assert_eq!(counts.chains, 250);
    assert_eq!(counts.missing_patches(10_001).len(), 2);
}

#[test]
fn too_few_patches_are_told() {
    let damaged = tally(&cases(48, &[Sort::Damaged], 5000));
    assert!(damaged.missing_patches(5000)[0].starts_with("chains: 0"));
    let chains = tally(&cases(48, &[Sort::Chain], 5250)).missing_patches(5000);
    assert!(chains[0].starts_with("patches of damaged records: 0, 2500"));
}

#[test]
fn sorts_are_mixed_and_chains_are_whole() {
    let counts = tally(&cases(49, &[Sort::Damaged, Sort::Chain], 82 * 20));
    assert_eq!((counts.of_kind(4), counts.chains), (800, 40));
}

#[test]
fn a_chain_with_a_wrong_link_is_none() {
    let whole = cases(50, &[Sort::Chain], LINKS + 1);
    assert_eq!(tally(&whole).chains, 1);
    for at in 0..whole.len() {
        let mut less = whole.clone();
        less.remove(at);
        assert_eq!(tally(&less).chains, 0, "without case {at}");
    }
    for at in 1..whole.len() {
        let mut wrong = whole.clone();
        if let Case::Patch { old, .. } = &mut wrong[at] {
            old[2] += 1;
        }
        assert_eq!(tally(&wrong).chains, 0, "case {at} of another record");
    }
}
