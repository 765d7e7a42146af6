//! Damaged data in great numbers: no panic, no overflow, and answers in form.
//! COMPARE_FUZZ sets the count of calls.

use compare::answer::Answer;
use compare::damage::{damage, damage_table, map, other_word};
use compare::generate::{random_changes, session};
use compare::listing::listing;
use compare::patch::patch;
use compare::random::Random;
use compare::run::run;

// How many calls of each sort are made.
fn calls() -> usize {
    match std::env::var("COMPARE_FUZZ") {
        Ok(count) => count.parse().unwrap(),
        Err(_) => 10_000,
    }
}

// Hold an answer and a buffer to the form of answers.
fn in_form(answer: &Answer, room: &[i64]) {
    assert!((0..=12).contains(&answer.number));
    if answer.number != 0 {
        assert_eq!(*answer, Answer::refused(answer.number));
        assert!(room.iter().all(|&word| word == 0));
        return;
    }
    assert_eq!(answer.steps, answer.walked + answer.reused + answer.fresh);
    assert_eq!((answer.length, answer.steps), (room[0], room[2]));
    assert!(room[answer.length as usize..].iter().all(|&word| word == 0));
}

#[test]
fn patches_of_damaged_records() {
    let mut random = Random::new(31);
    let mut numbers = [0; 13];
    let mut made = session(&mut random, 200);
    for call in 0..calls() {
        if call % 20 == 0 {
            made = session(&mut random, 200);
        }
        let mut old = made.record.clone();
        let mut table = made.bytes.clone();
        let records = map(&made.table, &made.record);
        for _ in 0..random.between(1, 4) {
            damage(&mut random, &records, &mut old, None);
        }
        let mut changes = random_changes(&mut random, &made.table, &made.inputs);
        if random.chance(5) {
            let at = random.below(changes.len());
            changes[at] = other_word(&mut random, changes[at]);
        }
        if random.chance(3) {
            damage_table(&mut random, &mut table);
        }
        let mut room = vec![9; random.pick(&[0, 3, 50, 400])];
        let answer = patch(&table, &old, &changes, &mut room);
        in_form(&answer, &room);
        numbers[answer.number as usize] += 1;
    }
    println!("patches by number: {numbers:?}");
    assert!(
        [0, 8, 9, 10, 11, 12].iter().all(|&n| numbers[n] > 0),
        "{numbers:?}"
    );
}

#[test]
fn patches_of_words_at_random() {
    let mut random = Random::new(32);
    for _ in 0..calls() / 4 {
        let made = session(&mut random, 120);
        let mut old = made.record.clone();
        for word in old.iter_mut().skip(1) {
            if random.chance(30) {
                *word = other_word(&mut random, *word);
            }
        }
        let changes: Vec<i64> = (0..made.table.variables)
            .map(|_| other_word(&mut random, 0))
            .collect();
        let mut room = vec![9; 100];
        in_form(&patch(&made.bytes, &old, &changes, &mut room), &room);
        in_form(
            &run(&made.bytes, &changes, old[1].min(5000), &mut room),
            &room,
        );
    }
}

#[test]
fn runs_of_damaged_tables_and_listings_of_any_bytes() {
    let mut random = Random::new(33);
    let mut accepted = 0;
    let mut made = session(&mut random, 200);
    for call in 0..calls() {
        if call % 20 == 0 {
            made = session(&mut random, 200);
        }
        let mut table = made.bytes.clone();
        for _ in 0..random.between(1, 3) {
            damage_table(&mut random, &mut table);
        }
        let mut room = vec![9; 200];
        let answer = run(&table, &made.inputs, made.limit.min(2000), &mut room);
        in_form(&answer, &room);
        accepted += (answer.number == 0) as usize;
        let mut bytes = compare::listing::session(&table, 50, &made.inputs, &[]).unwrap();
        let at = random.below(bytes.len());
        bytes[at] ^= 1 << random.below(8);
        let lines = listing(&bytes);
        assert!(lines.ends_with(b"\n"));
    }
    assert!(accepted > calls() / 100, "{accepted}");
}
