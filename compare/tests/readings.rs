//! The points that the team's readings decide, one by one.

use compare::answer::Answer;
use compare::patch::patch;
use compare::run::run;
use compare::table::{check, number_of};
use compare::text::assemble;
use compare::values::{HIGH, LOW};

/// A table with a record that a run left.
struct Left {
    table: Vec<u8>,
    record: Vec<i64>,
    variables: usize,
}

// A script run on inputs under a limit, which must be accepted.
fn left(script: &str, inputs: &[i64], limit: i64) -> Left {
    let table = assemble(script.as_bytes()).unwrap();
    let mut room = vec![0; 2000];
    let answer = run(&table, inputs, limit, &mut room);
    assert_eq!(answer.number, 0, "{script}");
    room.truncate(answer.length as usize);
    Left {
        table,
        record: room,
        variables: inputs.len(),
    }
}

impl Left {
    // The place of the root's entry.
    fn root(&self) -> usize {
        3 + 2 * self.variables
    }

    // The same with words of the root's entry set.
    fn with(mut self, sets: &[(usize, i64)]) -> Left {
        let root = self.root();
        for &(at, word) in sets {
            self.record[root + at] = word;
        }
        self
    }

    // The same with a word of the header set.
    fn header(mut self, at: usize, word: i64) -> Left {
        self.record[at] = word;
        self
    }

    // The same with words behind the root's entry, which its size and L count.
    fn longer(mut self, words: &[i64]) -> Left {
        let root = self.root();
        self.record.extend_from_slice(words);
        self.record[0] += words.len() as i64;
        self.record[root + 1] += words.len() as i64;
        self
    }

    // A patch into 2,000 words.
    fn patch(&self, changes: &[i64]) -> (Answer, Vec<i64>) {
        let mut room = vec![5; 2000];
        let answer = patch(&self.table, &self.record, changes, &mut room);
        (answer, room)
    }

    // The number of a patch.
    fn number(&self, changes: &[i64]) -> i64 {
        self.patch(changes).0.number
    }
}

#[test]
fn reading_1_the_end_of_an_expression_comes_after_its_8() {
    let made = left("number\nv0 := (v0 + 1)", &[HIGH - 2], 9).longer(&[0]);
    assert_eq!(made.number(&[1]), 12);
    assert_eq!(made.number(&[2]), 8);
    let made = left("number\nrepeat (v0 - 5) do v0 := 1 end", &[LOW + 6], 9).longer(&[0]);
    assert_eq!((made.number(&[-1]), made.number(&[-2])), (12, 8));
}

#[test]
fn reading_2_the_order_inside_an_operator() {
    // Entry: node size steps, left right, then the left record.
    let script = "number\nv0 := ((v0 + 1) - v0)";
    let made = || left(script, &[5], 9);
    assert_eq!(made().record[5..], [5, 7, 1, 6, 5, 5, 1]);
    assert_eq!(made().number(&[1]), 0);
    assert_eq!(made().with(&[(3, HIGH + 1)]).number(&[1]), 12);
    assert_eq!(made().with(&[(4, i64::MIN)]).number(&[1]), 12);
    // An old result out of range, before an 8 of the left record.
    assert_eq!(
        made()
            .with(&[(3, HIGH), (4, -1), (5, HIGH - 1)])
            .number(&[1]),
        12
    );
    // The left record's 8, before the left sum and before the right sum.
    assert_eq!(made().with(&[(3, HIGH), (5, HIGH - 1)]).number(&[1]), 8);
    assert_eq!(made().with(&[(4, HIGH), (5, HIGH - 1)]).number(&[1]), 8);
    // The right sum, before the new result.
    assert_eq!(made().with(&[(4, HIGH)]).number(&[1]), 12);
    // The left sum, before the right record's 8.
    let made = || left("number\nv0 := (v0 - (v0 + 1))", &[5], 9);
    assert_eq!(made().with(&[(5, HIGH - 1)]).number(&[1]), 8);
    assert_eq!(made().with(&[(3, HIGH), (5, HIGH - 1)]).number(&[1]), 12);
    // An old result of the right record, before the outer 8.
    assert_eq!(made().with(&[(5, HIGH)]).number(&[1]), 12);
}

#[test]
fn reading_3_parts_that_do_not_fit() {
    let script = "number number\nv0 := (v0 + 1) ; v1 := (v1 + 1)";
    let made = || left(script, &[1, 2], 9);
    assert_eq!(made().record[7..], [8, 13, 3, 3, 5, 1, 1, 1, 7, 5, 1, 2, 1]);
    // The first part takes the second's words, up to the parent's end or past it.
    assert_eq!(made().with(&[(4, 11)]).number(&[0, 1]), 12);
    assert_eq!(made().with(&[(4, 10)]).number(&[0, 1]), 12);
    // An 8 in the first part comes before its size that is too great.
    assert_eq!(made().with(&[(4, 10), (6, HIGH - 1)]).number(&[1, 0]), 8);
    assert_eq!(made().with(&[(4, 11), (6, HIGH - 1)]).number(&[1, 0]), 12);
    // A first part too small for its operands.
    assert_eq!(made().with(&[(4, 4)]).number(&[1, 0]), 12);
    assert_eq!(made().with(&[(4, 3)]).number(&[1, 0]), 12);
    assert_eq!(made().with(&[(4, 2)]).number(&[1, 0]), 12);
}

#[test]
fn reading_4_an_entry_met() {
    let script = "number number\nv0 := (v0 + 1) ; v1 := (v1 + 1)";
    let short = || left(script, &[1, 2], 9).header(1, 2).header(2, 2);
    // The last part's end when its size is read, before any fuel.
    assert_eq!(short().with(&[(9, 4)]).number(&[1, 0]), 12);
    // A skipped entry's wrong opening, before its fuel.
    assert_eq!(short().number(&[1, 0]), 9);
    assert_eq!(short().with(&[(8, 3)]).number(&[1, 0]), 12);
}

#[test]
fn reading_4_the_skip_rule_and_its_fuel() {
    let script = "number number\nv0 := (v0 + 1) ; v1 := (v1 + 1)";
    let made = || left(script, &[1, 2], 9);
    // The second entry opens at word 8 of the root's entry; its steps are word 10.
    let (answer, room) = made().with(&[(10, 7)]).patch(&[1, 0]);
    assert_eq!((answer.number, answer.steps), (0, 9), "{room:?}");
    assert_eq!((answer.walked, answer.reused, answer.fresh), (2, 7, 0));
    assert_eq!((room[2], room[9]), (9, 9));
    assert_eq!(made().with(&[(10, 8)]).number(&[1, 0]), 9);
    assert_eq!(made().with(&[(10, 1_000_000)]).number(&[1, 0]), 9);
    assert_eq!(made().with(&[(10, 1_000_001)]).number(&[1, 0]), 12);
    assert_eq!(made().with(&[(10, 0)]).number(&[1, 0]), 12);
    // Walked, the word is not used again.
    assert_eq!(made().with(&[(10, 1_000_000)]).patch(&[1, 1]).0.steps, 3);
    // Nothing behind the opening words of a skipped entry is tested.
    let (answer, room) = made().with(&[(11, i64::MIN)]).patch(&[1, 0]);
    assert_eq!((answer.number, room[18]), (0, i64::MIN));
    // The wrong node before the fuel of a walked step.
    let short = || made().header(1, 2).header(2, 2);
    assert_eq!(short().number(&[1, 1]), 9);
    assert_eq!(short().with(&[(8, 6)]).number(&[1, 1]), 12);
}

#[test]
fn reading_5_header_steps_are_not_compared() {
    let made = left("number\nv0 := (v0 + 1)", &[1], 9).header(2, 9);
    let (answer, room) = made.patch(&[1]);
    assert_eq!((answer.number, answer.steps, room[2]), (0, 1, 1));
    assert_eq!(made.patch(&[0]).0.reused, 1);
}

const CHOICE: &str = "number number\nif (v0 > 3) then v1 := (v1 + v0) else v1 := 2 end";

#[test]
fn reading_6_a_walked_if() {
    let made = || left(CHOICE, &[5, 7], 9);
    // node size steps, condition, before 2, after 2, operands 2, branch 5.
    assert_eq!(
        made().record[7..],
        [9, 15, 2, 1, 5, 7, 5, 12, 5, 3, 6, 5, 1, 7, 5]
    );
    assert_eq!(made().patch(&[1, 0]).0.changes[..2], [1, 1]);
    for word in [2, -1, i64::MAX] {
        assert_eq!(made().with(&[(3, word)]).number(&[1, 0]), 12);
    }
    // The condition word counts, not the operands: kept, the other branch is met.
    assert_eq!(made().with(&[(3, 0)]).number(&[1, 0]), 12);
    // Flipped from 0 to 1, the first branch runs fresh from the snapshot.
    let (answer, room) = made().with(&[(3, 0)]).patch(&[-4, 0]);
    assert_eq!((answer.number, answer.fresh, room[10]), (0, 1, 1));
    assert_eq!(answer.changes[..2], [-4, 8 - 12]);
    // Snapshot before: its type and its sum, before an 8 of the condition.
    assert_eq!(made().with(&[(4, HIGH)]).number(&[1, 0]), 12);
    assert_eq!(made().with(&[(4, HIGH)]).number(&[-1, 0]), 0);
    // Snapshot after: its type; its sum only after the branch.
    assert_eq!(made().with(&[(7, HIGH + 1)]).number(&[-4, 0]), 12);
    assert_eq!(made().with(&[(7, HIGH)]).number(&[1, 0]), 12);
    assert_eq!(made().with(&[(7, HIGH), (13, HIGH - 5)]).number(&[1, 0]), 8);
    // Flipped, the sum of the snapshot after is not formed.
    assert_eq!(made().with(&[(7, HIGH)]).number(&[-4, 1]), 0);
    assert_eq!(made().with(&[(7, LOW)]).number(&[-4, 0]), 12);
    assert_eq!(made().with(&[(7, LOW)]).header(6, LOW).number(&[-4, 0]), 0);
}

#[test]
fn reading_7_a_dropped_branch_is_not_read() {
    let made = || left(CHOICE, &[5, 7], 9);
    for at in 10..15 {
        assert_eq!(made().with(&[(at, i64::MIN)]).number(&[-4, 0]), 0);
        assert_eq!(made().with(&[(at, i64::MIN)]).number(&[1, 0]), 12);
    }
    assert_eq!(made().longer(&[9, 9]).number(&[-4, 0]), 0);
    assert_eq!(made().longer(&[9, 9]).number(&[1, 0]), 12);
}

const LOOP: &str = "number number\nrepeat v0 do v1 := (v1 + 1) end";

#[test]
fn reading_8_a_dropped_tail() {
    let made = || left(LOOP, &[3, 10], 20);
    // node size steps, count, before 2, then three times entry 5, snapshot 2.
    assert_eq!(made().record[7..13], [5, 27, 4, 3, 3, 10]);
    assert_eq!(made().patch(&[-2, 0]).0.changes[..2], [-2, -2]);
    // Only the last snapshot of the tail is read.
    for at in 13..25 {
        assert_eq!(made().with(&[(at, i64::MIN)]).number(&[-2, 0]), 0);
    }
    assert_eq!(made().with(&[(25, i64::MIN)]).number(&[-2, 0]), 12);
    assert_eq!(made().with(&[(26, HIGH + 1)]).number(&[-2, 0]), 12);
    // Its words take no change: a sum out of range does not matter there.
    let answer = made().with(&[(26, HIGH)]).header(6, HIGH).patch(&[-2, 0]).0;
    assert_eq!((answer.number, answer.changes[1]), (0, 11 - HIGH));
    // It may begin right behind the walked parts, but not before.
    assert_eq!(made().with(&[(3, 9)]).number(&[-6, 0]), 12);
    let none = left(LOOP, &[0, 10], 20).longer(&[1, 12]).with(&[(3, 2)]);
    assert_eq!(none.number(&[-2, 0]), 0);
    let none = left(LOOP, &[0, 10], 20).longer(&[12]).with(&[(3, 2)]);
    assert_eq!(none.number(&[-2, 0]), 12);
}

#[test]
fn reading_9_the_end_of_a_repeat_before_fresh_iterations() {
    let made = || left(LOOP, &[1, 10], 3);
    assert_eq!(made().number(&[1, 0]), 0);
    assert_eq!(made().number(&[2, 0]), 9);
    assert_eq!(made().longer(&[0]).number(&[2, 0]), 12);
    assert_eq!(made().longer(&[0]).number(&[0, 1]), 12);
    let none = || left(LOOP, &[0, 10], 1);
    assert_eq!(none().number(&[2, 0]), 9);
    assert_eq!(none().longer(&[0]).number(&[2, 0]), 12);
}

#[test]
fn reading_10_negative_counts() {
    let (answer, room) = left(LOOP, &[-1, 10], 9).patch(&[-4, 3]);
    assert_eq!((answer.number, answer.walked, answer.fresh), (0, 1, 0));
    assert_eq!((&answer.changes[..2], room[10]), (&[-4, 3][..], -5));
    let (answer, room) = left(LOOP, &[-1, 10], 9).patch(&[3, 0]);
    assert_eq!((answer.number, answer.fresh, room[10]), (0, 2, 2));
    // The count word counts, with the change of its expression.
    assert_eq!(
        left(LOOP, &[-1, 10], 9).with(&[(3, LOW)]).number(&[-1, 0]),
        12
    );
    assert_eq!(
        left(LOOP, &[-1, 10], 9)
            .with(&[(3, LOW - 1)])
            .number(&[1, 0]),
        12
    );
}

#[test]
fn reading_11_the_whole_patch() {
    let made = left("number\nv0 := (v0 + 1)", &[1], 9);
    let mut no_root = made.record[..5].to_vec();
    no_root[0] = 5;
    let mut room = vec![5; 3];
    assert_eq!(
        patch(&made.table, &no_root, &[], &mut room),
        Answer::refused(11)
    );
    assert_eq!(
        patch(&made.table, &no_root, &[0], &mut room),
        Answer::refused(12)
    );
    assert_eq!(
        patch(&made.table, &made.record[..4], &[], &mut room),
        Answer::refused(12)
    );
    // Outputs plus changes come before 10.
    let output = left("number\nv0 := (v0 + 1)", &[1], 9).header(4, HIGH);
    assert_eq!(
        patch(&output.table, &output.record, &[1], &mut room),
        Answer::refused(12)
    );
    assert_eq!(
        patch(&made.table, &made.record, &[1], &mut room),
        Answer::refused(10)
    );
    // A variable that no statement mentions has its output tested, too.
    let other = left("number number\nskip", &[1, 2], 9).header(6, HIGH);
    assert_eq!((other.number(&[0, 1]), other.number(&[1, 0])), (12, 0));
}

#[test]
fn reading_12_changes_of_flips_and_changed_loops() {
    let script = "number number number\nif (v0 > 0) then v1 := 1 else v2 := 2 end";
    let (answer, _) = left(script, &[1, 5, 6], 9).patch(&[-1, 0, 0]);
    assert_eq!(answer.changes[..3], [-1, 4, -4]);
    let script = "number number number\nrepeat v0 do v1 := 3 end";
    let (answer, _) = left(script, &[1, 5, 6], 9).patch(&[-1, 0, 7]);
    assert_eq!(answer.changes[..3], [-1, 2, 7]);
}

#[test]
fn reading_13_fuel_of_fresh_parts() {
    let script = "number number\nv1 := (v1 + 1) ; repeat v0 do v1 := (v1 + 1) end";
    assert_eq!(left(script, &[1, 0], 5).patch(&[1, 0]).0.fresh, 1);
    assert_eq!(left(script, &[1, 0], 5).number(&[2, 0]), 9);
}

#[test]
fn reading_14_extremes() {
    let made = left("number truth\nv0 := (v0 * v0)", &[0, 1], 9);
    for change in [i64::MIN, i64::MAX, HIGH + 1, LOW - 1] {
        assert_eq!(
            (made.number(&[change, 0]), made.number(&[0, change])),
            (11, 11)
        );
    }
    assert_eq!((made.number(&[LOW, 1]), made.number(&[46_341, 0])), (8, 8));
    assert_eq!(
        (
            made.number(&[0, 2]),
            made.number(&[0, -1]),
            made.number(&[46_340, 1])
        ),
        (11, 11, 0)
    );
}

#[test]
fn reading_15_the_table() {
    let table = assemble(b"number\nskip ; v0 := (v0 + 1)").unwrap();
    let node = |number: usize| 17 + 8 * number;
    let edited = |edits: &[(usize, u8)]| {
        let mut bytes = table.clone();
        edits.iter().for_each(|edit| bytes[edit.0] = edit.1);
        number_of(&bytes)
    };
    assert_eq!(edited(&[]), 0);
    // The unused tag of a constant, a skip, an operator, a sequence.
    for number in [0, 2, 3, 5] {
        assert_eq!(edited(&[(node(number) + 1, 1)]), 3);
    }
    // The same child twice in one node is 4; a child not below is 3.
    assert_eq!(edited(&[(node(5) + 2, 4)]), 4);
    assert_eq!(edited(&[(node(3) + 4, 1)]), 4);
    assert_eq!(edited(&[(node(5) + 4, 5)]), 3);
    // All 3s come before any 4, all 2s before any 3.
    assert_eq!(edited(&[(node(3) + 4, 1), (node(0) + 1, 1)]), 3);
    assert_eq!(edited(&[(node(0), 77), (16, 2)]), 2);
    assert_eq!(edited(&[(16, 2), (14, 1)]), 1);
    // A truth variable as an operand or for a number expression.
    assert_eq!(edited(&[(16, 1)]), 3);
}

#[test]
fn reading_16_a_statement_that_mentions_nothing_is_skipped() {
    let script = "number\nv0 := (v0 + 1) ; if (1 > 2) then skip else skip end";
    let (answer, _) = left(script, &[1], 9).patch(&[1]);
    assert_eq!((answer.walked, answer.reused, answer.fresh), (2, 2, 0));
    let (answer, _) = left("number\nskip", &[1], 9).patch(&[1]);
    assert_eq!((answer.walked, answer.reused, answer.values[0]), (0, 1, 2));
}

#[test]
fn reading_17_rooms() {
    let made = left("number\nskip", &[1], 9);
    assert_eq!(
        patch(&made.table, &made.record, &[1], &mut []),
        Answer::refused(10)
    );
    assert_eq!(run(&made.table, &[1], 9, &mut []), Answer::refused(10));
    let mut exact = vec![0; 8];
    assert_eq!(patch(&made.table, &made.record, &[1], &mut exact).number, 0);
    assert_eq!(exact, [8, 9, 1, 2, 2, 0, 3, 1]);
}

#[test]
fn reading_18_a_step_before_the_expression() {
    let table = assemble(b"number\nv0 := 1 ; v0 := (v0 + 2147483647)").unwrap();
    let mut room = vec![0; 40];
    assert_eq!(run(&table, &[0], 2, &mut room).number, 9);
    assert_eq!(run(&table, &[0], 3, &mut room).number, 8);
    assert_eq!(run(&table, &[0, 0], 0, &mut room).number, 6);
}

#[test]
fn wrong_shortcuts() {
    let (answer, _) = left("number\nv0 := 1", &[0], 9).patch(&[4]);
    assert_eq!((answer.number, answer.walked, answer.changes[0]), (0, 1, 0));
    let made = left(
        "number number\nif (v0 > 1) then v0 := 2 else skip end",
        &[5, 9],
        9,
    );
    assert_eq!(
        check(&made.table).unwrap().nodes.last().unwrap().mentioned,
        [0]
    );
    let (answer, room) = made.patch(&[0, 1]);
    assert_eq!((answer.reused, answer.values[1], room[6]), (2, 10, 10));
}
