//! The numbers of document 01, and each refusal number.

use compare::answer::Answer;
use compare::listing::{listing, session};
use compare::patch::patch;
use compare::program::Program;
use compare::run::run;
use compare::table::number_of;
use compare::text::assemble;

const P_TEXT: &str = "number number\nrepeat v0 do v1 := (v1 + v0) end\n";
const RECORD: [i64; 27] = [
    27, 100, 3, 2, 10, 2, 14, 5, 20, 3, 2, 2, 10, 4, 5, 1, 10, 2, 2, 12, 4, 5, 1, 12, 2, 2, 14,
];

// Program P's table, written by hand.
fn p() -> Vec<u8> {
    let mut bytes = vec![
        0x49, 0x4D, 0x50, 0x54, 2, 0, 6, 0, 16, 0, 18, 0, 66, 0, 0, 0, 0, 0,
    ];
    bytes.extend([3, 0, 0, 0, 0, 0, 0, 0]);
    bytes.extend([3, 1, 0, 0, 0, 0, 0, 0]);
    bytes.extend([3, 0, 0, 0, 0, 0, 0, 0]);
    bytes.extend([4, 0, 1, 0, 2, 0, 0, 0]);
    bytes.extend([17, 1, 3, 0, 0, 0, 0, 0]);
    bytes.extend([20, 0, 0, 0, 4, 0, 0, 0]);
    bytes
}

// The first two values or changes.
fn two(words: &[i64; 32]) -> [i64; 2] {
    assert!(words[2..].iter().all(|&word| word == 0));
    [words[0], words[1]]
}

// A patch of a record of P into a room of 64 words.
fn patch_p(old: &[i64], changes: &[i64]) -> (Answer, Vec<i64>) {
    let mut room = vec![7; 64];
    let answer = patch(&p(), old, changes, &mut room);
    (answer, room)
}

#[test]
fn the_text_of_p_is_the_table_of_p() {
    assert_eq!(assemble(P_TEXT.as_bytes()).unwrap(), p());
    assert_eq!(number_of(&p()), 0);
}

#[test]
fn the_record_of_p_and_its_rooms_and_limits() {
    let mut room = vec![7; 27];
    let answer = run(&p(), &[2, 10], 100, &mut room);
    assert_eq!(room, RECORD);
    assert_eq!(
        (answer.number, answer.steps, answer.fresh, answer.length),
        (0, 3, 3, 27)
    );
    assert_eq!((answer.walked, answer.reused), (0, 0));
    assert_eq!(
        (two(&answer.values), two(&answer.changes)),
        ([2, 14], [0, 0])
    );
    let mut small = vec![7; 26];
    assert_eq!(run(&p(), &[2, 10], 100, &mut small), Answer::refused(10));
    assert_eq!(small, vec![0; 26]);
    let mut large = vec![7; 40];
    assert_eq!(run(&p(), &[2, 10], 3, &mut large).number, 0);
    assert_eq!(large[27..], [0; 13]);
    assert_eq!(run(&p(), &[2, 10], 2, &mut large), Answer::refused(9));
    assert_eq!(large, vec![0; 40]);
}

#[test]
fn the_patches_of_p() {
    let (answer, _) = patch_p(&RECORD, &[1, 0]);
    assert_eq!((answer.number, two(&answer.changes)), (0, [1, 5]));
    assert_eq!(two(&answer.values), [3, 19]);
    let (answer, room) = patch_p(&RECORD, &[-2, 0]);
    assert_eq!((answer.number, two(&answer.changes)), (0, [-2, -4]));
    assert_eq!(room[..13], [13, 100, 1, 0, 10, 0, 10, 5, 6, 1, 0, 0, 10]);
    assert_eq!(room[13..], [0; 51]);
    let (answer, room) = patch_p(&RECORD, &[-3, 0]);
    assert_eq!(
        (answer.number, two(&answer.changes), room[10]),
        (0, [-3, -4], -1)
    );
    let (answer, room) = patch_p(&RECORD, &[0, 0]);
    assert_eq!((answer.number, answer.reused, answer.steps), (0, 3, 3));
    assert_eq!(room[..27], RECORD);
}

#[test]
fn the_overflow_of_p() {
    let mut room = vec![0; 27];
    assert_eq!(run(&p(), &[2, 2_147_483_640], 100, &mut room).number, 0);
    assert_eq!(patch_p(&room, &[0, 3]).0.number, 0);
    assert_eq!(patch_p(&room, &[0, 4]).0, Answer::refused(8));
}

#[test]
fn the_listing_of_p() {
    let lists = [vec![1, 0], vec![1, 0], vec![-3, 0]];
    let bytes = session(&p(), 4, &[2, 10], &lists).unwrap();
    let lines =
        "run 0 3 0 0 3 27 2 14\npatch 0 4 3 0 1 34 3 19\npatch 9\npatch 0 1 1 0 0 13 0 10\n";
    assert_eq!(String::from_utf8(listing(&bytes)).unwrap(), lines);
}

// A table of sequences around a skip, its deepest node at a depth.
fn nest(depth: usize) -> Vec<u8> {
    let mut program = Program::new(vec![0]);
    let mut inner = program.add(16, 0, 0, &[]);
    for _ in 1..depth {
        let side = program.add(16, 0, 0, &[]);
        inner = program.add(18, 0, 0, &[side, inner]);
    }
    program.table(&program.in_order())
}

// A table whose depth lies in an expression.
fn nest_expression(depth: usize) -> Vec<u8> {
    let mut program = Program::new(vec![0]);
    let mut inner = program.add(3, 0, 0, &[]);
    for _ in 2..depth {
        let side = program.add(1, 0, 0, &[]);
        inner = program.add(4, 0, 0, &[inner, side]);
    }
    program.add(17, 0, 0, &[inner]);
    program.table(&program.in_order())
}

#[test]
fn depth_24_and_25() {
    assert_eq!((number_of(&nest(24)), number_of(&nest(25))), (0, 5));
    assert_eq!(
        (
            number_of(&nest_expression(24)),
            number_of(&nest_expression(25))
        ),
        (0, 5)
    );
}

// A table of one skip with so many variables.
fn skip_with(variables: usize) -> Vec<u8> {
    let mut program = Program::new(vec![0; variables]);
    program.add(16, 0, 0, &[]);
    program.table(&program.in_order())
}

#[test]
fn variables_32_and_33() {
    assert_eq!(
        (number_of(&skip_with(32)), number_of(&skip_with(33))),
        (0, 1)
    );
    assert_eq!((number_of(&skip_with(1)), number_of(&skip_with(0))), (0, 1));
}

#[test]
fn nodes_512_and_513() {
    let wide = |leaves: usize| {
        let mut program = Program::new(vec![0]);
        let mut row: Vec<usize> = (0..leaves).map(|_| program.add(16, 0, 0, &[])).collect();
        while row.len() > 1 {
            let (a, b) = (row.remove(0), row.remove(0));
            row.push(program.add(18, 0, 0, &[a, b]));
        }
        program
    };
    let program = wide(256);
    let bytes = program.table(&program.in_order());
    assert_eq!((program.parts.len(), number_of(&bytes)), (511, 0));
    let program = wide(257);
    let bytes = program.table(&program.in_order());
    assert_eq!((program.parts.len(), number_of(&bytes)), (513, 1));
    let mut none = p();
    none[6] = 0;
    none.truncate(18);
    none[12] = 18;
    assert_eq!(number_of(&none), 1);
}

#[test]
fn refusal_1_for_every_header_byte_and_length() {
    for at in 0..16 {
        let mut bytes = p();
        bytes[at] ^= 4;
        assert_eq!(number_of(&bytes), 1, "byte {at}");
    }
    for length in 0..66 {
        assert_eq!(number_of(&p()[..length]), 1);
    }
    let mut longer = p();
    longer.push(0);
    assert_eq!(number_of(&longer), 1);
}

#[test]
fn refusals_2_to_5() {
    let mut bytes = p();
    bytes[16] = 2;
    bytes[18] = 99;
    assert_eq!(number_of(&bytes), 2);
    bytes[16] = 1;
    assert_eq!(number_of(&bytes), 3);
    let mut twice = p();
    twice[18 + 24 + 4] = 1;
    assert_eq!(number_of(&twice), 4);
    let mut own = p();
    own[18 + 24 + 4] = 3;
    assert_eq!(number_of(&own), 3);
}

#[test]
fn refusals_6_and_7() {
    let mut room = vec![7; 30];
    for inputs in [
        vec![2],
        vec![2, 10, 0],
        vec![],
        vec![2_147_483_648, 0],
        vec![0, i64::MIN],
    ] {
        assert_eq!(run(&p(), &inputs, 0, &mut room), Answer::refused(6));
    }
    for limit in [0, -1, 1_000_001, i64::MIN, i64::MAX] {
        assert_eq!(run(&p(), &[2, 10], limit, &mut room), Answer::refused(7));
    }
    assert_eq!(run(&p(), &[2, 10], 1_000_000, &mut room).number, 0);
    assert_eq!(run(&p(), &[2, 10], 1, &mut room), Answer::refused(9));
    assert_eq!(
        run(&p(), &[2, 2_147_483_646], 2, &mut room),
        Answer::refused(8)
    );
    assert_eq!(
        run(&p(), &[3, 2_147_483_643], 2, &mut room),
        Answer::refused(9)
    );
}

#[test]
fn refusal_11_and_the_headers_12() {
    for changes in [
        vec![0],
        vec![0, 0, 0],
        vec![i64::MAX, 0],
        vec![i64::MIN, 0],
        vec![0, 2_147_483_638],
    ] {
        assert_eq!(patch_p(&RECORD, &changes).0, Answer::refused(11));
    }
    let mut broken = RECORD;
    broken[1] = 0;
    assert_eq!(patch_p(&broken, &[0]).0, Answer::refused(12));
    let mut broken = RECORD;
    broken[7] = 6;
    assert_eq!(patch_p(&broken, &[0]).0, Answer::refused(11));
    assert_eq!(patch_p(&broken, &[0, 0]).0, Answer::refused(12));
}
