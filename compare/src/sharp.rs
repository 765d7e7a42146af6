//! Sharp cases: damaged records made by hand, each at one point of the order
//! of tests (document 01, "Patching" and "Broken (12)").

use crate::run::run;
use crate::text::assemble;
use crate::values::{HIGH, LOW};

/// A left record with some words set, and a change list. Places of `root` are
/// counted from the root's entry; `behind` lengthens that entry and L.
pub struct Sharp {
    pub script: &'static str,
    pub inputs: &'static [i64],
    pub limit: i64,
    pub header: &'static [(usize, i64)],
    pub root: &'static [(usize, i64)],
    pub behind: &'static [i64],
    pub changes: &'static [i64],
    /// The number that document 01 gives.
    pub number: i64,
}

type Sets = &'static [(usize, i64)];
type Words = &'static [i64];

// A sharp case from its parts.
const fn sharp(
    place: (&'static str, Words, i64),
    header: Sets,
    root: Sets,
    behind: Words,
    changes: Words,
    number: i64,
) -> Sharp {
    Sharp {
        script: place.0,
        inputs: place.1,
        limit: place.2,
        header,
        root,
        behind,
        changes,
        number,
    }
}

// The script, inputs and limit that several cases start from.
type Start = (&'static str, Words, i64);
// Root: 3 left, 4 right.
const ADD: Start = ("number\nv0 := (v0 + 1)", &[HIGH - 2], 9);
// Root: 3 count, 4 before, 5 left, 6 right.
const NONE: Start = ("number\nrepeat (v0 - 5) do v0 := 1 end", &[LOW + 6], 9);
// Root: 3 left, 4 right, 5 and 6 of the left record.
const LEFT: Start = ("number\nv0 := ((v0 + 1) - v0)", &[5], 9);
// Root: 3 left, 4 right, 5 and 6 of the right record.
const RIGHT: Start = ("number\nv0 := (v0 - (v0 + 1))", &[5], 9);
// Root: 3 to 7 the first entry, 8 to 12 the second.
const BOTH: Start = ("number number\nv0 := (v0 + 1) ; v1 := (v1 + 1)", &[1, 2], 9);
// Root: 3 the inner sequence, 6 to 10 its first, 11 to 13 its second, 14 to 18.
const INNER: Start = (
    "number number number\n(v0 := (v0 + 1) ; v1 := 1) ; v2 := (v2 + 1)",
    &[1, 2, 3],
    9,
);
// Root: 3 condition, 4 5 before, 6 7 after, 8 9 operands, 10 to 14 the branch.
const CHOICE: Start = (
    "number number\nif (v0 > 3) then v1 := (v1 + v0) else v1 := 2 end",
    &[5, 7],
    9,
);
// Root: 3 condition, 4 5 before, 6 7 after, 8 9 operands, 10 to 12 the branch.
const OTHER: Start = (CHOICE.0, &[1, 7], 9);
// Root: 3 condition, 4 before, 5 after, 6 7 outer, 8 9 inner, 10 the branch.
const DEEP: Start = ("number\nif ((v0 + 1) > 3) then skip else skip end", &[5], 9);
// Root: 3 count, 4 5 before, then thrice entry 6 to 10 and snapshot 11 12.
const LOOP: Start = (
    "number number\nrepeat v0 do v1 := (v1 + 1) end",
    &[3, 10],
    20,
);
const ONCE: Start = (
    "number number\nrepeat v0 do v1 := (v1 + 1) end",
    &[1, 10],
    3,
);
const NEVER: Start = (
    "number number\nrepeat v0 do v1 := (v1 + 1) end",
    &[0, 10],
    1,
);
const SKIP: Start = ("number number\nskip", &[1, 2], 9);

/// The sharp cases.
pub const SHARP: &[Sharp] = &[
    // The end of an expression's record comes after its 8.
    sharp(ADD, &[], &[], &[0], &[1], 12),
    sharp(ADD, &[], &[], &[0], &[2], 8),
    sharp(NONE, &[], &[], &[0], &[-1], 12),
    sharp(NONE, &[], &[], &[0], &[-2], 8),
    // The order inside an operator.
    sharp(
        LEFT,
        &[],
        &[(3, HIGH), (4, -1), (5, HIGH - 1)],
        &[],
        &[1],
        12,
    ),
    sharp(LEFT, &[], &[(3, HIGH), (5, HIGH - 1)], &[], &[1], 8),
    sharp(LEFT, &[], &[(4, HIGH), (5, HIGH - 1)], &[], &[1], 8),
    sharp(LEFT, &[], &[(4, HIGH + 1), (5, HIGH - 1)], &[], &[1], 12),
    sharp(LEFT, &[], &[(3, LOW), (4, 0)], &[], &[1], 0),
    sharp(RIGHT, &[], &[(5, HIGH - 1)], &[], &[1], 8),
    sharp(RIGHT, &[], &[(3, HIGH), (5, HIGH - 1)], &[], &[1], 12),
    sharp(RIGHT, &[], &[(4, HIGH), (5, HIGH - 1)], &[], &[1], 8),
    sharp(RIGHT, &[], &[(5, HIGH)], &[], &[1], 12),
    // Parts that do not fit.
    sharp(BOTH, &[], &[(4, 10), (6, HIGH - 1)], &[], &[1, 0], 8),
    sharp(BOTH, &[], &[(4, 11), (6, HIGH - 1)], &[], &[1, 0], 12),
    sharp(BOTH, &[], &[(4, 4), (6, HIGH - 1)], &[], &[1, 0], 12),
    sharp(BOTH, &[], &[(4, 8), (6, HIGH - 1)], &[], &[1, 0], 8),
    sharp(BOTH, &[], &[(4, 8)], &[], &[1, 0], 12),
    sharp(INNER, &[], &[(7, 9), (9, HIGH - 1)], &[], &[1, 0, 0], 12),
    sharp(INNER, &[], &[(7, 8), (9, HIGH - 1)], &[], &[1, 0, 0], 8),
    // An entry met: opening words before fuel, the last part's end at its size.
    sharp(BOTH, &[(1, 2), (2, 2)], &[], &[], &[1, 0], 9),
    sharp(BOTH, &[(1, 2), (2, 2)], &[(9, 4)], &[], &[1, 0], 12),
    sharp(BOTH, &[(1, 2), (2, 2)], &[(8, 3)], &[], &[1, 1], 12),
    sharp(BOTH, &[(1, 2), (2, 2)], &[(10, 0)], &[], &[1, 1], 12),
    sharp(BOTH, &[(1, 1), (2, 1)], &[(4, 2)], &[], &[1, 1], 12),
    sharp(BOTH, &[], &[(9, 4), (11, HIGH - 1)], &[], &[0, 1], 12),
    sharp(BOTH, &[], &[(10, 7)], &[], &[1, 0], 0),
    sharp(BOTH, &[], &[(10, 8)], &[], &[1, 0], 9),
    sharp(BOTH, &[], &[(10, 1_000_000)], &[], &[1, 0], 9),
    sharp(BOTH, &[], &[(10, 1_000_001)], &[], &[1, 0], 12),
    sharp(BOTH, &[], &[(10, 1_000_000)], &[], &[1, 1], 0),
    sharp(BOTH, &[], &[(11, i64::MIN)], &[], &[1, 0], 0),
    // The header: only its listed tests, before 11.
    sharp(BOTH, &[(1, 2)], &[], &[], &[1, 0], 12),
    sharp(BOTH, &[(2, 9)], &[], &[], &[1, 0], 0),
    sharp(BOTH, &[(1, 0)], &[], &[], &[1], 12),
    sharp(BOTH, &[(3, HIGH + 1)], &[], &[], &[i64::MAX, 0], 12),
    sharp(BOTH, &[], &[(0, 1)], &[], &[1], 11),
    sharp(BOTH, &[(0, 7)], &[], &[], &[i64::MIN, 0], 11),
    sharp(BOTH, &[(0, 7)], &[], &[], &[0, 0], 12),
    sharp(SKIP, &[(6, HIGH)], &[], &[], &[0, 1], 12),
    sharp(SKIP, &[(6, HIGH)], &[], &[], &[1, 0], 0),
    // A walked if.
    sharp(CHOICE, &[], &[(3, 0)], &[], &[1, 0], 12),
    sharp(CHOICE, &[], &[(3, 0)], &[], &[-4, 0], 0),
    sharp(CHOICE, &[], &[(8, 1)], &[], &[1, 0], 0),
    sharp(CHOICE, &[], &[(7, HIGH), (13, HIGH - 5)], &[], &[1, 0], 8),
    sharp(CHOICE, &[], &[(6, HIGH), (13, HIGH - 5)], &[], &[1, 0], 8),
    sharp(CHOICE, &[], &[(7, HIGH)], &[], &[1, 0], 12),
    sharp(OTHER, &[], &[(7, HIGH)], &[], &[0, 1], 0),
    sharp(OTHER, &[], &[(6, HIGH)], &[], &[1, 0], 12),
    sharp(CHOICE, &[], &[(7, HIGH)], &[], &[-4, 1], 0),
    sharp(CHOICE, &[], &[(7, HIGH + 1)], &[], &[-4, 0], 12),
    sharp(
        CHOICE,
        &[(1, 1), (2, 1)],
        &[(7, HIGH + 1)],
        &[],
        &[-4, 0],
        12,
    ),
    sharp(CHOICE, &[(1, 1), (2, 1)], &[(10, 0)], &[], &[-4, 0], 9),
    sharp(CHOICE, &[(1, 1), (2, 1)], &[(10, 0)], &[], &[1, 0], 12),
    sharp(CHOICE, &[], &[(10, 0), (11, i64::MIN)], &[], &[-4, 0], 0),
    sharp(CHOICE, &[], &[], &[9, 9], &[-4, 0], 0),
    sharp(CHOICE, &[], &[], &[9, 9], &[1, 0], 12),
    sharp(DEEP, &[], &[(8, HIGH - 1)], &[], &[1], 8),
    sharp(DEEP, &[], &[(5, HIGH + 1), (8, HIGH - 1)], &[], &[1], 12),
    sharp(DEEP, &[], &[(4, HIGH), (8, HIGH - 1)], &[], &[1], 12),
    sharp(DEEP, &[], &[(5, HIGH), (8, HIGH - 1)], &[], &[1], 8),
    sharp(DEEP, &[], &[(10, 0), (8, HIGH - 1)], &[], &[1], 8),
    // A walked repeat: its count, its end before fresh iterations.
    sharp(NONE, &[], &[(4, LOW), (5, LOW + 5)], &[], &[-1], 12),
    sharp(NONE, &[], &[(3, LOW)], &[], &[-1], 12),
    sharp(LOOP, &[], &[(3, HIGH), (9, HIGH - 1)], &[], &[1, 1], 12),
    sharp(ONCE, &[], &[], &[0], &[2, 0], 12),
    sharp(ONCE, &[(1, 2)], &[], &[0], &[2, 0], 12),
    sharp(ONCE, &[], &[(9, HIGH - 1)], &[0], &[2, 1], 8),
    sharp(NEVER, &[], &[], &[0], &[2, 0], 12),
    sharp(NEVER, &[], &[], &[0], &[-1, 1], 12),
    // A dropped tail: after the walked iterations, its type and no sum.
    sharp(
        LOOP,
        &[],
        &[(9, HIGH - 1), (26, HIGH + 1)],
        &[],
        &[-2, 1],
        8,
    ),
    sharp(LOOP, &[(1, 1), (2, 1)], &[(26, HIGH + 1)], &[], &[-2, 0], 9),
    sharp(LOOP, &[(1, 1), (2, 1)], &[(26, HIGH + 1)], &[], &[-2, 1], 9),
    sharp(LOOP, &[], &[(26, HIGH + 1)], &[], &[-2, 1], 12),
    sharp(LOOP, &[(6, HIGH)], &[(26, HIGH)], &[], &[-2, 1], 0),
    sharp(LOOP, &[(5, LOW)], &[(25, LOW)], &[], &[-2, 0], 0),
    sharp(
        LOOP,
        &[],
        &[(13, 0), (14, i64::MIN), (20, 9)],
        &[],
        &[-2, 0],
        0,
    ),
    sharp(LOOP, &[], &[(3, 9)], &[], &[-6, 0], 12),
    sharp(NEVER, &[], &[(3, 2)], &[1, 12], &[-2, 0], 0),
    sharp(NEVER, &[], &[(3, 2)], &[12], &[-2, 0], 12),
    sharp(NEVER, &[], &[(3, 2)], &[0, 1, 12], &[-2, 0], 0),
    sharp(NEVER, &[], &[(3, 2)], &[1, 12], &[-1, 0], 12),
];

// The table and the old record of a sharp case; None if its script is wrong.
pub fn record(case: &Sharp) -> Option<(Vec<u8>, Vec<i64>)> {
    let table = assemble(case.script.as_bytes()).ok()?;
    let mut old = vec![0; 100];
    let length = run(&table, case.inputs, case.limit, &mut old).length;
    old.truncate(length as usize);
    let root = 3 + 2 * case.inputs.len();
    if old.len() < root + 3 {
        return None;
    }
    old.extend_from_slice(case.behind);
    old[0] += case.behind.len() as i64;
    old[root + 1] += case.behind.len() as i64;
    for &(at, word) in case.root {
        old[root + at] = word;
    }
    for &(at, word) in case.header {
        old[at] = word;
    }
    Some((table, old))
}
