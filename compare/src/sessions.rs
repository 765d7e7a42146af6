//! Sessions for the listing program: stored ones, generated ones, and holding
//! the program `patchlist` to the interpreter's listing of each.

use crate::case::{bytes_of_hex, hex_of_bytes};
use crate::damage::damage_table;
use crate::execute::ran;
use crate::generate::{deep, odd_table, random_changes, session, untried, Session};
use crate::listing::{self, listing, ROOM};
use crate::patch::patch;
use crate::program::{random_program, random_types, Program};
use crate::random::Random;
use crate::run::run;
use crate::text::assemble;
use crate::values::{HIGH, LOW, NUMBER, TRUTH};
use std::path::Path;

/// How many of the sessions that differ are shown.
const SHOWN: usize = 5;

/// Program P, whose record grows by seven words an iteration.
const P: &[u8] = b"number number\nrepeat v0 do v1 := (v1 + v0) end\n";

/// A session and the listing that it is to have.
#[derive(Clone, Debug, PartialEq, Eq)]
pub struct Stored {
    pub name: String,
    pub bytes: Vec<u8>,
    pub listing: Vec<u8>,
}

/// A generated session, and whether it is damaged.
#[derive(Clone, Debug, PartialEq, Eq)]
pub struct Made {
    pub bytes: Vec<u8>,
    pub damaged: bool,
}

// The sessions of a file: a line each, `session NAME HEX = LINE / LINE ..`.
pub fn parse_file(text: &str) -> Result<Vec<Stored>, String> {
    let parsed = |(at, line): (usize, &str)| {
        parse(line).ok_or_else(|| format!("line {}: no session", at + 1))
    };
    text.lines().enumerate().map(parsed).collect()
}

// A session from its line.
fn parse(line: &str) -> Option<Stored> {
    let (front, lines) = line.split_once(" = ")?;
    let words: Vec<&str> = front.split(' ').collect();
    let ["session", name, hex] = words.as_slice() else {
        return None;
    };
    Some(Stored {
        name: name.to_string(),
        bytes: bytes_of_hex(hex).ok()?,
        listing: (lines.replace(" / ", "\n") + "\n").into_bytes(),
    })
}

// The line of a session with the interpreter's listing.
pub fn print(name: &str, bytes: &[u8]) -> String {
    let lines = String::from_utf8_lossy(&listing(bytes)).into_owned();
    let lines: Vec<&str> = lines.lines().collect();
    format!(
        "session {name} {} = {}",
        hex_of_bytes(bytes),
        lines.join(" / ")
    )
}

// So many sessions from a seed; every fourth is damaged.
pub fn generate(seed: u64, count: usize) -> Vec<Made> {
    let mut random = Random::new(seed);
    (0..count)
        .map(|at| made(&mut random, at % 4 == 3))
        .collect()
}

// A session, damaged or not.
fn made(random: &mut Random, damaged: bool) -> Made {
    let whole = match random.below(20) {
        0 | 1 => refused_run(random),
        2 | 3 => long_record(random),
        4 => deep_table(random),
        5 if damaged => odd(random),
        5 => largest(random),
        _ => patched(random),
    };
    let bytes = if damaged {
        damage(random, &whole)
    } else {
        whole.bytes()
    };
    Made { bytes, damaged }
}

/// The parts of a session.
struct Parts {
    table: Vec<u8>,
    limit: i64,
    inputs: Vec<i64>,
    lists: Vec<Vec<i64>>,
}

impl Parts {
    // The session's bytes.
    fn bytes(&self) -> Vec<u8> {
        listing::session(&self.table, self.limit, &self.inputs, &self.lists).unwrap_or_default()
    }
}

// How many patches: mostly few, sometimes all 64.
fn patches(random: &mut Random) -> usize {
    match random.below(100) {
        0..=9 => 0,
        10..=84 => random.between(1, 6) as usize,
        85..=95 => random.between(7, 63) as usize,
        _ => 64,
    }
}

// An accepted run and random changes of each record that the calls leave.
fn patched(random: &mut Random) -> Parts {
    let made = session(random, 300);
    let count = patches(random);
    followed(random, made, count)
}

// A session of a run and so many lists, each made for the record it meets; some are refused.
fn followed(random: &mut Random, made: Session, count: usize) -> Parts {
    let mut old = vec![0; ROOM];
    let limit = made.limit.min(20_000);
    run(&made.bytes, &made.inputs, limit, &mut old);
    let mut lists = Vec::new();
    for _ in 0..count {
        let inputs = old[3..3 + made.table.variables].to_vec();
        let mut changes = random_changes(random, &made.table, &inputs);
        if random.chance(8) {
            spoil_change(random, &made.table.types, &inputs, &mut changes);
        }
        let mut new = vec![0; ROOM];
        if patch(&made.bytes, &old, &changes, &mut new).number == 0 {
            old = new;
        }
        lists.push(changes);
    }
    Parts {
        table: made.bytes,
        limit,
        inputs: made.inputs,
        lists,
    }
}

// Make one change of a list one that refusal 11 is for.
fn spoil_change(random: &mut Random, types: &[u8], inputs: &[i64], changes: &mut [i64]) {
    let variable = random.below(types.len());
    changes[variable] = match random.below(4) {
        _ if types[variable] == TRUTH => random.pick(&[2, -1, i64::MIN, i64::MAX]),
        0 => HIGH - inputs[variable] + random.between(1, 2),
        1 => LOW - inputs[variable] - random.between(1, 2),
        _ => random.pick(&[i64::MIN, i64::MAX, 1 << 32, -(1 << 33)]),
    };
}

// A session whose run is likely to be refused, with 6, 7, 8 or 9.
fn refused_run(random: &mut Random) -> Parts {
    let mut made = untried(random);
    let variable = random.below(made.inputs.len());
    let types = made.table.types.iter();
    match random.below(6) {
        0 => made.inputs[variable] = random.pick(&[i64::MIN, i64::MAX, HIGH + 1, LOW - 1]),
        1 => made.limit = random.pick(&[0, -1, 1_000_001, i64::MIN, i64::MAX]),
        2 => made.limit = random.between(1, 3),
        _ => {
            let far = types.map(|&kind| {
                if kind == TRUTH {
                    1
                } else {
                    random.pick(&[LOW, HIGH])
                }
            });
            made.inputs = far.collect();
        }
    }
    let lists = vec![vec![0; made.inputs.len()]; patches(random)];
    Parts {
        table: made.bytes,
        limit: made.limit,
        inputs: made.inputs,
        lists,
    }
}

// A session of program P whose records are about as long as their room.
fn long_record(random: &mut Random) -> Parts {
    let lists = (0..patches(random)).map(|_| vec![random.between(-3, 3), random.between(-1, 1)]);
    Parts {
        lists: lists.collect(),
        table: assemble(P).unwrap_or_default(),
        limit: random.pick(&[290, 291, 292, 293, 400]),
        inputs: vec![random.between(286, 292), random.between(-9, 9)],
    }
}

// A session of a table of depth 20 to 25.
fn deep_table(random: &mut Random) -> Parts {
    let depth = random.between(20, 25) as usize;
    let table = deep(random, depth);
    let lists = (0..patches(random)).map(|_| vec![random.between(-2, 2), random.between(0, 1)]);
    Parts {
        lists: lists.collect(),
        table,
        limit: random.between(20, 60),
        inputs: vec![random.between(-5, 5), random.between(0, 1)],
    }
}

// A session of the largest size: 32 variables, 512 nodes, 64 patches.
fn largest(random: &mut Random) -> Parts {
    let mut program = Program::new(vec![NUMBER; 32]);
    let read = program.add(3, random.below(32) as u8, 0, &[]);
    let mut row = vec![program.add(17, random.below(32) as u8, 0, &[read])];
    row.extend((1..256).map(|_| program.add(16, 0, 0, &[])));
    while row.len() > 1 {
        let pairs = row.chunks_exact(2);
        row = pairs.map(|pair| program.add(18, 0, 0, pair)).collect();
    }
    let list = |random: &mut Random| (0..32).map(|_| random.between(-9, 9)).collect();
    Parts {
        table: program.table(&program.in_order()),
        limit: 600,
        inputs: list(random),
        lists: (0..64).map(|_| list(random)).collect(),
    }
}

// A session of a table that is odd in its whole.
fn odd(random: &mut Random) -> Parts {
    let table = odd_table(random);
    let variables = table[4] as usize;
    Parts {
        table,
        limit: 9,
        inputs: vec![0; variables],
        lists: vec![vec![0; variables]; random.below(3)],
    }
}

// The bytes of a session, damaged in one way.
fn damage(random: &mut Random, whole: &Parts) -> Vec<u8> {
    let mut bytes = whole.bytes();
    match random.below(12) {
        0 | 1 => bytes.truncate(random.below(bytes.len())),
        2 => bytes.truncate(random.below(9)),
        3 | 4 => header_field(random, &mut bytes),
        5..=7 => bytes = spoilt_table(random, whole),
        8 => bytes.extend(vec![
            random.below(256) as u8;
            random.between(1, 17) as usize
        ]),
        9 => bytes[6] = random.pick(&[0, 1, 2, 3, 63, 64, 65, 255]),
        10 => bytes = noise(random),
        _ => bytes = large(random),
    }
    bytes
}

// Change a byte or a field of a session's header.
fn header_field(random: &mut Random, bytes: &mut [u8]) {
    let at = random.below(8);
    if random.chance(50) {
        bytes[at] = bytes[at].wrapping_add(random.pick(&[1, 255, 128, 7]));
        return;
    }
    let value: u16 = random.pick(&[0, 7, 8, 9, 64, 65, 256, 65_527, 65_528, 65_535]);
    let at = 2 * random.below(4);
    bytes[at..at + 2].copy_from_slice(&value.to_le_bytes());
}

// A session with a spoilt table, whose length the header has or has not.
fn spoilt_table(random: &mut Random, whole: &Parts) -> Vec<u8> {
    let mut table = whole.table.clone();
    damage_table(random, &mut table);
    let mut bytes =
        listing::session(&table, whole.limit, &whole.inputs, &whole.lists).unwrap_or_default();
    if random.chance(20) {
        bytes[2..6].copy_from_slice(&whole.bytes()[2..6]);
    }
    bytes
}

// Some bytes of no session, or of a session with a right header.
fn noise(random: &mut Random) -> Vec<u8> {
    let most = random.pick(&[1, 8, 30, 300, 3000]);
    let length = random.below(most + 1);
    let mut bytes: Vec<u8> = (0..length).map(|_| random.below(256) as u8).collect();
    if bytes.len() >= 8 && random.chance(70) {
        let table = random.below(bytes.len() - 7);
        right_header(&mut bytes, table, random.below(66));
    }
    bytes
}

// An input larger than any legal session, with the table's length at its ends.
fn large(random: &mut Random) -> Vec<u8> {
    let length = random.pick(&[20_801, 65_534, 65_535, 65_536, 65_537, 100_000, 1 << 20]);
    let types = random_types(random);
    let program = random_program(random, types, 9);
    let table = program.table(&program.in_order());
    let mut bytes = vec![0; 8];
    bytes.extend_from_slice(&table);
    bytes.resize(length, random.below(3) as u8);
    let table = random.pick(&[table.len(), table.len(), 4_145, 65_526, 65_527]);
    right_header(&mut bytes, table, random.below(65));
    bytes
}

// Set a session's header.
fn right_header(bytes: &mut [u8], table: usize, patches: usize) {
    for (at, field) in [8, table, 8 + table, patches].into_iter().enumerate() {
        bytes[2 * at..2 * at + 2].copy_from_slice(&(field as u16).to_le_bytes());
    }
}

// How what a program wrote differs from a listing, if it does.
pub fn difference(listing: &[u8], written: &[u8]) -> Option<String> {
    if listing == written {
        return None;
    }
    let (right, wrong) = (
        String::from_utf8_lossy(listing),
        String::from_utf8_lossy(written),
    );
    for (at, line) in right.lines().enumerate() {
        let other = wrong.lines().nth(at).unwrap_or("nothing");
        if line != other {
            return Some(format!("line {}: `{line:.60}`, here `{other:.60}`", at + 1));
        }
    }
    let (right, wrong) = (listing.len(), written.len());
    Some(format!("{right} bytes, here {wrong}"))
}

// Hold a program to listings, some at a time; gives what differs, by the session's place.
fn differences(
    listings: &[(&[u8], Vec<u8>)],
    program: &Path,
) -> Result<Vec<(usize, String)>, String> {
    let workers = std::thread::available_parallelism().map_or(1, |many| many.get());
    let share = listings.len().div_ceil(workers).max(1);
    let one = |bytes: &[u8], listing: &[u8]| {
        let output = ran(program, bytes.to_vec())?;
        if !output.status.success() {
            return Ok(Some(format!("the program ended with {}", output.status)));
        }
        Ok::<_, String>(difference(listing, &output.stdout))
    };
    let some = |first: usize, part: &[(&[u8], Vec<u8>)]| {
        let mut wrong = Vec::new();
        for (at, (bytes, listing)) in part.iter().enumerate() {
            wrong.extend(one(bytes, listing)?.map(|how| (first + at, how)));
        }
        Ok::<_, String>(wrong)
    };
    std::thread::scope(|scope| {
        let parts = listings.chunks(share).enumerate();
        let started: Vec<_> = parts
            .map(|(at, part)| scope.spawn(move || some(at * share, part)))
            .collect();
        let mut wrong = Vec::new();
        for worker in started {
            wrong.extend(worker.join().map_err(|_| "a worker failed".to_string())??);
        }
        Ok(wrong)
    })
}

// Hold the interpreter and a program to stored sessions; gives the exit status.
pub fn hold_stored(stored: &[Stored], program: &Path) -> Result<i32, String> {
    let mut wrong = Vec::new();
    for session in stored {
        let how = difference(&session.listing, &listing(&session.bytes));
        wrong.extend(how.map(|how| format!("{}, by the interpreter: {how}", session.name)));
    }
    let listings: Vec<_> = stored
        .iter()
        .map(|session| (session.bytes.as_slice(), session.listing.clone()))
        .collect();
    for (at, how) in differences(&listings, program)? {
        wrong.push(format!("{}: {how}", stored[at].name));
    }
    Ok(told(&wrong, stored.len(), "stored"))
}

// Hold a program to the interpreter's listings of generated sessions; gives the exit status.
pub fn hold_generated(made: &[Made], program: &Path) -> Result<i32, String> {
    let listings: Vec<_> = made
        .iter()
        .map(|made| (made.bytes.as_slice(), listing(&made.bytes)))
        .collect();
    let mut wrong = Vec::new();
    for (at, how) in differences(&listings, program)? {
        let hex = hex_of_bytes(&made[at].bytes);
        wrong.push(format!("session {at}: {how}: {hex:.400}"));
    }
    println!("{}", tally(made, &listings));
    Ok(told(&wrong, made.len(), "generated"))
}

// What sessions and their listings cover, in a line.
fn tally(made: &[Made], listings: &[(&[u8], Vec<u8>)]) -> String {
    let text: Vec<_> = listings
        .iter()
        .map(|(_, lines)| String::from_utf8_lossy(lines))
        .collect();
    let lines = |wanted: &str| {
        text.iter()
            .flat_map(|text| text.lines())
            .filter(|line| *line == wanted)
            .count()
    };
    let mut covered = format!(
        "{} damaged, {} lines, {} of a refused session; refusals",
        made.iter().filter(|made| made.damaged).count(),
        text.iter().map(|text| text.lines().count()).sum::<usize>(),
        lines("session refused"),
    );
    for number in 1..=12 {
        let count = lines(&format!("run {number}")) + lines(&format!("patch {number}"));
        covered += &format!(" {number}:{count}");
    }
    covered
}

// Say what differs, and how many sessions hold; gives the exit status.
fn told(wrong: &[String], count: usize, sort: &str) -> i32 {
    for line in wrong.iter().take(SHOWN) {
        println!("{line}");
    }
    if wrong.is_empty() && count > 0 {
        println!("listings: {count} {sort} sessions hold of patchlist");
        return 0;
    }
    println!(
        "listings: {} of {count} {sort} sessions differ",
        wrong.len()
    );
    1
}
