//! The version that a studio would write by hand: the same calls, answers and records as the library, made fast, and no proofs. A call
//! checks and decodes its table once; statements then are a flat list with a mask of mentioned variables each, and expressions lists of
//! operations on slots. It is held to the interpreter word for word (tests/tuned.rs, and in each round of the benchmark).
pub mod answer;

mod amend;
mod decode;
mod patch;
mod plain;
mod program;
mod room;
mod run;
mod snapshot;
mod values;

use answer::{Refusal, Words};
use decode::decode;
use program::{Program, Slots};
use values::MOST_STEPS;

/// The number of a table: 0, or its refusal 1 to 5.
pub fn check(table: &[u8]) -> i64 {
    decode(table).err().map_or(0, |refusal| refusal as i64)
}

/// A run without a record: steps and values as of `run`, no length.
pub fn plain(table: &[u8], inputs: &[i64], limit: i64) -> Words {
    let answer = started(table, inputs, limit).and_then(|(program, slots)| plain::plain(&program, slots, limit));
    answer.unwrap_or_else(Refusal::words)
}

/// A run that leaves its record in the room.
pub fn run(table: &[u8], inputs: &[i64], limit: i64, room: &mut [i64]) -> Words {
    let answer = started(table, inputs, limit).and_then(|(program, slots)| run::run(&program, slots, inputs, limit, room));
    answer.unwrap_or_else(|refusal| cleared(refusal, room))
}

/// A patch of an old record, which leaves the new one in the room.
pub fn patch(table: &[u8], old: &[i64], changes: &[i64], room: &mut [i64]) -> Words {
    let answer = decode(table).and_then(|program| patch::patch(&program, old, changes, room));
    answer.unwrap_or_else(|refusal| cleared(refusal, room))
}

/// What a run starts with, or its refusals 1 to 7.
fn started(table: &[u8], inputs: &[i64], limit: i64) -> Result<(Program, Box<Slots>), Refusal> {
    let program = decode(table)?;
    let slots = program.start(inputs).ok_or(Refusal::Inputs)?;
    if !(1..=MOST_STEPS).contains(&limit) {
        return Err(Refusal::Limit);
    }
    Ok((program, slots))
}

fn cleared(refusal: Refusal, room: &mut [i64]) -> Words {
    room.fill(0);
    refusal.words()
}
