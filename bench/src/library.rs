//! The library, as C calls it.
use bench::tuned::answer::Words;

#[link(name = "simazokwa", kind = "static")]
extern "C" {
    fn simazokwa_check(table: *const u8, bytes: usize) -> u32;
    fn simazokwa_run(
        table: *const u8,
        bytes: usize,
        inputs: *const i64,
        count: usize,
        limit: i64,
        answer: *mut i64,
        record: *mut i64,
        room: usize,
    ) -> u32;
    fn simazokwa_patch(
        table: *const u8,
        bytes: usize,
        old: *const i64,
        words: usize,
        changes: *const i64,
        count: usize,
        answer: *mut i64,
        record: *mut i64,
        room: usize,
    ) -> u32;
}

// Each pointer comes from a slice with its length, the answer has its 72 words, and what is written is borrowed alone: all that
// include/simazokwa.h asks.

pub fn check(table: &[u8]) -> i64 {
    unsafe { simazokwa_check(table.as_ptr(), table.len()) as i64 }
}

pub fn run(table: &[u8], inputs: &[i64], limit: i64, room: &mut [i64]) -> Words {
    let mut answer = [0; 72];
    let (record, words) = (room.as_mut_ptr(), room.len());
    unsafe { simazokwa_run(table.as_ptr(), table.len(), inputs.as_ptr(), inputs.len(), limit, answer.as_mut_ptr(), record, words) };
    answer
}

pub fn patch(table: &[u8], old: &[i64], changes: &[i64], room: &mut [i64]) -> Words {
    let mut answer = [0; 72];
    let (table, bytes, record, words) = (table.as_ptr(), table.len(), room.as_mut_ptr(), room.len());
    let (list, count) = (changes.as_ptr(), changes.len());
    unsafe { simazokwa_patch(table, bytes, old.as_ptr(), old.len(), list, count, answer.as_mut_ptr(), record, words) };
    answer
}
