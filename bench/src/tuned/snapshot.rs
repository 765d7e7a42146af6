//! Snapshots in a patch. A test that fails is always refusal 12, so that a loop only notes it and the end asks.
use super::program::{Program, Slots};

/// Whether each word of an old snapshot is of its type.
#[inline(always)]
pub fn typed(program: &Program, mentioned: &[u8], old: &[i64]) -> bool {
    mentioned.iter().zip(old).fold(true, |right, (&variable, &word)| right & program.kind(variable as usize).holds(word))
}

/// Carry an old snapshot's words over with their changes, and to the slots for fresh parts; whether each was and is of its type.
#[inline(always)]
pub fn carried(program: &Program, mentioned: &[u8], changes: &Slots, old: &[i64], new: &mut [i64], slots: &mut Slots) -> bool {
    let mut right = true;
    for ((&variable, &word), to) in mentioned.iter().zip(old).zip(new) {
        let variable = variable as usize;
        let kind = program.kind(variable);
        *to = kind.plus(word, changes[variable]);
        right &= kind.holds(word) & kind.holds(*to);
        slots[variable] = *to;
    }
    right
}

/// The same of a snapshot that was tested before and that no fresh part starts from.
#[inline(always)]
pub fn carried_kept(program: &Program, mentioned: &[u8], changes: &Slots, old: &[i64], new: &mut [i64]) -> bool {
    let mut right = true;
    for ((&variable, &word), to) in mentioned.iter().zip(old).zip(new) {
        let kind = program.kind(variable as usize);
        *to = kind.plus(word, changes[variable as usize]);
        right &= kind.holds(*to);
    }
    right
}
