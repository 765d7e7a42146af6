//! Values and changes (document 01, "Values and changes").

/// The lowest number.
pub const LOW: i64 = -2_147_483_648;
/// The highest number.
pub const HIGH: i64 = 2_147_483_647;
/// The type byte of a number variable.
pub const NUMBER: u8 = 0;
/// The type byte of a truth variable.
pub const TRUTH: u8 = 1;
/// The highest fuel limit, and the highest steps word of an entry.
pub const MOST_STEPS: i64 = 1_000_000;

// Whether a word is a number ("Values and changes").
#[inline]
pub fn is_number(word: i64) -> bool {
    (LOW..=HIGH).contains(&word)
}

// Whether a word is a value of a type ("Values and changes").
#[inline]
pub fn in_type(word: i64, kind: u8) -> bool {
    if kind == NUMBER {
        is_number(word)
    } else {
        word == 0 || word == 1
    }
}

// A value of its type with its change, if that is a value of the type again
// ("Values and changes"). The change is one that a walk can hold, so that
// the sum is far from the ends of 64 bits.
#[inline]
pub fn plus(word: i64, change: i64, kind: u8) -> Option<i64> {
    if kind == NUMBER {
        let sum = word + change;
        if is_number(sum) {
            Some(sum)
        } else {
            None
        }
    } else {
        Some(word ^ change)
    }
}

// The change from an old to a new value; between truths 1 when they differ
// ("Patching", the paragraph on operators).
#[inline]
pub fn minus(new: i64, old: i64, kind: u8) -> i64 {
    if kind == NUMBER {
        new - old
    } else {
        new ^ old
    }
}

// The result of operator 4 to 8 on two numbers, if it is a value in range
// ("Program table", "Refusal numbers" 8).
#[inline]
pub fn operate(kind: u8, left: i64, right: i64) -> Option<i64> {
    let result = match kind {
        4 => left + right,
        5 => left - right,
        6 => left * right,
        7 => (left > right) as i64,
        _ => (left == right) as i64,
    };
    if is_number(result) {
        Some(result)
    } else {
        None
    }
}
