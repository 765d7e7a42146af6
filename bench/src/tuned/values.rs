//! Numbers, truths and operators (document 01, "Values and changes").

/// The highest fuel limit, and the highest steps word of an entry.
pub const MOST_STEPS: i64 = 1_000_000;

/// Whether a word is a number.
#[inline(always)]
pub fn is_number(word: i64) -> bool {
    word as i32 as i64 == word
}

/// Words that should all be numbers; only at the end one asks whether they were.
#[derive(Default)]
pub struct Numbers(u64);

impl Numbers {
    #[inline(always)]
    pub fn note(&mut self, word: i64) {
        self.0 |= word.wrapping_sub(i32::MIN as i64) as u64;
    }

    #[inline(always)]
    pub fn all(&self) -> bool {
        self.0 >> 32 == 0
    }
}

/// A variable's type, as its least value, how far the greatest lies from it, and the bits that a sum or a difference keeps: a truth
/// flips where a number moves.
#[derive(Clone, Copy)]
pub struct Type {
    least: i64,
    span: u64,
    bits: i64,
}

pub const NUMBER: Type = Type { least: i32::MIN as i64, span: u32::MAX as u64, bits: -1 };
pub const TRUTH: Type = Type { least: 0, span: 1, bits: 1 };

impl Type {
    #[inline(always)]
    pub fn holds(&self, word: i64) -> bool {
        word.wrapping_sub(self.least) as u64 <= self.span
    }

    /// Whether a list may hold a change, as far as the type alone tells.
    pub fn changes_by(&self, change: i64) -> bool {
        if self.bits == 1 {
            self.holds(change)
        } else {
            change.unsigned_abs() <= self.span
        }
    }

    /// A value with its change; it may lie outside the type.
    #[inline(always)]
    pub fn plus(&self, value: i64, change: i64) -> i64 {
        value.wrapping_add(change) & self.bits
    }

    /// The change from an old value to a new one.
    #[inline(always)]
    pub fn minus(&self, new: i64, old: i64) -> i64 {
        new.wrapping_sub(old) & self.bits
    }
}

#[derive(Clone, Copy)]
pub enum Operator {
    Add,
    Subtract,
    Multiply,
    Greater,
    Equal,
}

impl Operator {
    /// The result, which may be no number. It wraps, since a broken record's operands may be any words.
    #[inline(always)]
    pub fn of(self, left: i64, right: i64) -> i64 {
        match self {
            Operator::Add => left.wrapping_add(right),
            Operator::Subtract => left.wrapping_sub(right),
            Operator::Multiply => left.wrapping_mul(right),
            Operator::Greater => (left > right) as i64,
            Operator::Equal => (left == right) as i64,
        }
    }

    /// The change from an old result to a new one.
    #[inline(always)]
    pub fn change(self, new: i64, old: i64) -> i64 {
        match self {
            Operator::Greater | Operator::Equal => new ^ old,
            _ => new.wrapping_sub(old),
        }
    }
}
