//! What a call answers: the 72 words of include/simazokwa.h, or a refusal.

/// An answer's words, laid out as the library's.
pub type Words = [i64; 72];

pub const STEPS: usize = 2;
pub const WALKED: usize = 3;
pub const REUSED: usize = 4;
pub const FRESH: usize = 5;
pub const LENGTH: usize = 6;
pub const VALUES: usize = 8;
pub const CHANGES: usize = 40;

/// Why a call is refused (document 01, "Refusal numbers").
#[derive(Clone, Copy, Debug, PartialEq, Eq)]
#[repr(i64)]
pub enum Refusal {
    Header = 1,
    Type = 2,
    Node = 3,
    Use = 4,
    Depth = 5,
    Inputs = 6,
    Limit = 7,
    Range = 8,
    Fuel = 9,
    Room = 10,
    Changes = 11,
    Broken = 12,
}

impl Refusal {
    /// The answer of a refused call: its number, and all else zero.
    pub fn words(self) -> Words {
        let mut words = [0; 72];
        words[0] = self as i64;
        words
    }
}
