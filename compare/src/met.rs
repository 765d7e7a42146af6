//! What a patch met on its walk: features, and the test that found a record
//! broken. It says nothing about the answer; cases are counted by it.

use crate::run::Effort;

/// The tests of "Broken (12)", by what they test.
#[derive(Clone, Copy, PartialEq, Eq, Debug)]
#[repr(u8)]
pub enum Site {
    SliceShort,
    LengthShort,
    LengthBeyond,
    HeaderLimit,
    HeaderSteps,
    HeaderInput,
    HeaderOutput,
    EntryShort,
    EntryNode,
    SizeLow,
    SizePast,
    SizeLast,
    EntrySteps,
    NoFit,
    Condition,
    BeforeType,
    BeforeSum,
    AfterType,
    AfterSum,
    CountType,
    CountSum,
    IterationType,
    IterationSum,
    TailPlace,
    TailType,
    LeftType,
    RightType,
    OldResult,
    LeftSum,
    RightSum,
    AssignEnd,
    NoneEnd,
    RepeatEnd,
    Output,
}

/// All tests of "Broken (12)", with their names.
pub const SITES: [(Site, &str); 34] = [
    (Site::SliceShort, "slice under 3+2V words"),
    (Site::LengthShort, "L under 3+2V words"),
    (Site::LengthBeyond, "L beyond the slice"),
    (Site::HeaderLimit, "header limit"),
    (Site::HeaderSteps, "header steps"),
    (Site::HeaderInput, "header input outside its type"),
    (Site::HeaderOutput, "header output outside its type"),
    (Site::EntryShort, "entry: under 3 words left"),
    (Site::EntryNode, "entry: wrong node"),
    (Site::SizeLow, "entry: size under 3"),
    (Site::SizePast, "entry: size past its parent"),
    (Site::SizeLast, "entry: last part with another end"),
    (Site::EntrySteps, "entry: steps"),
    (Site::NoFit, "a word past the entry's end"),
    (Site::Condition, "condition not 0/1"),
    (Site::BeforeType, "snapshot before: type"),
    (Site::BeforeSum, "snapshot before: with its change"),
    (Site::AfterType, "snapshot after: type"),
    (Site::AfterSum, "snapshot after: with its change"),
    (Site::CountType, "count: type"),
    (Site::CountSum, "count: with its change"),
    (Site::IterationType, "iteration snapshot: type"),
    (Site::IterationSum, "iteration snapshot: with its change"),
    (Site::TailPlace, "dropped tail: place"),
    (Site::TailType, "dropped tail: type"),
    (Site::LeftType, "left operand: type"),
    (Site::RightType, "right operand: type"),
    (Site::OldResult, "operator's old result"),
    (Site::LeftSum, "left operand: with its change"),
    (Site::RightSum, "right operand: with its change"),
    (Site::AssignEnd, "end of an assign"),
    (Site::NoneEnd, "end of a repeat of none"),
    (Site::RepeatEnd, "end of a repeat of some"),
    (Site::Output, "outputs plus changes"),
];

/// A condition kept.
pub const KEPT: u32 = 1;
/// A condition flipped.
pub const FLIPPED: u32 = 1 << 1;
/// A repeat of as many iterations as before, one or more.
pub const REPEAT_KEPT: u32 = 1 << 2;
/// A repeat of more iterations than before, one or more before.
pub const REPEAT_GROWN: u32 = 1 << 3;
/// A repeat of fewer iterations than before, one or more now.
pub const REPEAT_SHRUNK: u32 = 1 << 4;
/// A repeat of some iterations and none before.
pub const FROM_NONE: u32 = 1 << 5;
/// A repeat of no iterations and some before.
pub const TO_NONE: u32 = 1 << 6;
/// A walked repeat of no iterations and none before.
pub const NONE_KEPT: u32 = 1 << 7;
/// A repeat walked inside a walked iteration of another.
pub const NESTED: u32 = 1 << 8;
/// A walked repeat with a negative count, old or new.
pub const NEGATIVE: u32 = 1 << 9;
/// An entry copied by the skip rule inside a walked one.
pub const SKIPPED: u32 = 1 << 10;
/// Fresh steps.
pub const FRESH: u32 = 1 << 11;

/// The features of a walk, with their names.
pub const FEATURES: [(u32, &str); 12] = [
    (KEPT, "condition kept"),
    (FLIPPED, "condition flipped"),
    (REPEAT_KEPT, "repeat kept, iterations > 0"),
    (REPEAT_GROWN, "repeat grown, iterations > 0"),
    (REPEAT_SHRUNK, "repeat shrunk, iterations > 0"),
    (FROM_NONE, "repeat grown from none"),
    (TO_NONE, "repeat shrunk to none"),
    (NONE_KEPT, "repeat of none kept"),
    (NESTED, "nested repeats patched"),
    (NEGATIVE, "negative counts"),
    (SKIPPED, "skipped entries"),
    (FRESH, "fresh steps"),
];

/// What a patch met.
#[derive(Clone, Debug, Default)]
pub struct Met {
    pub features: u32,
    pub site: Option<Site>,
    pub effort: Effort,
}

impl Met {
    // Note the test that found the record broken; gives refusal 12.
    #[cold]
    pub fn broken(&mut self, site: Site) -> i64 {
        self.site = Some(site);
        12
    }
}
