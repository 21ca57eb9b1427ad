//! The rows of the refusal table, and a refusal: a row and a place.

use std::fmt;

/// A row of the refusal table; the value of a variant is its code.
#[derive(Clone, Copy, Debug, PartialEq, Eq, PartialOrd, Ord)]
#[repr(u8)]
pub enum Row {
    /// The text has more bytes than allowed.
    TextTooLong = 1,
    /// A line has no form allowed at its position, or is missing, or has no line feed. No line is
    /// missing in a text of no byte.
    Form = 2,
    /// The number of cache blocks is outside its range.
    StackSize = 3,
    /// A frame is larger than the cache.
    FrameSize = 4,
    /// An offset lies outside its frame.
    Offset = 5,
    /// One function or one point more than allowed.
    TooMany = 6,
    /// A call of a function that is not a later one of the text.
    Callee = 7,
    /// A call and an ensure that do not belong together, or a wrong number in the ensure.
    Pairing = 8,
    /// A jump to a point that does not exist or to an ensure.
    Target = 9,
    /// The last point of a function leads past its end.
    LastPoint = 10,
    /// A point that is not reachable from point 0.
    Unreachable = 11,
    /// A function that no point calls.
    Uncalled = 12,
    /// A load that may happen before any store of its offset.
    Uninitialised = 13,
    /// The output is too short for what is printed.
    OutputTooSmall = 14,
    /// The working space is too short.
    WorkTooSmall = 15,
    /// The event list is odd or too long.
    EventList = 16,
    /// Fewer answers than events.
    AnswersTooSmall = 17,
    /// The cache does not have the length that the task states.
    CacheSize = 18,
    /// The memory does not hold the deepest stack.
    MemoryTooSmall = 19,
    /// An event of unknown kind.
    Kind = 20,
    /// A step at an either with a value that selects no branch.
    Choice = 21,
    /// An event after the task has finished.
    AfterFinish = 22,
    /// A start or a price of a block outside its range.
    PriceRange = 23,
}

impl Row {
    /// All rows, by code.
    pub const ALL: [Row; 23] = [
        Row::TextTooLong,
        Row::Form,
        Row::StackSize,
        Row::FrameSize,
        Row::Offset,
        Row::TooMany,
        Row::Callee,
        Row::Pairing,
        Row::Target,
        Row::LastPoint,
        Row::Unreachable,
        Row::Uncalled,
        Row::Uninitialised,
        Row::OutputTooSmall,
        Row::WorkTooSmall,
        Row::EventList,
        Row::AnswersTooSmall,
        Row::CacheSize,
        Row::MemoryTooSmall,
        Row::Kind,
        Row::Choice,
        Row::AfterFinish,
        Row::PriceRange,
    ];

    /// The code of the row.
    pub const fn code(self) -> u32 {
        self as u32
    }

    /// The refusal of this row at `place`.
    pub const fn at(self, place: u32) -> Refusal {
        Refusal { row: self, place }
    }
}

/// Why and where something is refused.
#[derive(Clone, Copy, Debug, PartialEq, Eq)]
pub struct Refusal {
    /// The row that is met.
    pub row: Row,
    /// The line, event or number that the row names.
    pub place: u32,
}

impl Refusal {
    /// Code and place as the single number given to callers from C.
    pub const fn packed(self) -> u32 {
        self.row.code() * 65_536 + self.place
    }
}

impl fmt::Display for Refusal {
    fn fmt(&self, out: &mut fmt::Formatter) -> fmt::Result {
        write!(out, "(refused {} {})", self.row.code(), self.place)
    }
}

impl std::error::Error for Refusal {}

/// Acceptance, or the refusal.
pub type Verdict = Result<(), Refusal>;

/// Code and place as numbers, both 0 for acceptance.
pub fn code_and_place(verdict: Verdict) -> (u32, u32) {
    match verdict {
        Ok(()) => (0, 0),
        Err(refusal) => (refusal.row.code(), refusal.place),
    }
}
