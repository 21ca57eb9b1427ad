//! Why and where something is refused.

use std::fmt;

/// A row of the table of refusals. The names are those of `crates/model/src/lib.rt`, the codes those of `include/felknost.h`.
#[derive(Clone, Copy, Debug, PartialEq, Eq)]
#[repr(u8)]
pub enum Row {
    /// The text has more than 32,768 bytes.
    TextTooLong = 1,
    /// A line of no form that is allowed there, a missing line, or no line feed at its end. A text of no byte misses no line.
    Form = 2,
    /// The cache size is outside 1 to 64.
    StackSize = 3,
    /// A frame is larger than the cache.
    FrameSize = 4,
    /// An offset is not below its frame.
    Offset = 5,
    /// The first function or the first point too many.
    TooMany = 6,
    /// A call of a function that is not a later one, or does not exist.
    Callee = 7,
    /// A call with no ensure after it, an ensure with no call before it, or one whose number is not the frame.
    Pairing = 8,
    /// A target that is no point of the function, or is an ensure.
    Target = 9,
    /// The last point of a function is no goto, either or return.
    LastPoint = 10,
    /// A point that no walk from point 0 reaches.
    Unreachable = 11,
    /// A function that is never called, function 0 excepted.
    Uncalled = 12,
    /// A load that some walk from point 0 reaches with no store of its offset.
    Uninitialised = 13,
    /// The output is shorter than what is to be written; the place is the length wanted.
    OutputTooSmall = 14,
    /// The working space has fewer than 16,384 numbers; the place is that number.
    WorkTooSmall = 15,
    /// The event list is odd or too long; the place is 0.
    EventList = 16,
    /// Fewer answers than events; the place is the number of events.
    AnswersTooSmall = 17,
    /// The cache does not have the length that the task states, which is the place. A text of no byte states none.
    CacheSize = 18,
    /// The memory is shorter than the deepest stack, which is the place. A text of no byte has no stack.
    MemoryTooSmall = 19,
    /// An event of unknown kind; the place is the event.
    Kind = 20,
    /// A step at an either with a value that is not 0 or 1; the place is the event.
    Choice = 21,
    /// An event after the finish; the place is the event. A text of no byte has finished before event 0.
    AfterFinish = 22,
    /// A start above 255, or a price of a block that is 0 or above 255; the place is 0.
    PriceRange = 23,
}

impl Row {
    /// All rows, by code.
    pub const ALL: [Row; 23] = [
        Row::TextTooLong,
        Row::Form,
        Row::StackSize,
        Row::FrameSize,
        Row::Offset,
        Row::TooMany,
        Row::Callee,
        Row::Pairing,
        Row::Target,
        Row::LastPoint,
        Row::Unreachable,
        Row::Uncalled,
        Row::Uninitialised,
        Row::OutputTooSmall,
        Row::WorkTooSmall,
        Row::EventList,
        Row::AnswersTooSmall,
        Row::CacheSize,
        Row::MemoryTooSmall,
        Row::Kind,
        Row::Choice,
        Row::AfterFinish,
        Row::PriceRange,
    ];

    /// The code of the row.
    pub const fn code(self) -> u32 {
        self as u32
    }
}

/// Why and where something is refused.
#[derive(Clone, Copy, Debug, PartialEq, Eq)]
pub struct Refusal {
    /// The row that is met.
    pub row: Row,
    /// The place that the row names: a line, counted from 1; an event, counted from 0; a number that would do; or 0.
    pub place: u32,
}

impl Refusal {
    /// What a code and a place stand for. Code 0 is acceptance, and no other code than those of the table is returned.
    pub(crate) fn of(code: u32, place: u32) -> Result<(), Refusal> {
        let Some(index) = code.checked_sub(1) else {
            return Ok(());
        };
        let row = Row::ALL[index as usize];
        Err(Refusal { row, place })
    }
}

impl fmt::Display for Refusal {
    fn fmt(&self, out: &mut fmt::Formatter) -> fmt::Result {
        write!(out, "(refused {} {})", self.row.code(), self.place)
    }
}

impl std::error::Error for Refusal {}
