//! The numbers by which calls decline, and where a reading stopped.

pub const SIZES_OUTSIDE: u32 = 1;
pub const NO_SUCH_PAIR: u32 = 2;
pub const STRUCK_OR_NOT: u32 = 3;
pub const WRONG_CARD_COUNT: u32 = 4;
pub const NO_FIT: u32 = 5;
pub const OTHER_SIZES: u32 = 6;
pub const NO_LAST_ANSWER: u32 = 7;
pub const SHORT_ANSWER_BUFFER: u32 = 8;
pub const NO_PLACEMENT: u32 = 9;
pub const ILL_JOINTS: u32 = 10;
pub const CUT_OFF: u32 = 11;
pub const UNKNOWN_BYTE: u32 = 12;
pub const TABLE_TOO_LARGE: u32 = 13;
pub const MAP_BIT_PAST_ROWS: u32 = 14;
pub const ZERO_ROW: u32 = 15;
pub const ROW_BIT_PAST_COLUMNS: u32 = 16;
pub const BYTES_LEFT: u32 = 17;
pub const SHORT_BUFFER: u32 = 18;

/// The layers that can refuse while bytes are read.
pub const TABLE_LAYER: u32 = 1;
pub const PLAN_LAYER: u32 = 2;
pub const LOOK_OVER_LAYER: u32 = 2;
pub const JOB_LAYER: u32 = 3;

/// A refusal met while reading: its number, whose it is, and where.
#[derive(Clone, Copy, Debug, PartialEq, Eq)]
pub struct Fault {
    pub number: u32,
    pub layer: u32,
    pub place: usize,
}

/// Why a search answered no placement.
#[derive(Clone, Copy, Debug, PartialEq, Eq)]
pub enum Stop {
    Declined(u32),
    /// Refusal 9, which brings its tries.
    NoPlacement {
        tries: u32,
    },
    /// Not a rule: the reference gave up, so there is nothing to compare.
    TooLong,
}
