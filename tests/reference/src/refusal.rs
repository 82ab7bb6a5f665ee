//! The numbers of the refusals, as the table has them. Number 5 is withdrawn and not used again.

pub const NOT_SOUND: u32 = 1;
pub const FULL: u32 = 2;
pub const OUT_OF_RANGE: u32 = 3;
pub const REPEATED: u32 = 4;
pub const NO_DART: u32 = 6;
pub const BAD_FILE: u32 = 7;
pub const BAD_LINE: u32 = 8;
pub const LONG_TEXT: u32 = 9;
pub const SHORT_LIST: u32 = 10;
pub const BAD_OUTLINE: u32 = 11;
pub const NO_SURVEY: u32 = 12;
