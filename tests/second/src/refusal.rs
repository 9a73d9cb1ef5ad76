//! The numbers of refusal.

pub const LINE: u8 = 1;
pub const FRAME: u8 = 2;
pub const NUMBER: u8 = 3;
pub const NOT_LOWER: u8 = 4;
pub const NOT_ASCENDING: u8 = 5;
pub const UNREAD: u8 = 6;
pub const TWIN: u8 = 7;
pub const ROW_SIZE: u8 = 8;
pub const NO_ROOM: u8 = 9;
pub const SHORT_BUFFER: u8 = 10;
pub const HEADS_DISAGREE: u8 = 11;
pub const PAST_ROW: u8 = 12;
pub const INPUT_CELL: u8 = 13;
pub const NOT_READY: u8 = 14;
pub const NO_GATE: u8 = 15;
pub const WRONG_PLACE: u8 = 16;
pub const BAD_SLICE: u8 = 17;
