//! The numbers of refusal, as include/bhedhmurali.h names them.

/// A line breaks the rule for lines.
pub const BAD_LINE: u8 = 1;
/// Kind, length, missing or extra line.
pub const OTHER_LINE_DUE: u8 = 2;
/// A head's number is outside its limits.
pub const NUMBER_OUTSIDE: u8 = 3;
/// Operand not lower, or output no gate.
pub const NOT_LOWER: u8 = 4;
/// Operands or cells out of order, or twice.
pub const NOT_ASCENDING: u8 = 5;
/// A gate is neither read nor an output.
pub const UNREAD_GATE: u8 = 6;
/// Twin gates or twin outputs.
pub const TWIN: u8 = 7;
/// Row size asked for is outside 2 to 256.
pub const ROW_SIZE: u8 = 8;
/// No room in the row.
pub const NO_ROOM: u8 = 9;
/// The lent output buffer is too short.
pub const SHORT_BUFFER: u8 = 10;
/// Heads disagree on inputs or outputs.
pub const HEADS_DISAGREE: u8 = 11;
/// A cell is at or past the row size.
pub const CELL_PAST_ROW: u8 = 12;
/// An input cell is set or written.
pub const INPUT_CELL: u8 = 13;
/// The written cell is not ready.
pub const NOT_READY: u8 = 14;
/// Operands hold no signal or match no gate.
pub const NO_SUCH_GATE: u8 = 15;
/// A place's cell doesn't hold its output.
pub const WRONG_PLACE: u8 = 16;
/// Wrong length, or a byte not 0 or 1.
pub const NOT_BITS: u8 = 17;
