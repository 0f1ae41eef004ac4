//! The documents' refusals by their words.
pub const BAD_HEAD: u32 = 1;
pub const BAD_WORD: u32 = 2;
pub const NO_STREAM: u32 = 3;
pub const NO_RESET: u32 = 4;
pub const BACKWARD: u32 = 5;
pub const CROSSED: u32 = 6;
pub const TOO_DEEP: u32 = 7;
pub const OPEN_TEXT: u32 = 8;
pub const NO_COUNT: u32 = 9;
pub const RING: u32 = 10;
pub const TOO_TALL: u32 = 11;
pub const NO_SUCH_CHUNK: u32 = 12;
pub const SHORT_TRAY: u32 = 13;
pub const UNFIT_PART: u32 = 14;
pub const STRAY_BREAK: u32 = 15;
pub const UNSURE_COUNT: u32 = 16;
