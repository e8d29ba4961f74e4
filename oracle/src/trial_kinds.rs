//! The kinds of a trial's records, by the names of TRIAL.md.

pub const OPEN: u16 = 1;
pub const MARK: u16 = 2;
pub const ACCESS: u16 = 3;
pub const BREAK: u16 = 4;
pub const FILL: u16 = 5;
pub const READ_CHAIN: u16 = 6;
pub const WRITE_LIST: u16 = 7;
pub const LEND: u16 = 8;
pub const TUPLE_BYTES: u16 = 9;
pub const BODY_BYTES: u16 = 10;
pub const LAST_ENTRY: u16 = 11;
pub const SHOW: u16 = 12;
pub const BUFFER_BYTES: u16 = 13;
pub const WRITE_BACK: u16 = 14;
