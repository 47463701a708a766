//! The answer numbers, one for each row of the paper's table, by the names that the crates have for them.

pub const DONE: u8 = 0;
pub const UNSOUND_STATE: u8 = 1;
pub const NO_SUCH_SERVER: u8 = 2;
pub const SHORT_MESSAGE: u8 = 3;
pub const OTHER_VERSION: u8 = 4;
pub const LENGTH_DIFFERS: u8 = 5;
pub const OTHER_SESSION: u8 = 6;
pub const MESSAGE_NOT_ACCEPTED: u8 = 7;
pub const BODY_LENGTH_WRONG: u8 = 8;
pub const OUT_OF_TURN: u8 = 9;
pub const OTHER_CONFIGURATION: u8 = 10;
pub const DSN_NOT_ACKNOWLEDGEABLE: u8 = 11;
pub const OUTPUT_TOO_SHORT: u8 = 12;
pub const NO_ACTIVE_SERVER: u8 = 13;
pub const NOTHING_TO_SEND: u8 = 14;
pub const TEMPLATE_NOT_FOUND: u8 = 15;
pub const RECORD_INVALID: u8 = 16;
pub const RECORD_TOO_LONG: u8 = 17;
pub const QUEUE_FULL: u8 = 18;
pub const STORE_FULL: u8 = 19;
pub const SETTINGS_OUTSIDE_LIMITS: u8 = 20;
pub const UNSOUND_TABLE: u8 = 21;
pub const UNSOUND_TAPE: u8 = 22;
