//! Refusals: one number and one place.

use std::fmt;

pub const FILE_TOO_LONG: u8 = 1;
pub const FIELD_CUT_SHORT: u8 = 2;
pub const WRONG_KEYWORD: u8 = 3;
pub const WRONG_VERSION: u8 = 4;
pub const ZERO_COUNT: u8 = 5;
pub const UNKNOWN_VALUE: u8 = 6;
pub const DUPLICATE: u8 = 7;
pub const TOO_MANY_INSTANCES: u8 = 8;
pub const BAD_EXPRESSION: u8 = 9;
pub const BIT_TOO_HIGH: u8 = 10;
pub const BYTES_AFTER_END: u8 = 11;
pub const ABSENT: u8 = 12;
pub const UNFIT_REGISTER: u8 = 13;
pub const CYCLE: u8 = 14;
pub const UNKNOWN_ATTENTION: u8 = 15;
pub const NO_ROOT: u8 = 16;
pub const READINGS_DO_NOT_FIT: u8 = 17;
pub const REGISTER_UNREAD: u8 = 18;
pub const NO_ROOM: u8 = 19;
pub const BOARD_DOES_NOT_ADD_UP: u8 = 20;
pub const RECORD_NOT_ALLOWED: u8 = 40;
pub const OUTPUT_TOO_SHORT: u8 = 41;

/// Why a call gave no answer. The place is a byte offset in the file, or 0; for
/// [`NO_ROOM`] the number of records needed; for [`RECORD_NOT_ALLOWED`] a byte
/// offset in the records; for [`OUTPUT_TOO_SHORT`] the number of bytes needed.
#[derive(Clone, Copy, Debug, PartialEq, Eq)]
pub struct Refusal {
    pub number: u8,
    pub place: usize,
}

impl Refusal {
    pub fn new(number: u8, place: usize) -> Self {
        Refusal { number, place }
    }
}

impl fmt::Display for Refusal {
    fn fmt(&self, f: &mut fmt::Formatter<'_>) -> fmt::Result {
        write!(f, "refused {} {}", self.number, self.place)
    }
}

impl std::error::Error for Refusal {}
