//! The refusal numbers of document 01's table "Refused" and of the requests.

/// Nothing was refused.
pub const ACCEPTED: u8 = 0;
/// A setting is outside its range.
pub const SETTING_RANGE: u8 = 1;
/// The list share p (`phi`) is below the leeway e (`epsilon`).
pub const PHI_BELOW_EPSILON: u8 = 2;
/// Slots times leeway, c × e, are below 6000.
pub const TOO_FEW_COUNTERS: u8 = 3;
/// Lent memory is shorter than the settings ask for.
pub const SHORT_MEMORY: u8 = 4;
/// A deck (`site`) is not below k.
pub const UNKNOWN_SITE: u8 = 5;
/// A code (`item`) is not below u.
pub const UNKNOWN_ITEM: u8 = 6;
/// A class (`value`) is above 1023.
pub const UNKNOWN_VALUE: u8 = 7;
/// The deck (`site`) has taken all the draws it may.
pub const SITE_FULL: u8 = 8;
/// The message's kind is unknown or not due, or no kind 7 is to be had.
pub const MESSAGE_NOT_DUE: u8 = 9;
/// The message's amount is not due.
pub const AMOUNT_NOT_DUE: u8 = 10;
/// Memory or record is inconsistent.
pub const INCONSISTENT: u8 = 11;
/// The list has fewer places than codes (`item`s) listed.
pub const SHORT_LIST: u8 = 12;
/// A line is malformed.
pub const MALFORMED_LINE: u8 = 13;
/// The log lacks the free records that one draw may need.
pub const SHORT_LOG: u8 = 14;
/// A file is too short for settings and trailer, or of an unknown width, or it
/// is not laid out as its settings ask (request N3).
pub const MALFORMED_FILE: u8 = 15;
/// A file's sum is not the one its trailer gives (request N3).
pub const SUM_DIFFERS: u8 = 16;

/// The first refusal of two tests. The second is made only where the first
/// refuses nothing, since it may rely on that.
pub(crate) fn first_of(first: u8, second: impl FnOnce() -> u8) -> u8 {
    if first == ACCEPTED {
        second()
    } else {
        first
    }
}

/// A refusal as an error, so that `?` stops at it.
pub(crate) fn check(refusal: u8) -> Result<(), u8> {
    if refusal == ACCEPTED {
        Ok(())
    } else {
        Err(refusal)
    }
}
