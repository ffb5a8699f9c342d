//! The numbers of document 01, "Refusals and what they return", those of wishes 1, 3 and 4, and one
//! that is the library's own.

/// Why a ticket, a file, a job, a list of jobs or a question about a pixel is refused. The place is
/// a byte of the ticket for numbers 1 to 9, a box number for 14, a byte of the file for 15 to 17,
/// the numbers needed for 100, and 0 for the rest.
#[derive(Clone, Copy, Debug, PartialEq, Eq)]
pub struct Refusal {
    pub number: u8,
    pub place: u64,
}

/// The number in the answer of a job or a ticket that is not refused.
pub const NONE: u8 = 0;

pub const TICKET_ENDS: u8 = 1;
pub const WRONG_TAG: u8 = 2;
pub const WRONG_LENGTH: u8 = 3;
pub const UNKNOWN_WORD: u8 = 4;
pub const BOX_65: u8 = 5;
pub const VECTOR: u8 = 6;
pub const SEGMENT_LENGTH: u8 = 7;
pub const ORIGIN: u8 = 8;
pub const PHASE: u8 = 9;
pub const BEYOND_LIMITS: u8 = 10;
pub const SOURCE_DOES_NOT_FIT: u8 = 11;
pub const OUTPUT_DOES_NOT_FIT: u8 = 12;
pub const SCRATCH_TOO_SHORT: u8 = 13;
pub const BOX_OFF_PAGE: u8 = 14;
pub const HEADER: u8 = 15;
pub const MAXIMUM: u8 = 16;
pub const PIXELS: u8 = 17;
pub const TOO_MANY_JOBS: u8 = 18;
pub const PIXEL_OFF_PAGE: u8 = 19;
/// In no document: a lent buffer of numbers is too short.
pub const NUMBERS_TOO_FEW: u8 = 100;

/// The refusal, unless what it asks for holds.
pub fn unless(holds: bool, number: u8, place: u64) -> Result<(), Refusal> {
    if holds {
        Ok(())
    } else {
        Err(Refusal { number, place })
    }
}
