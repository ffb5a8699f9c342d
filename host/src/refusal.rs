//! The refusals, each with a sentence for an operator.

use crate::page::Page;
use std::error::Error;
use std::fmt;

/// Why a job, a whole list of jobs or a question about a pixel is refused; the value is the refusal's number.
/// 1 to 25 are kept for the law's refusals, of which later versions may know more: so a `match` needs an arm
/// for those it does not name.
#[non_exhaustive]
#[derive(Clone, Copy, Debug, PartialEq, Eq)]
pub enum Refusal {
    TicketEnds = 1,
    WrongTag = 2,
    WrongLength = 3,
    Unknown = 4,
    TooManyBoxes = 5,
    BadVector = 6,
    BadLength = 7,
    BadOrigin = 8,
    BadPhase = 9,
    BadSides = 10,
    SourceTooShort = 11,
    OutputTooShort = 12,
    ScratchTooShort = 13,
    BadBox = 14,
    BadHeader = 15,
    BadMaximum = 16,
    BadPixel = 17,
    TooManyJobs = 18,
    PixelOffPage = 19,
    NumbersTooFew = 100,
}

use Refusal::*;

/// All of them, in the order of their numbers.
const SENTENCES: [(Refusal, &str); 20] = [
    (TicketEnds, "the ticket ends inside a field, or before one of its first six fields"),
    (WrongTag, "a field has another tag than the one due"),
    (WrongLength, "a field has the wrong length"),
    (Unknown, "the operation or the line is unknown"),
    (TooManyBoxes, "the ticket has more than 64 hidden boxes"),
    (BadVector, "the vector is not allowed"),
    (BadLength, "the segment length is 0 or above 8192"),
    (BadOrigin, "the origin is not below the segment length"),
    (BadPhase, "the phase is not allowed"),
    (BadSides, "a side is not 1 to 8192, or a stride is not from the width to 16384"),
    (SourceTooShort, "the source page does not fit its tray"),
    (OutputTooShort, "the output page does not fit its tray"),
    (ScratchTooShort, "the scratch is too short"),
    (BadBox, "a hidden box has a zero side or passes the page's edge"),
    (
        BadHeader,
        "the file is no raw grey Netpbm file (P5), its header is damaged, or its maximum is 0",
    ),
    (BadMaximum, "the file's maximum is above 255"),
    (BadPixel, "a pixel of the file is above its maximum, or the file has too few pixels"),
    (TooManyJobs, "the list has more than 256 jobs"),
    (PixelOffPage, "the pixel is off the page"),
    (NumbersTooFew, "the buffer of numbers is too short"),
];

/// The refusal of a number, with its sentence.
fn numbered(number: u64) -> Option<(Refusal, &'static str)> {
    SENTENCES.into_iter().find(|(refusal, _)| refusal.number() == number)
}

impl Refusal {
    pub fn number(self) -> u64 {
        self as u64
    }

    /// The refusal in a sentence for an operator. That of a [`Refused`] may say more.
    pub fn sentence(self) -> &'static str {
        numbered(self.number()).expect("every refusal has a sentence").1
    }
}

/// Which rule is broken by a vector that the proved reader refused: so it is the last if it is no other.
/// Each sentence stands whole on one line, so that a search finds it.
fn vector_sentence(dx: i16, dy: i16) -> &'static str {
    // Sizes in more bits: that of -32768 has no place in sixteen.
    let (dx, dy) = (i32::from(dx), i32::from(dy));
    let (dx_size, dy_size) = (dx.abs(), dy.abs());
    if (dx, dy) == (0, 0) {
        "the vector is 0, 0 and has no direction"
    } else if dx_size > 255 || dy_size > 255 {
        "a component of the vector is beyond -255 to 255"
    } else if dx < dy_size && dy <= dx_size {
        "the vector is neither shallow (dx at least the size of dy) nor steep (dy above the size of dx)"
    } else {
        "dx and dy of a connected line have a common divisor above 1"
    }
}

/// Which number is at fault in placements that the library refused: so it is the output's if it is none of
/// the source's.
fn placement_sentence(page: Page) -> &'static str {
    if !(1..=8192).contains(&page.width) {
        "the width is not 1 to 8192"
    } else if !(1..=8192).contains(&page.height) {
        "the height is not 1 to 8192"
    } else if !(page.width..=16384).contains(&page.stride) {
        "the source stride is not from the width to 16384"
    } else {
        "the output stride is not from the width to 16384"
    }
}

/// A refused job, a refused list (18) or a refused question about a pixel (19). The place is the ticket's byte
/// where the field at fault starts (refusals 1 to 9), the number of the box from 0 (14), the file's first byte
/// at fault, or its length where it ends too soon (15 to 17), the numbers needed (100), else 0.
#[derive(Clone, Copy, Debug, PartialEq, Eq)]
pub struct Refused {
    pub refusal: Refusal,
    pub place: u64,
    /// For an operator: [`Refusal::sentence`], or one that says which rule a vector breaks (6), or which
    /// number of a placement or file is at fault (10).
    pub sentence: &'static str,
}

impl Refused {
    /// As an answer to these bytes, which reach through the vector where that is refused.
    pub(crate) fn of_ticket(mut self, ticket: &[u8]) -> Refused {
        if self.refusal == BadVector {
            let component = |at| i16::from_be_bytes([ticket[at], ticket[at + 1]]);
            self.sentence = vector_sentence(component(11), component(13));
        }
        self
    }

    /// As an answer to this page of the source; the output page shares its sides.
    pub(crate) fn of_page(mut self, page: Page) -> Refused {
        if self.refusal == BadSides {
            self.sentence = placement_sentence(page);
        }
        self
    }

    /// As an answer to a file.
    pub(crate) fn of_file(mut self) -> Refused {
        if self.refusal == BadSides {
            self.sentence = "a side of the file's page is not 1 to 8192";
        }
        self
    }
}

impl fmt::Display for Refused {
    fn fmt(&self, f: &mut fmt::Formatter) -> fmt::Result {
        let (number, place) = (self.refusal.number(), self.place);
        write!(f, "refused {number} at {place}: {}", self.sentence)?;
        match number {
            1..=9 => write!(f, " (the field at byte {place} of the ticket)"),
            14 => write!(f, " (box {place}, counted from 0)"),
            15..=17 => write!(f, " (byte {place} of the file, counted from 0, or its end)"),
            100 => write!(f, " (it needs {place} numbers)"),
            _ => Ok(()),
        }
    }
}

impl Error for Refused {}

/// An answer's refusal and place, with the sentence of its number: nothing, where it is finished.
pub fn judged(refusal: u64, place: u64) -> Result<(), Refused> {
    if refusal == 0 {
        return Ok(());
    }
    let (refusal, sentence) = numbered(refusal).expect("the library answers known refusals alone");
    Err(Refused { refusal, place, sentence })
}

#[cfg(test)]
mod tests {
    use super::*;

    #[test]
    fn sentences_stand_in_the_order_of_the_numbers() {
        for ((refusal, sentence), number) in SENTENCES.into_iter().zip((1..=19).chain([100])) {
            assert_eq!(refusal.number(), number);
            assert_eq!(refusal.sentence(), sentence);
        }
    }

    #[test]
    fn a_short_buffer_says_how_many_numbers_it_needs() {
        let refused = judged(100, 264).unwrap_err();
        assert_eq!((refused.refusal, refused.place), (NumbersTooFew, 264));
        assert_eq!(
            refused.to_string(),
            "refused 100 at 264: the buffer of numbers is too short (it needs 264 numbers)"
        );
    }
}
