//! Why a pixel comes out as it does.

use crate::library;
use crate::page::{Page, Spot};
use crate::pgm;
use crate::refusal::{judged, Refusal, Refused};
use crate::ticket::{HiddenBox, TicketBytes};
use std::fmt;

/// A pixel of a page: its column counted from 0 at the left, its row from 0 at the top.
#[derive(Clone, Copy, Debug, PartialEq, Eq)]
pub struct Pixel {
    pub column: usize,
    pub row: usize,
}

impl fmt::Display for Pixel {
    fn fmt(&self, f: &mut fmt::Formatter) -> fmt::Result {
        write!(f, "column {}, row {}", self.column, self.row)
    }
}

/// Why a pixel comes out as it does; it reads as a sentence for an operator. Steps are ordered along the
/// vector. Later versions may know more kinds of reasons: so a `match` needs an arm for those it does not name.
#[non_exhaustive]
#[derive(Clone, Copy, Debug, PartialEq, Eq)]
pub enum Reason {
    /// The box of this number, counted from 0, is the first that holds the pixel. It comes out white: as 255,
    /// or as a file's maximum.
    Hidden { pixel: Pixel, white: u8, number: usize, hidden: HiddenBox },
    /// Erosion and dilation: `from` is the first unhidden step of the pixel's window whose grey is the result.
    OnePass { pixel: Pixel, grey: u8, phase: u16, from: Pixel },
    /// Opening and closing: `through` is the first unhidden step of the pixel's window in the second pass that
    /// gives the result, and `from` the first unhidden step of the window of `through` in the first pass that
    /// gave it.
    TwoPasses { pixel: Pixel, grey: u8, phase: u16, through: Pixel, from: Pixel },
}

impl Reason {
    /// What the pixel comes out as: white, or the source's grey at `from`.
    pub fn grey(&self) -> u8 {
        match *self {
            Reason::Hidden { white, .. } => white,
            Reason::OnePass { grey, .. } | Reason::TwoPasses { grey, .. } => grey,
        }
    }
}

impl fmt::Display for Reason {
    fn fmt(&self, f: &mut fmt::Formatter) -> fmt::Result {
        match *self {
            Reason::Hidden { pixel, number, hidden, .. } => {
                let HiddenBox { left, top, width, height } = hidden;
                write!(f, "{pixel} is white because it is hidden by box {number}: ")?;
                write!(f, "left {left}, top {top}, width {width}, height {height}")
            }
            Reason::OnePass { pixel, grey, from, .. } => put_decided(f, pixel, grey, from),
            Reason::TwoPasses { pixel, grey, through, from, .. } => {
                put_decided(f, pixel, grey, from)?;
                // The way is told unless it is `from` itself.
                if through != from {
                    write!(f, ", by way of {through}")?;
                }
                Ok(())
            }
        }
    }
}

fn put_decided(f: &mut fmt::Formatter, pixel: Pixel, grey: u8, from: Pixel) -> fmt::Result {
    write!(f, "{pixel} is {grey} because ")?;
    if pixel == from {
        write!(f, "it is {grey} itself")
    } else {
        write!(f, "{from} is {grey}")
    }
}

/// Names the reason why a pixel of the page comes out as it does, without running the job. Its arguments are
/// those of [`filter`](crate::filter), with the lengths of output and scratch in place of them, and the pixel.
///
/// The refusals are those of `filter` for such a job, and then 19 for a pixel off the page. The time grows
/// with the segment's length for erosion and dilation, with its square for opening and closing.
///
/// ```
/// use sotrugla::{why, Line, Page, Pixel, Reason, Ticket};
///
/// let ticket = Ticket::closing(Line::connected(1, 0), 3).encode();
/// let page = Page { offset: 1, width: 5, height: 1, stride: 5 };
/// let tray = [77, 9, 1, 5, 7, 3, 77];
/// let pixel = Pixel { column: 1, row: 0 };
///
/// let reason = why(&ticket, page, &tray, page.spot(), tray.len(), page.scratch_needed(), pixel)?;
///
/// let (through, from) = (Pixel { column: 2, row: 0 }, Pixel { column: 3, row: 0 });
/// assert_eq!(reason, Reason::TwoPasses { pixel, grey: 7, phase: 0, through, from });
/// assert_eq!(
///     reason.to_string(),
///     "column 1, row 0 is 7 because column 3, row 0 is 7, by way of column 2, row 0"
/// );
/// # Ok::<(), sotrugla::Refused>(())
/// ```
pub fn why(
    ticket: &TicketBytes,
    page: Page,
    source: &[u8],
    spot: Spot,
    output_length: usize,
    scratch_length: usize,
    pixel: Pixel,
) -> Result<Reason, Refused> {
    let answer = asked(ticket, page, source, spot, output_length, scratch_length, pixel);
    judged(answer.refusal, answer.place)
        .map_err(|refused| refused.of_ticket(ticket.as_bytes()).of_page(page))?;
    told(&answer, ticket, page, source, pixel, u8::MAX)
}

impl Page {
    /// Names the reason why a pixel of the page comes out as it does, as [`why`] does for a job with room for
    /// its output and scratch.
    ///
    /// ```
    /// use sotrugla::{Line, Page, Pixel, Refusal, Ticket};
    ///
    /// let (page, ticket) = (Page::alone(3, 1), Ticket::erosion(Line::connected(1, 0), 3).encode());
    /// let reason = page.why(&ticket, &[9, 1, 5], Pixel { column: 2, row: 0 })?;
    /// assert_eq!(reason.grey(), 1);
    /// assert_eq!(reason.to_string(), "column 2, row 0 is 1 because column 1, row 0 is 1");
    ///
    /// let refused = page.why(&ticket, &[9, 1, 5], Pixel { column: 3, row: 0 }).unwrap_err();
    /// assert_eq!(refused.refusal, Refusal::PixelOffPage);
    /// # Ok::<(), sotrugla::Refused>(())
    /// ```
    pub fn why(self, ticket: &TicketBytes, source: &[u8], pixel: Pixel) -> Result<Reason, Refused> {
        // As long as the source: where the page fits there, it fits an output of that length.
        why(ticket, self, source, self.spot(), source.len(), self.scratch_needed(), pixel)
    }
}

/// Names the reason why a pixel of a file's page comes out as it does, which
/// [`filter_pgm`](crate::filter_pgm) filters. The refusals are the ticket's, then the file's, then 14 and 19.
///
/// ```
/// use sotrugla::{why_pgm, HiddenBox, Line, Pixel, Ticket};
///
/// let ticket = Ticket::closing(Line::connected(1, 0), 3)
///     .hide(HiddenBox { left: 2, top: 0, width: 1, height: 1 })
///     .encode();
/// let reason = why_pgm(&ticket, b"P5 3 1 9\n\x09\x01\x05", Pixel { column: 2, row: 0 })?;
/// assert_eq!(reason.grey(), 9);
/// assert_eq!(
///     reason.to_string(),
///     "column 2, row 0 is white because it is hidden by box 0: left 2, top 0, width 1, height 1"
/// );
/// # Ok::<(), sotrugla::Refused>(())
/// ```
pub fn why_pgm(ticket: &TicketBytes, file: &[u8], pixel: Pixel) -> Result<Reason, Refused> {
    let shown = pgm::answered(file);
    let page = Page { offset: shown.start as usize, ..pgm::page_of(&shown) };
    let answer = asked(ticket, page, file, page.spot(), file.len(), page.scratch_needed(), pixel);
    // A refused file has sides of 0: then the ticket is refused if it is to be, and else the sides.
    let (refusal, place) = if answer.refusal == Refusal::BadSides.number() {
        (shown.refusal, shown.place)
    } else {
        (answer.refusal, answer.place)
    };
    judged(refusal, place).map_err(|refused| refused.of_ticket(ticket.as_bytes()).of_file())?;
    told(&answer, ticket, page, file, pixel, shown.maximum as u8)
}

fn asked(
    ticket: &TicketBytes,
    page: Page,
    source: &[u8],
    spot: Spot,
    output_length: usize,
    scratch_length: usize,
    pixel: Pixel,
) -> library::Reason {
    let ticket = ticket.as_bytes();
    // SAFETY: each pointer and length is one slice's, which is only read.
    unsafe {
        library::sotrugla_why(
            ticket.as_ptr(),
            ticket.len(),
            page.width,
            page.height,
            page.offset,
            page.stride,
            spot.offset,
            spot.stride,
            source.as_ptr(),
            source.len(),
            output_length,
            scratch_length,
            pixel.column,
            pixel.row,
        )
    }
}

/// An answer that is no refusal: its pixels are on the page, and its box is one of the ticket's.
fn told(
    answer: &library::Reason,
    ticket: &TicketBytes,
    page: Page,
    source: &[u8],
    pixel: Pixel,
    white: u8,
) -> Result<Reason, Refused> {
    if answer.kind == library::HIDDEN_BOX {
        let number = answer.r#box as usize;
        return Ok(Reason::Hidden { pixel, white, number, hidden: ticket.read()?.boxes()[number] });
    }
    let through =
        Pixel { column: answer.through_column as usize, row: answer.through_row as usize };
    let from = Pixel { column: answer.from_column as usize, row: answer.from_row as usize };
    let grey = source[page.offset + from.row * page.stride + from.column];
    let phase = answer.phase as u16;
    Ok(match answer.kind {
        library::ONE_PASS => Reason::OnePass { pixel, grey, phase, from },
        _ => Reason::TwoPasses { pixel, grey, phase, through, from },
    })
}
