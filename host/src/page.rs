//! Where pages stand in their trays, and the job.

use crate::library::{self, Outcome};
use crate::refusal::{judged, Refused};
use crate::ticket::TicketBytes;

/// A page in a tray: the pixel at column c, row r is byte `offset + r * stride + c`.
#[derive(Clone, Copy, Debug, PartialEq, Eq)]
pub struct Page {
    pub offset: usize,
    /// 1 to 8192 pixels.
    pub width: usize,
    /// 1 to 8192 rows.
    pub height: usize,
    /// How far apart the rows start: from the width to 16384 bytes.
    pub stride: usize,
}

/// Where a page of known sides stands in a tray.
#[derive(Clone, Copy, Debug, PartialEq, Eq)]
pub struct Spot {
    pub offset: usize,
    pub stride: usize,
}

impl Page {
    /// A page that fills its tray: it starts at the first byte, and nothing stands between its rows.
    pub fn alone(width: usize, height: usize) -> Page {
        Page { offset: 0, width, height, stride: width }
    }

    /// Its offset and stride, for a tray in which the page is to stand as it does here.
    pub fn spot(self) -> Spot {
        Spot { offset: self.offset, stride: self.stride }
    }

    /// How many bytes of scratch a job on the page needs; 0 where a side is beyond its limits, as
    /// such a page is refused whatever its scratch.
    ///
    /// ```
    /// use sotrugla::Page;
    /// assert_eq!(Page::alone(16, 5).scratch_needed(), 2 * 16 * 5 + 3 * 16);
    /// assert_eq!(Page::alone(16, 8193).scratch_needed(), 0);
    /// ```
    pub fn scratch_needed(self) -> usize {
        // SAFETY: the function takes every pair of numbers and touches no memory of ours.
        unsafe { library::sotrugla_scratch_needed(self.width, self.height) }
    }
}

/// Filters the page of the source tray into the output tray, where it stands at `spot`, and answers
/// the work: how many comparisons it took.
///
/// Nothing but the page is written to `output`, and nothing at all at a refusal. The scratch that the
/// page needs holds zero after a finished page. What output and scratch held before changes nothing.
///
/// ```
/// use sotrugla::{filter, Line, Operation, Page, Refusal, Ticket};
///
/// let page = Page::alone(3, 1);
/// let ticket = Ticket::new(Operation::Erode, Line::connected(1, 0), 2).encode();
/// let mut short = [7; 2];
/// let refused = filter(&ticket, page, &[9, 1, 5], page.spot(), &mut short, &mut [0; 15]).unwrap_err();
/// assert_eq!(refused.refusal, Refusal::OutputTooShort);
/// assert_eq!(refused.to_string(), "refused 12 at 0: the output page does not fit its tray");
/// assert_eq!(short, [7; 2]);
/// ```
pub fn filter(
    ticket: &TicketBytes,
    page: Page,
    source: &[u8],
    spot: Spot,
    output: &mut [u8],
    scratch: &mut [u8],
) -> Result<u64, Refused> {
    let ticket = ticket.as_bytes();
    // SAFETY: each pointer and length is one slice's, and a slice lent for writing overlaps no other.
    let outcome = unsafe {
        library::sotrugla_run(
            ticket.as_ptr(),
            ticket.len(),
            page.width,
            page.height,
            page.offset,
            page.stride,
            spot.offset,
            spot.stride,
            source.as_ptr(),
            source.len(),
            output.as_mut_ptr(),
            output.len(),
            scratch.as_mut_ptr(),
            scratch.len(),
        )
    };
    answered(outcome, ticket, page)
}

/// The work of a job, or why it is refused.
pub(crate) fn answered(outcome: Outcome, ticket: &[u8], page: Page) -> Result<u64, Refused> {
    judged(outcome.refusal, outcome.place)
        .map_err(|refused| refused.of_ticket(ticket).of_page(page))?;
    Ok(outcome.work)
}
