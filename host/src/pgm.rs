//! Raw Netpbm grey files (P5): read, and filtered into others.

use crate::library;
use crate::page::Page;
use crate::refusal::{judged, Refused};
use crate::ticket::TicketBytes;

/// A file's first image, which can be filtered: every pixel is at most the maximum.
#[derive(Clone, Copy, Debug, PartialEq, Eq)]
pub struct Pgm {
    /// 1 to 8192 pixels.
    pub width: usize,
    /// 1 to 8192 rows.
    pub height: usize,
    /// 1 to 255.
    pub maximum: u8,
    /// The file's byte that is the first pixel; the others follow row by row.
    pub start: usize,
}

/// A file that was written, and how many comparisons it took.
#[derive(Clone, Debug, PartialEq, Eq)]
pub struct Written {
    pub file: Vec<u8>,
    pub work: u64,
}

/// Reads a file alone: its header and pixels, of its first image only. The refusals are 15, 16, 17 and
/// 10, in this order.
///
/// ```
/// use sotrugla::{read_pgm, Pgm, Refusal};
///
/// let shown = read_pgm(b"P5 3 1 # a row\n 9\n\x09\x01\x05");
/// assert_eq!(shown, Ok(Pgm { width: 3, height: 1, maximum: 9, start: 18 }));
///
/// let refused = read_pgm(b"P5 3 1 9\n\x09\x01\x0a").unwrap_err();
/// assert_eq!((refused.refusal, refused.place), (Refusal::BadPixel, 11));
/// ```
pub fn read_pgm(file: &[u8]) -> Result<Pgm, Refused> {
    let answer = answered(file);
    judged(answer.refusal, answer.place).map_err(Refused::of_file)?;
    let Page { width, height, .. } = page_of(&answer);
    // A file that is read has a maximum of one byte, and its pixels start within it.
    Ok(Pgm { width, height, maximum: answer.maximum as u8, start: answer.start as usize })
}

pub(crate) fn answered(file: &[u8]) -> library::Pgm {
    // SAFETY: pointer and length are one slice's, which is only read.
    unsafe { library::sotrugla_read_pgm(file.as_ptr(), file.len()) }
}

/// A page of the file's sides; a refused file answers 0 for them.
pub(crate) fn page_of(answer: &library::Pgm) -> Page {
    Page::alone(answer.width as usize, answer.height as usize)
}

/// Filters the page of a file into a file of the same sides and maximum. A pixel that the ticket hides
/// comes out as the file's maximum. The refusals are the ticket's, then the file's, then 14.
///
/// ```
/// use sotrugla::{filter_pgm, HiddenBox, Line, Operation, Ticket, Written};
///
/// let ticket = Ticket::new(Operation::Open, Line::connected(1, 0), 2)
///     .hide(HiddenBox { left: 2, top: 0, width: 1, height: 1 })
///     .encode();
/// let Written { file, .. } = filter_pgm(&ticket, b"P5 3 1 9\n\x09\x01\x05")?;
/// assert_eq!(file, b"P5\n3\n1\n9\n\x01\x01\x09");
/// # Ok::<(), sotrugla::Refused>(())
/// ```
pub fn filter_pgm(ticket: &TicketBytes, file: &[u8]) -> Result<Written, Refused> {
    let ticket = ticket.as_bytes();
    // Whatever is refused, the job below says so: of ticket and file it may be the ticket.
    let page = page_of(&answered(file));
    let mut output = vec![0; library::PGM_HEADER + page.width * page.height];
    let mut scratch = vec![0; page.scratch_needed()];
    // SAFETY: each pointer and length is one slice's, and a slice lent for writing overlaps no other.
    let answer = unsafe {
        library::sotrugla_run_pgm(
            ticket.as_ptr(),
            ticket.len(),
            file.as_ptr(),
            file.len(),
            output.as_mut_ptr(),
            output.len(),
            scratch.as_mut_ptr(),
            scratch.len(),
        )
    };
    judged(answer.refusal, answer.place).map_err(|refused| refused.of_ticket(ticket).of_file())?;
    output.truncate(answer.length as usize);
    Ok(Written { file: output, work: answer.work })
}
