//! A whole tray: a list of jobs in one call.

use crate::library::{self, Outcome};
use crate::page::{answered, Page, Spot};
use crate::refusal::{judged, Refused};
use crate::ticket::TicketBytes;

/// A job of a list: its ticket, its page in the source tray, and where that goes in the output tray.
#[derive(Clone, Copy, Debug, PartialEq, Eq)]
pub struct TrayJob<'a> {
    pub ticket: &'a TicketBytes,
    pub page: Page,
    pub spot: Spot,
}

/// Runs a list of up to 256 jobs on one source tray, one output tray and one scratch, and answers each
/// as [`filter`](crate::filter) does: with its work, or with why it is refused. The rest goes on behind a
/// refused job.
///
/// Answers, trays and scratch are those of single calls in list order. Where places in the output overlap,
/// the bytes of the last finished job stand. A scratch for the job that needs the most serves all.
///
/// The list itself is refused where it has more than 256 jobs (18), before any of them: nothing is
/// written then.
///
/// ```
/// use sotrugla::{filter_tray, Line, Page, Refusal, Ticket, TrayJob};
///
/// let ticket = Ticket::opening(Line::connected(1, 0), 2).encode();
/// let jobs = [0, 2, 3].map(|offset| {
///     let page = Page { offset, width: 3, height: 1, stride: 3 };
///     TrayJob { ticket: &ticket, page, spot: page.spot() }
/// });
/// let mut output = [0; 5];
/// let mut scratch = vec![0; jobs.iter().map(|job| job.page.scratch_needed()).max().unwrap_or(0)];
///
/// let answers = filter_tray(&jobs, &[9, 1, 5, 7, 3], &mut output, &mut scratch)?;
///
/// assert_eq!(answers[..2], [Ok(6), Ok(6)]);
/// assert_eq!(answers[2].unwrap_err().refusal, Refusal::SourceTooShort);
/// assert_eq!(output, [9, 1, 5, 5, 3]);
/// # Ok::<(), sotrugla::Refused>(())
/// ```
pub fn filter_tray(
    jobs: &[TrayJob],
    source: &[u8],
    output: &mut [u8],
    scratch: &mut [u8],
) -> Result<Vec<Result<u64, Refused>>, Refused> {
    let (numbers, tickets) = laid(jobs);
    let mut answers = [Outcome { refusal: 0, place: 0, work: 0 }; library::LIST_JOBS];
    // SAFETY: each pointer and length is one slice's, and a slice lent for writing overlaps no other. An
    // answer is three numbers.
    let outcome = unsafe {
        library::sotrugla_run_tray(
            jobs.len(),
            numbers.as_ptr(),
            numbers.len(),
            tickets.as_ptr(),
            tickets.len(),
            source.as_ptr(),
            source.len(),
            output.as_mut_ptr(),
            output.len(),
            scratch.as_mut_ptr(),
            scratch.len(),
            answers.as_mut_ptr().cast(),
            answers.len() * library::ANSWER_NUMBERS,
        )
    };
    judged(outcome.refusal, outcome.place)?;
    let answers = answers.into_iter().zip(jobs);
    Ok(answers.map(|(answer, job)| answered(answer, job.ticket.as_bytes(), job.page)).collect())
}

/// The numbers of the jobs, and their tickets laid end to end.
fn laid(jobs: &[TrayJob]) -> (Vec<u64>, Vec<u8>) {
    let (mut numbers, mut tickets) = (Vec::new(), Vec::new());
    for TrayJob { ticket, page, spot } in jobs {
        let (start, ticket) = (tickets.len(), ticket.as_bytes());
        tickets.extend(ticket);
        let sides = [start, ticket.len(), page.width, page.height];
        let places = [page.offset, page.stride, spot.offset, spot.stride];
        numbers.extend(sides.into_iter().chain(places).map(|number| number as u64));
    }
    (numbers, tickets)
}
