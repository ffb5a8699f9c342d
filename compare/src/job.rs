//! A whole job: ticket, placements and the three lent buffers in; answer and buffers out.

use crate::filter;
use crate::lines::Sides;
use crate::placement::{scratch_needed, Placement};
use crate::refusal::{self, unless, Refusal};
use crate::ticket::{self, HiddenBox, Ticket};
use crate::work;

/// "A hidden pixel comes out as 255 in every finished page."
pub const WHITE: u8 = 255;

/// All that is lent to a job; output and scratch with their old contents.
#[derive(Clone, Debug, PartialEq, Eq)]
pub struct Job {
    pub ticket: Vec<u8>,
    pub width: u64,
    pub height: u64,
    pub source_offset: u64,
    pub source_stride: u64,
    pub output_offset: u64,
    pub output_stride: u64,
    pub source: Vec<u8>,
    pub output: Vec<u8>,
    pub scratch: Vec<u8>,
}

/// Refusal number 0 for a finished job, with place 0; work 0 for a refused one.
#[derive(Clone, Copy, Debug, PartialEq, Eq)]
pub struct Answer {
    pub refusal: u8,
    pub place: u64,
    pub work: u64,
}

/// The answer, and what output tray and scratch hold afterwards.
#[derive(Clone, Debug, PartialEq, Eq)]
pub struct Outcome {
    pub answer: Answer,
    pub output: Vec<u8>,
    pub scratch: Vec<u8>,
}

/// How long source tray, output tray and scratch are.
#[derive(Clone, Copy, Debug, PartialEq, Eq)]
pub struct Lengths {
    pub source: u64,
    pub output: u64,
    pub scratch: u64,
}

impl Job {
    /// Asked only of sides within the limits.
    pub fn sides(&self) -> Sides {
        self.source_page().sides()
    }

    pub fn source_page(&self) -> Placement {
        let (offset, stride) = (self.source_offset, self.source_stride);
        Placement { offset, width: self.width, height: self.height, stride }
    }

    pub fn output_page(&self) -> Placement {
        let (offset, stride) = (self.output_offset, self.output_stride);
        Placement { offset, width: self.width, height: self.height, stride }
    }

    pub fn pages(&self) -> [Placement; 2] {
        [self.source_page(), self.output_page()]
    }

    pub fn lengths(&self) -> Lengths {
        let lengths = [&self.source, &self.output, &self.scratch].map(|bytes| bytes.len() as u64);
        let [source, output, scratch] = lengths;
        Lengths { source, output, scratch }
    }
}

pub fn run(job: &Job) -> Outcome {
    let mut outcome = Outcome {
        answer: Answer { refusal: refusal::NONE, place: 0, work: 0 },
        output: job.output.clone(),
        scratch: job.scratch.clone(),
    };
    match judged(&job.ticket, job.pages(), job.lengths()) {
        Ok(ticket) => finish(job, &ticket, &mut outcome),
        Err(Refusal { number, place }) => {
            outcome.answer = Answer { refusal: number, place, work: 0 }
        }
    }
    outcome
}

/// The ticket's refusals, "then 10, 11, 12, 13, and 14 over the boxes in order". They depend on
/// "ticket bytes, placements and the three lengths only".
pub fn judged(
    ticket: &[u8],
    [source, output]: [Placement; 2],
    lengths: Lengths,
) -> Result<Ticket, Refusal> {
    let ticket = ticket::read(ticket)?;
    let limits = source.within_limits() && output.within_limits();
    unless(limits, refusal::BEYOND_LIMITS, 0)?;
    unless(source.fits(lengths.source), refusal::SOURCE_DOES_NOT_FIT, 0)?;
    unless(output.fits(lengths.output), refusal::OUTPUT_DOES_NOT_FIT, 0)?;
    judge_scratch_and_boxes(&ticket, source.width, source.height, lengths.scratch)?;
    Ok(ticket)
}

/// 13, and 14 over the boxes in order: the last judgements of every job.
pub fn judge_scratch_and_boxes(
    ticket: &Ticket,
    width: u64,
    height: u64,
    scratch_length: u64,
) -> Result<(), Refusal> {
    let long_enough = u128::from(scratch_length) >= scratch_needed(width, height);
    unless(long_enough, refusal::SCRATCH_TOO_SHORT, 0)?;
    for (place, hidden_box) in (0..).zip(ticket.hidden_boxes()) {
        unless(on_page(hidden_box, width, height), refusal::BOX_OFF_PAGE, place)?;
    }
    Ok(())
}

/// No zero side and not past the page's edge; 65535 + 2 is 65537 here.
fn on_page(hidden_box: &HiddenBox, width: u64, height: u64) -> bool {
    let right = u64::from(hidden_box.left) + u64::from(hidden_box.width);
    let bottom = u64::from(hidden_box.top) + u64::from(hidden_box.height);
    hidden_box.width > 0 && hidden_box.height > 0 && right <= width && bottom <= height
}

fn finish(job: &Job, ticket: &Ticket, outcome: &mut Outcome) {
    let (sides, output) = (job.sides(), job.output_page());
    let greys = job.source_page().greys(&job.source);
    let results = filter::filtered(sides, &greys, ticket, WHITE);
    for (pixel, result) in sides.pixels().into_iter().zip(results) {
        outcome.output[output.byte(pixel)] = result;
    }
    outcome.scratch[..scratch_needed(job.width, job.height) as usize].fill(0);
    outcome.answer.work = work::of_job(sides, ticket);
}
