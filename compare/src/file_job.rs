//! Document 02, wish 1: a job on a file. The file is the source tray, the output is a file too.

use crate::filter;
use crate::job::judge_scratch_and_boxes;
use crate::lines::Sides;
use crate::pgm::{self, Header};
use crate::placement::scratch_needed;
use crate::refusal::{self, unless, Refusal};
use crate::ticket::{self, Ticket};
use crate::work;

/// All that is lent to a job on a file; output and scratch with their old contents.
#[derive(Clone, Debug, Default, PartialEq, Eq)]
pub struct FileJob {
    pub ticket: Vec<u8>,
    pub file: Vec<u8>,
    pub output: Vec<u8>,
    pub scratch: Vec<u8>,
}

/// Refusal number 0 for a finished job, with place 0; work and length 0 for a refused one. The
/// length is that of the file written.
#[derive(Clone, Copy, Debug, Default, PartialEq, Eq)]
pub struct Answer {
    pub refusal: u8,
    pub place: u64,
    pub work: u64,
    pub length: u64,
}

/// The answer, and what output and scratch hold afterwards.
#[derive(Clone, Debug, PartialEq, Eq)]
pub struct Outcome {
    pub answer: Answer,
    pub output: Vec<u8>,
    pub scratch: Vec<u8>,
}

pub fn run(job: &FileJob) -> Outcome {
    let (output, scratch) = (job.output.clone(), job.scratch.clone());
    let mut outcome = Outcome { answer: Answer::default(), output, scratch };
    match judged(job) {
        Ok((ticket, header)) => finish(job, &ticket, &header, &mut outcome),
        Err(Refusal { number, place }) => {
            outcome.answer = Answer { refusal: number, place, ..Answer::default() }
        }
    }
    outcome
}

/// The ticket's refusals, the file's (15, 16, 17, 10), then 12, 13 and 14.
fn judged(job: &FileJob) -> Result<(Ticket, Header), Refusal> {
    let ticket = ticket::read(&job.ticket)?;
    let header = pgm::read(&job.file)?;
    let fits = written_length(&header) <= job.output.len() as u64;
    unless(fits, refusal::OUTPUT_DOES_NOT_FIT, 0)?;
    let scratch_length = job.scratch.len() as u64;
    judge_scratch_and_boxes(&ticket, header.width, header.height, scratch_length)?;
    Ok((ticket, header))
}

/// The length of the file to be written; asked only of sides within their limits.
pub fn written_length(header: &Header) -> u64 {
    pgm::head(header).len() as u64 + header.width * header.height
}

fn finish(job: &FileJob, ticket: &Ticket, header: &Header, outcome: &mut Outcome) {
    let sides = Sides { width: header.width as i64, height: header.height as i64 };
    let greys = &job.file[header.start as usize..][..sides.pixels().len()];
    let results = filter::filtered(sides, greys, ticket, header.maximum);
    let written = [pgm::head(header), results].concat();
    outcome.output[..written.len()].copy_from_slice(&written);
    outcome.scratch[..scratch_needed(header.width, header.height) as usize].fill(0);
    let (work, length) = (work::of_job(sides, ticket), written.len() as u64);
    outcome.answer = Answer { work, length, ..Answer::default() };
}
