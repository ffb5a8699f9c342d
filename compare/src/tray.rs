//! Document 02, wish 3: "A whole tray in one call". A list of jobs on one source tray, one output
//! tray and one scratch is a fold of single jobs in list order.

use crate::job::{self, Answer, Job};
use crate::placement::Placement;
use crate::refusal::{self, unless, Refusal};

/// "Take a list of up to 256 jobs."
pub const MOST_JOBS: u64 = 256;
/// The numbers of one job in a list.
pub const JOB_NUMBERS: usize = 8;
/// Refusal, place and work.
pub const ANSWER_NUMBERS: usize = 3;
/// "256 answers come back."
pub const ANSWERS: usize = MOST_JOBS as usize * ANSWER_NUMBERS;

/// All that is lent to one call; output, scratch and answers with their old contents. Nothing keeps
/// the count to the numbers of jobs that are there.
#[derive(Clone, Debug, Default, PartialEq, Eq)]
pub struct Call {
    pub count: u64,
    pub jobs: Vec<u64>,
    pub tickets: Vec<u8>,
    pub source: Vec<u8>,
    pub output: Vec<u8>,
    pub scratch: Vec<u8>,
    pub answers: Vec<u64>,
}

/// The answer to the whole list, and what output tray, scratch and answers hold afterwards.
#[derive(Clone, Debug, PartialEq, Eq)]
pub struct Outcome {
    pub answer: Answer,
    pub output: Vec<u8>,
    pub scratch: Vec<u8>,
    pub answers: Vec<u64>,
}

/// "Each with placements and its ticket's start and length in one buffer."
#[derive(Clone, Copy, Debug, Default, PartialEq, Eq)]
pub struct Listed {
    pub ticket_start: u64,
    pub ticket_length: u64,
    pub width: u64,
    pub height: u64,
    pub source_offset: u64,
    pub source_stride: u64,
    pub output_offset: u64,
    pub output_stride: u64,
}

impl Listed {
    /// A job out of its eight numbers.
    pub fn of(numbers: &[u64]) -> Listed {
        Listed {
            ticket_start: numbers[0],
            ticket_length: numbers[1],
            width: numbers[2],
            height: numbers[3],
            source_offset: numbers[4],
            source_stride: numbers[5],
            output_offset: numbers[6],
            output_stride: numbers[7],
        }
    }

    pub fn numbers(&self) -> [u64; JOB_NUMBERS] {
        [
            self.ticket_start,
            self.ticket_length,
            self.width,
            self.height,
            self.source_offset,
            self.source_stride,
            self.output_offset,
            self.output_stride,
        ]
    }

    /// One past the ticket's last byte, over whole numbers: no sum can come round and look small.
    pub fn ticket_end(&self) -> u128 {
        u128::from(self.ticket_start) + u128::from(self.ticket_length)
    }

    /// "A ticket not wholly in the buffer counts as empty."
    pub fn ticket<'a>(&self, tickets: &'a [u8]) -> &'a [u8] {
        if self.ticket_end() > tickets.len() as u128 {
            return &[];
        }
        &tickets[self.ticket_start as usize..self.ticket_end() as usize]
    }

    pub fn output_page(&self) -> Placement {
        let (offset, stride) = (self.output_offset, self.output_stride);
        Placement { offset, width: self.width, height: self.height, stride }
    }
}

impl Call {
    /// The jobs of a list, whose numbers are all there.
    pub fn listed(&self) -> impl Iterator<Item = Listed> + '_ {
        let numbers = &self.jobs[..JOB_NUMBERS * self.count as usize];
        numbers.chunks(JOB_NUMBERS).map(Listed::of)
    }

    /// The single call of a job, on output tray and scratch as the jobs before it left them.
    pub fn single(&self, listed: Listed, output: Vec<u8>, scratch: Vec<u8>) -> Job {
        Job {
            ticket: listed.ticket(&self.tickets).to_vec(),
            width: listed.width,
            height: listed.height,
            source_offset: listed.source_offset,
            source_stride: listed.source_stride,
            output_offset: listed.output_offset,
            output_stride: listed.output_stride,
            source: self.source.clone(),
            output,
            scratch,
        }
    }
}

pub fn run(call: &Call) -> Outcome {
    let answer = Answer { refusal: refusal::NONE, place: 0, work: 0 };
    let (output, scratch) = (call.output.clone(), call.scratch.clone());
    let mut outcome = Outcome { answer, output, scratch, answers: call.answers.clone() };
    let verdict = judged(call);
    if let Err(Refusal { number, place }) = verdict {
        outcome.answer = Answer { refusal: number, place, work: 0 };
        if number == refusal::NUMBERS_TOO_FEW {
            return outcome;
        }
    }
    // "Zero past the list and at 18."
    outcome.answers[..ANSWERS].fill(0);
    if verdict.is_ok() {
        run_each(call, &mut outcome);
    }
    outcome
}

/// Room for every answer comes before 18: without it there is nothing to zero. The numbers of jobs
/// come behind it: a list of more than 256 jobs is refused whether they are there or not.
fn judged(call: &Call) -> Result<(), Refusal> {
    let room = call.answers.len() >= ANSWERS;
    unless(room, refusal::NUMBERS_TOO_FEW, ANSWERS as u64)?;
    unless(call.count <= MOST_JOBS, refusal::TOO_MANY_JOBS, 0)?;
    let needed = JOB_NUMBERS as u64 * call.count;
    unless(call.jobs.len() as u64 >= needed, refusal::NUMBERS_TOO_FEW, needed)
}

/// "The answers, trays and scratch equal those of single calls in list order; a refused job is
/// answered and the rest go on."
fn run_each(call: &Call, outcome: &mut Outcome) {
    for (listed, answer) in call.listed().zip(outcome.answers.chunks_mut(ANSWER_NUMBERS)) {
        let (output, scratch) = (outcome.output.clone(), outcome.scratch.clone());
        let single = job::run(&call.single(listed, output, scratch));
        let Answer { refusal, place, work } = single.answer;
        answer.copy_from_slice(&[u64::from(refusal), place, work]);
        (outcome.output, outcome.scratch) = (single.output, single.scratch);
    }
}
