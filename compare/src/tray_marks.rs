//! What a summary counts of a list of jobs: its answer, its buffers of numbers, the refusals amid
//! its jobs, its tickets, and how its output pages lie over one another.

mod pages;
mod tickets;

use crate::job;
use crate::refusal::{BOX_OFF_PAGE, NONE, TICKET_ENDS, TOO_MANY_JOBS};
use crate::tray::{Call, Listed, Outcome, ANSWERS, ANSWER_NUMBERS, JOB_NUMBERS, MOST_JOBS};

/// Pairs of jobs are looked for among so many at a list's beginning.
const AMONG: usize = 16;

type Mark = (&'static str, bool);

/// A job of a list that was run, and its refusal.
#[derive(Clone, Copy)]
struct Answered {
    job: Listed,
    refusal: u8,
}

impl Answered {
    fn done(&self) -> bool {
        self.refusal == NONE
    }
}

/// Each mark by its name and whether this list shows it.
pub fn of(call: &Call, outcome: &Outcome) -> Vec<(String, bool)> {
    let all = answered(call, outcome);
    let mut marks = Vec::new();
    marks.extend(whole_marks(call, outcome));
    marks.extend(count_marks(call, outcome));
    marks.extend(number_marks(call, outcome));
    marks.extend(tickets::marks(call, &all));
    marks.extend(pages::marks(call, outcome, &all));
    let refused = (TICKET_ENDS..=BOX_OFF_PAGE)
        .map(|number| (format!("refused {number} between finished jobs"), between(&all, number)));
    marks.into_iter().map(|(name, holds)| (name.to_string(), holds)).chain(refused).collect()
}

/// No job at all for a list that is refused.
fn answered(call: &Call, outcome: &Outcome) -> Vec<Answered> {
    if outcome.answer.refusal != NONE {
        return Vec::new();
    }
    let refusals = outcome.answers.chunks(ANSWER_NUMBERS).map(|answer| answer[0] as u8);
    call.listed().zip(refusals).map(|(job, refusal)| Answered { job, refusal }).collect()
}

/// Whether the numbers of all jobs are there.
fn all_there(call: &Call) -> bool {
    JOB_NUMBERS as u128 * u128::from(call.count) <= call.jobs.len() as u128
}

/// How the list is answered, and which of two refusals comes first.
fn whole_marks(call: &Call, outcome: &Outcome) -> [Mark; 10] {
    let refusal = outcome.answer.refusal;
    let (no_room, many) = (call.answers.len() < ANSWERS, call.count > MOST_JOBS);
    let (too_many, there) = (refusal == TOO_MANY_JOBS, all_there(call));
    let old = call.answers.iter().any(|&number| number != 0);
    [
        ("run", refusal == NONE),
        ("refused 18, jobs there", too_many && there),
        ("refused 18, jobs not there", too_many && !there),
        ("refused 18 with old answers", too_many && old),
        ("refused 100 for the answers", no_room && !many && there),
        ("refused 100 for the answers, more than 256 jobs", no_room && many),
        ("refused 100 for the answers, jobs not there", no_room && !many && !there),
        ("refused 100 for the answers with old answers", no_room && old),
        ("refused 100 for the jobs", !no_room && !many && !there),
        ("refused 100 for the jobs with old answers", !no_room && !many && !there && old),
    ]
}

fn count_marks(call: &Call, outcome: &Outcome) -> [Mark; 11] {
    let (run, many) = (outcome.answer.refusal == NONE, outcome.answer.refusal == TOO_MANY_JOBS);
    let count = call.count;
    let last = outcome.answers.get(ANSWERS - ANSWER_NUMBERS..ANSWERS).unwrap_or(&[]);
    let few_numbers = count.wrapping_mul(JOB_NUMBERS as u64) <= call.jobs.len() as u64;
    [
        ("run, no job", run && count == 0),
        ("run, 1 job", run && count == 1),
        ("run, 2 to 9 jobs", run && (2..10).contains(&count)),
        ("run, 10 to 254 jobs", run && (10..255).contains(&count)),
        ("run, 255 jobs", run && count == MOST_JOBS - 1),
        ("run, 256 jobs", run && count == MOST_JOBS),
        ("run, the 256th job with work", run && last.last().is_some_and(|&work| work > 0)),
        ("refused 18, 257 jobs", many && count == MOST_JOBS + 1),
        ("refused 18, few jobs in 32 bits", many && u64::from(count as u32) <= MOST_JOBS),
        ("refused 18, few numbers in 64 bits", many && count > 1 << 32 && few_numbers),
        ("refused 18, the largest count", many && count == u64::MAX),
    ]
}

/// The lengths of the two buffers of numbers.
fn number_marks(call: &Call, outcome: &Outcome) -> [Mark; 11] {
    let run = outcome.answer.refusal == NONE;
    let (answers, numbers) = (call.answers.len(), call.jobs.len() as u128);
    let needed = JOB_NUMBERS as u128 * u128::from(call.count);
    let old = |from: usize| call.answers[from..].iter().any(|&number| number != 0);
    let past_list = ANSWER_NUMBERS * call.count.min(MOST_JOBS) as usize;
    [
        ("answers of 0 numbers", answers == 0),
        ("answers of 767 numbers", answers == ANSWERS - 1),
        ("answers of 768 numbers", run && answers == ANSWERS),
        ("answers of 769 numbers", run && answers == ANSWERS + 1),
        ("answers of more numbers", run && answers > ANSWERS + 1),
        ("old answers past the list", run && old(past_list)),
        ("old numbers past the answers", run && old(ANSWERS)),
        ("jobs one number short", numbers + 1 == needed),
        ("jobs exact", run && numbers == needed),
        ("jobs with numbers behind them", run && numbers > needed),
        ("a good job behind the list", run && good_job_behind(call)),
    ]
}

fn good_job_behind(call: &Call) -> bool {
    let behind = call.jobs.chunks_exact(JOB_NUMBERS).nth(call.count as usize);
    behind.is_some_and(|numbers| {
        let (output, scratch) = (call.output.clone(), call.scratch.clone());
        job::run(&call.single(Listed::of(numbers), output, scratch)).answer.refusal == NONE
    })
}

/// Whether a job with this refusal has finished jobs before and behind it.
fn between(all: &[Answered], number: u8) -> bool {
    let first = all.iter().position(Answered::done).unwrap_or(all.len());
    let last = all.iter().rposition(Answered::done).unwrap_or(0);
    all.iter().take(last).skip(first).any(|job| job.refusal == number)
}

/// Each pair of jobs among the first, the earlier one first.
fn pairs(all: &[Answered]) -> impl Iterator<Item = (&Answered, &Answered)> {
    let first = &all[..all.len().min(AMONG)];
    first.iter().enumerate().flat_map(|(at, one)| first[at + 1..].iter().map(move |two| (one, two)))
}
