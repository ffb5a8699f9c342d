//! Other programs run over generated inputs and held against this reading. Each is named by its
//! path and its arguments.

use std::io;
use std::ops::Range;

use crate::generate::{self, MadeFile, TicketList};
use crate::job::{self, Job, Outcome};
use crate::page_program::reply;
use crate::refusal::{BOX_OFF_PAGE, PHASE, PIXELS, SOURCE_DOES_NOT_FIT, TICKET_ENDS};
use crate::ticket_list::LONGEST_LIST;
use crate::trial::{hex, Due, Trial};
use crate::{file_job, file_list, flip, job_list, marks, number_list, ticket_list};
use crate::{question_list, reason, reason_marks, tray, tray_list, tray_marks};

pub type Driver = fn(u64, u64, &[&str]) -> io::Result<Trial>;

/// Jobs for one run of a job program or a file program, lists for one of a tray program, and
/// questions for one of a question program.
const JOBS_A_RUN: u64 = 50;

/// The page program, one run an input.
pub fn pages(seed: u64, count: u64, program: &[&str]) -> io::Result<Trial> {
    let mut trial = Trial::new(seed, count, "inputs");
    trial.expect(&["done"]);
    trial.expect_refusals(BOX_OFF_PAGE);
    trial.expect(&["bad input", "too big"]);
    for index in 0..count {
        let input = generate::page_input(seed, index);
        let due = reply(&input);
        trial.count(&due.kind(), 1);
        let due = Due { index, input: hex(&input), text: due.printed() };
        trial.ask(program, &input, &[due])?;
    }
    Ok(trial)
}

/// The ticket program, as many tickets a run as it reads.
pub fn tickets(seed: u64, count: u64, program: &[&str]) -> io::Result<Trial> {
    let mut trial = Trial::new(seed, count, "tickets");
    trial.expect(&["ticket"]);
    trial.expect_refusals(PHASE);
    trial.expect(&["cut", "runs", "runs of 65536 bytes"]);
    // The first list has no ticket at all.
    let (mut first, mut list) = (0, TicketList::default());
    loop {
        let mut dues = Vec::new();
        for (index, ticket) in (first..).zip(&list.tickets) {
            trial.count(&ticket_list::kind(ticket), 1);
            dues.push(Due { index, input: hex(ticket), text: ticket_list::line(ticket) });
        }
        first += list.tickets.len() as u64;
        // The list's end is due `cut` or nothing; lines too many show here.
        let text = if list.cut { "cut\n".to_string() } else { String::new() };
        dues.push(Due { index: first, input: hex(&list.bytes), text });
        trial.count("cut", u64::from(list.cut));
        trial.count("runs", 1);
        trial.count("runs of 65536 bytes", u64::from(list.bytes.len() == LONGEST_LIST));
        trial.ask(program, &list.bytes, &dues)?;
        if first == count {
            return Ok(trial);
        }
        list = generate::ticket_list(seed, first, count);
    }
}

/// The number program, one run a line sample.
pub fn numbers(seed: u64, count: u64, program: &[&str]) -> io::Result<Trial> {
    let mut trial = Trial::new(seed, count, "line samples");
    trial.expect(&["numbers, connected", "numbers, periodic", "bad input"]);
    for index in 0..count {
        let input = generate::number_input(seed, index);
        trial.count(number_list::kind(&input), 1);
        let due = Due { index, input: hex(&input), text: number_list::printed(&input) };
        trial.ask(program, &input, &[due])?;
    }
    Ok(trial)
}

/// Entries laid end to end for one run of a program, and the line due for each.
#[derive(Default)]
struct Batch {
    list: Vec<u8>,
    dues: Vec<Due>,
}

impl Batch {
    fn push(&mut self, entry: Vec<u8>, due: Due) {
        self.list.extend(entry);
        self.dues.push(due);
    }

    fn push_job(&mut self, index: u64, job: &Job, outcome: &Outcome) {
        let due = Due { index, input: job_list::told(job), text: job_list::line(outcome) };
        self.push(job_list::entry(job), due);
    }
}

/// All indices, so many a run.
fn runs(count: u64, a_run: u64) -> impl Iterator<Item = Range<u64>> {
    (0..count).step_by(a_run as usize).map(move |first| first..count.min(first + a_run))
}

/// The job program, many jobs a run; it prints a job's line as soon as the job is done, so that a
/// job that crashes or does not come back is told.
pub fn jobs(seed: u64, count: u64, program: &[&str]) -> io::Result<Trial> {
    let mut trial = Trial::new(seed, count, "jobs");
    for indices in runs(count, JOBS_A_RUN) {
        let mut batch = Batch::default();
        for index in indices {
            let job = generate::job(seed, index);
            let outcome = job::run(&job);
            trial.count_marks(&marks::of(&job, &outcome));
            batch.push_job(index, &job, &outcome);
        }
        trial.ask(program, &batch.list, &batch.dues)?;
    }
    Ok(trial)
}

/// The job program once more, over jobs that finish, each with its flipped job. Both lines are held
/// to this reading, and then to one another: that is wish 2 whatever this reading says.
pub fn flips(seed: u64, count: u64, program: &[&str]) -> io::Result<Trial> {
    let mut trial = Trial::new(seed, count, "jobs and their flipped jobs");
    // Every pair has the same marks by name.
    let pair = generate::flip_pair(seed, 0);
    marks::of_flip(&pair, &job::run(&pair[0])).iter().for_each(|(mark, _)| trial.require(mark));
    for indices in runs(count, JOBS_A_RUN / 2) {
        let mut batch = Batch::default();
        let pairs: Vec<[Job; 2]> =
            indices.clone().map(|index| generate::flip_pair(seed, index)).collect();
        for (index, pair) in indices.zip(&pairs) {
            let outcomes = pair.each_ref().map(job::run);
            trial.count_marks(&marks::of_flip(pair, &outcomes[0]));
            for (job, outcome) in pair.iter().zip(&outcomes) {
                batch.push_job(index, job, outcome);
            }
        }
        let printed = trial.ask(program, &batch.list, &batch.dues)?;
        for ((pair, dues), lines) in pairs.iter().zip(batch.dues.chunks(2)).zip(printed.chunks(2)) {
            hold_flip(&mut trial, pair, dues, [&lines[0], &lines[1]]);
        }
    }
    Ok(trial)
}

/// A flipped job is due the very answer and page that were printed for the job itself, flipped.
fn hold_flip(trial: &mut Trial, pair: &[Job; 2], dues: &[Due], lines: [&[u8]; 2]) {
    if let Some([text, printed]) = flip::seen(pair, lines) {
        let input = format!("flipped: {}\nto: {}", dues[0].input, dues[1].input);
        trial.hold(&Due { index: dues[0].index, input, text }, printed.as_bytes());
    }
}

/// The file program, many jobs on files a run, as the job program.
pub fn files(seed: u64, count: u64, program: &[&str]) -> io::Result<Trial> {
    let mut trial = Trial::new(seed, count, "files");
    trial.require("done");
    // A page that is read out of a file always fits it.
    for number in (TICKET_ENDS..=PIXELS).filter(|&number| number != SOURCE_DOES_NOT_FIT) {
        trial.require(&format!("refused {number}"));
    }
    generate::file_kinds().iter().for_each(|(kind, _)| trial.require(kind));
    for indices in runs(count, JOBS_A_RUN) {
        let mut batch = Batch::default();
        for index in indices {
            let MadeFile { job, kinds } = generate::file_job(seed, index);
            let outcome = file_job::run(&job);
            trial.count(&file_list::kind(&outcome), 1);
            kinds.iter().for_each(|kind| trial.count(kind, 1));
            let text = file_list::line(&job, &outcome);
            batch.push(file_list::entry(&job), Due { index, input: file_list::told(&job), text });
        }
        trial.ask(program, &batch.list, &batch.dues)?;
    }
    Ok(trial)
}

/// The question program, many questions a run, as the job program.
pub fn questions(seed: u64, count: u64, program: &[&str]) -> io::Result<Trial> {
    let mut trial = Trial::new(seed, count, "questions");
    // Every question has the same marks by name.
    let question = generate::question(seed, 0);
    let marks = reason_marks::of(&question, &reason::of(&question));
    marks.iter().for_each(|(mark, _)| trial.require(mark));
    for indices in runs(count, JOBS_A_RUN) {
        let mut batch = Batch::default();
        for index in indices {
            let question = generate::question(seed, index);
            let reason = reason::of(&question);
            trial.count_marks(&reason_marks::of(&question, &reason));
            let (input, text) = (question_list::told(&question), question_list::line(&reason));
            batch.push(question_list::entry(&question), Due { index, input, text });
        }
        trial.ask(program, &batch.list, &batch.dues)?;
    }
    Ok(trial)
}

/// The tray program, many lists a run, as the job program.
pub fn lists(seed: u64, count: u64, program: &[&str]) -> io::Result<Trial> {
    let mut trial = Trial::new(seed, count, "lists of jobs");
    // Every list has the same marks by name.
    let call = generate::tray_call(seed, 0);
    tray_marks::of(&call, &tray::run(&call)).iter().for_each(|(mark, _)| trial.require(mark));
    for indices in runs(count, JOBS_A_RUN) {
        let mut batch = Batch::default();
        for index in indices {
            let call = generate::tray_call(seed, index);
            let outcome = tray::run(&call);
            trial.count_marks(&tray_marks::of(&call, &outcome));
            let text = tray_list::line(&outcome);
            batch.push(tray_list::entry(&call), Due { index, input: tray_list::told(&call), text });
        }
        trial.ask(program, &batch.list, &batch.dues)?;
    }
    Ok(trial)
}
