//! Lists of jobs laid end to end, and what a program that runs them must print: a line a list, with
//! its answer, the answers to its jobs and the later contents of its buffers.

use crate::tray::{self, Call, Listed, Outcome, JOB_NUMBERS};
use crate::trial::hex;

/// The numbers before the buffers: the count, and the buffers' lengths.
const HEAD: usize = 7;

/// A list in bytes, as `tray_host.c` reads it: the count and the lengths of jobs, tickets, source,
/// output, scratch and answers, eight bytes each, the lowest byte first, and then these six. Jobs
/// and answers are numbers of eight bytes, and so are their lengths counted.
pub fn entry(call: &Call) -> Vec<u8> {
    let bytes = [&call.tickets, &call.source, &call.output, &call.scratch].map(Vec::as_slice);
    let [jobs, answers] = [&call.jobs, &call.answers].map(|numbers| numbers.len() as u64);
    let lengths = bytes.map(|bytes| bytes.len() as u64);
    let head = [&[call.count, jobs][..], &lengths, &[answers]].concat();
    [in_bytes(&head), in_bytes(&call.jobs), bytes.concat(), in_bytes(&call.answers)].concat()
}

fn in_bytes(numbers: &[u64]) -> Vec<u8> {
    numbers.iter().flat_map(|number| number.to_le_bytes()).collect()
}

fn numbers(bytes: &[u8]) -> Vec<u64> {
    let number = |bytes: &[u8]| u64::from_le_bytes(bytes.try_into().expect("eight bytes"));
    bytes.chunks(8).map(number).collect()
}

/// The first entry's list and what comes after it; nothing if the input ends inside the entry.
pub fn first(list: &[u8]) -> Option<(Call, &[u8])> {
    let (head, mut rest) = (numbers(list.get(..8 * HEAD)?), list.get(8 * HEAD..)?);
    let mut part = |length: u64| {
        let part = rest.get(..length as usize)?;
        rest = &rest[part.len()..];
        Some(part)
    };
    let call = Call {
        count: head[0],
        jobs: numbers(part(head[1].saturating_mul(8))?),
        tickets: part(head[2])?.to_vec(),
        source: part(head[3])?.to_vec(),
        output: part(head[4])?.to_vec(),
        scratch: part(head[5])?.to_vec(),
        answers: numbers(part(head[6].saturating_mul(8))?),
    };
    Some((call, rest))
}

pub fn printed(mut list: &[u8]) -> String {
    let mut text = String::new();
    while let Some((call, rest)) = first(list) {
        text += &line(&tray::run(&call));
        list = rest;
    }
    text
}

/// Refusal, place and work of the whole list, then all numbers of the answers, the whole output
/// tray and the whole scratch.
pub fn line(Outcome { answer, output, scratch, answers }: &Outcome) -> String {
    let answer = format!("{} {} {}", answer.refusal, answer.place, answer.work);
    let answers = in_runs(answers);
    format!("{answer} answers{answers} output {} scratch {}\n", hex(output), hex(scratch))
}

/// Every number after a blank; one that stands several times in a row once, with how often, since
/// most answers are zero.
fn in_runs(numbers: &[u64]) -> String {
    let run = |run: &[u64]| match run.len() {
        1 => format!(" {}", run[0]),
        times => format!(" {}*{times}", run[0]),
    };
    numbers.chunk_by(|one, next| one == next).map(run).collect()
}

/// All that is lent to a list, to be told with a difference.
pub fn told(call: &Call) -> String {
    let mut text = format!("{} jobs, {} numbers", call.count, call.jobs.len());
    for (at, numbers) in call.jobs.chunks(JOB_NUMBERS).enumerate() {
        text += &match numbers.len() {
            JOB_NUMBERS => told_job(at, Listed::of(numbers)),
            _ => format!("\nbehind them{}", in_runs(numbers)),
        };
    }
    let buffers = [&call.tickets, &call.source, &call.output, &call.scratch].map(|b| hex(b));
    let [tickets, source, output, scratch] = buffers;
    text += &format!("\ntickets {tickets}\nsource {source}\noutput {output}\nscratch {scratch}");
    text + &format!("\n{} answers{}", call.answers.len(), in_runs(&call.answers))
}

fn told_job(at: usize, job: Listed) -> String {
    let mut text = format!("\njob {at} ticket {} of {}", job.ticket_start, job.ticket_length);
    text += &format!(" sides {} {}", job.width, job.height);
    text += &format!(" source at {} stride {}", job.source_offset, job.source_stride);
    text + &format!(" output at {} stride {}", job.output_offset, job.output_stride)
}
