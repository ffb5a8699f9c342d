//! Jobs laid end to end, and what a program that runs them must print: a line a job, with its
//! answer and the later contents of its buffers.

use crate::job::{self, Job, Outcome};
use crate::lines::Pixel;
use crate::trial::hex;

/// A job in bytes, as `host.c` reads it: ten numbers of eight bytes, the lowest byte first, then
/// the bytes of ticket, source, output and scratch.
pub fn entry(job: &Job) -> Vec<u8> {
    let buffers = [&job.ticket, &job.source, &job.output, &job.scratch].map(Vec::as_slice);
    let source = [job.source_offset, job.source_stride];
    let output = [job.output_offset, job.output_stride];
    let lengths = buffers.map(|bytes| bytes.len() as u64);
    let numbers = [&[job.width, job.height][..], &source, &output, &lengths].concat();
    numbers.into_iter().flat_map(u64::to_le_bytes).chain(buffers.concat()).collect()
}

/// The first entry's job and what comes after it; nothing if the list ends inside the entry.
pub fn first(list: &[u8]) -> Option<(Job, &[u8])> {
    let (head, mut rest) = (list.get(..80)?, list.get(80..)?);
    let number = |bytes: &[u8]| u64::from_le_bytes(bytes.try_into().expect("eight bytes"));
    let numbers: Vec<u64> = head.chunks(8).map(number).collect();
    let mut part = |at: usize| {
        let part = rest.get(..numbers[at] as usize)?;
        rest = &rest[part.len()..];
        Some(part.to_vec())
    };
    let job = Job {
        width: numbers[0],
        height: numbers[1],
        source_offset: numbers[2],
        source_stride: numbers[3],
        output_offset: numbers[4],
        output_stride: numbers[5],
        ticket: part(6)?,
        source: part(7)?,
        output: part(8)?,
        scratch: part(9)?,
    };
    Some((job, rest))
}

pub fn printed(mut list: &[u8]) -> String {
    let mut text = String::new();
    while let Some((job, rest)) = first(list) {
        text += &line(&job::run(&job));
        list = rest;
    }
    text
}

/// Refusal, place and work, then the whole output tray and the whole scratch.
pub fn line(Outcome { answer, output, scratch }: &Outcome) -> String {
    let answer = format!("{} {} {}", answer.refusal, answer.place, answer.work);
    format!("{answer} output {} scratch {}\n", hex(output), hex(scratch))
}

/// What a printed line says of a job's page: refusal, place and work, then the output page, its
/// pixels in this order. Nothing if it is no such line for this job.
pub fn page_seen(job: &Job, line: &[u8], order: &[Pixel]) -> Option<String> {
    let words: Vec<&str> = std::str::from_utf8(line).ok()?.strip_suffix('\n')?.split(' ').collect();
    let [refusal, place, work, "output", output, "scratch", _] = words[..] else {
        return None;
    };
    let mut text = format!("{refusal} {place} {work} page ");
    for &pixel in order {
        let byte = job.output_page().byte(pixel);
        text += output.get(2 * byte..2 * byte + 2)?;
    }
    Some(text)
}

/// All that is lent to a job, to be told with a difference.
pub fn told(job: &Job) -> String {
    let mut text = format!("ticket {} sides {} {}", hex(&job.ticket), job.width, job.height);
    text += &format!(" source at {} stride {}", job.source_offset, job.source_stride);
    text += &format!(" output at {} stride {}", job.output_offset, job.output_stride);
    let [source, output, scratch] = [&job.source, &job.output, &job.scratch].map(|b| hex(b));
    text + &format!("\nsource {source}\noutput {output}\nscratch {scratch}")
}
