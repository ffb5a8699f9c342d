//! Jobs on files laid end to end, and what a program that runs them must print: a line a job, with
//! what is read of its file alone, its answer and the later contents of its buffers.

use crate::file_job::{self, FileJob, Outcome};
use crate::pgm::{self, Header};
use crate::refusal::{self, Refusal};
use crate::trial::hex;

/// A job in bytes, as `file_host.c` reads it: the lengths of ticket, file, output and scratch,
/// eight bytes each, the lowest byte first, and then their bytes.
pub fn entry(job: &FileJob) -> Vec<u8> {
    let buffers = [&job.ticket, &job.file, &job.output, &job.scratch].map(Vec::as_slice);
    let lengths = buffers.map(|bytes| (bytes.len() as u64).to_le_bytes());
    [lengths.concat(), buffers.concat()].concat()
}

/// The first entry's job and what comes after it; nothing if the list ends inside the entry.
pub fn first(list: &[u8]) -> Option<(FileJob, &[u8])> {
    let (head, mut rest) = (list.get(..32)?, list.get(32..)?);
    let number = |bytes: &[u8]| u64::from_le_bytes(bytes.try_into().expect("eight bytes"));
    let lengths: Vec<u64> = head.chunks(8).map(number).collect();
    let mut part = |at: usize| {
        let part = rest.get(..lengths[at] as usize)?;
        rest = &rest[part.len()..];
        Some(part.to_vec())
    };
    let (ticket, file, output, scratch) = (part(0)?, part(1)?, part(2)?, part(3)?);
    Some((FileJob { ticket, file, output, scratch }, rest))
}

pub fn printed(mut list: &[u8]) -> String {
    let mut text = String::new();
    while let Some((job, rest)) = first(list) {
        text += &line(&job, &file_job::run(&job));
        list = rest;
    }
    text
}

/// The file read alone: refusal, place and the header's four numbers. The job: refusal, place,
/// work and length, then the whole output and the whole scratch.
pub fn line(job: &FileJob, Outcome { answer, output, scratch }: &Outcome) -> String {
    let (Refusal { number, place }, header) = pgm::shown(&job.file);
    let Header { width, height, maximum, start } = header;
    let read = format!("read {number} {place} {width} {height} {maximum} {start}");
    let file_job::Answer { refusal, place, work, length } = answer;
    let run = format!("run {refusal} {place} {work} {length}");
    format!("{read} {run} output {} scratch {}\n", hex(output), hex(scratch))
}

/// All that is lent to a job, to be told with a difference; the file as text too.
pub fn told(job: &FileJob) -> String {
    let buffers = [&job.ticket, &job.file, &job.output, &job.scratch].map(|bytes| hex(bytes));
    let [ticket, file, output, scratch] = buffers;
    let text = job.file.escape_ascii();
    format!("ticket {ticket}\nfile {file}\n{text}\noutput {output}\nscratch {scratch}")
}

/// The kind of answer, as a summary names it.
pub fn kind(outcome: &Outcome) -> String {
    match outcome.answer.refusal {
        refusal::NONE => "done".to_string(),
        number => format!("refused {number}"),
    }
}
