//! Questions about pixels laid end to end, and what a program that answers them must print: a line
//! a question, with the nine numbers of its reason.

use crate::placement::Placement;
use crate::reason::{self, Question, Reason};
use crate::trial::hex;

/// The numbers before the buffers.
const HEAD: usize = 12;

/// A question in bytes, as `why_host.c` reads it: sides, offset and stride of source and of output,
/// the lengths of ticket, source, output and scratch, column and row, eight bytes each, the lowest
/// byte first, and then the bytes of ticket and source.
pub fn entry(question: &Question) -> Vec<u8> {
    let (source, output) = (question.source_page, question.output_page);
    let numbers: [u64; HEAD] = [
        source.width,
        source.height,
        source.offset,
        source.stride,
        output.offset,
        output.stride,
        question.ticket.len() as u64,
        question.source.len() as u64,
        question.output_length,
        question.scratch_length,
        question.column,
        question.row,
    ];
    let buffers = [&question.ticket[..], &question.source].concat();
    numbers.into_iter().flat_map(u64::to_le_bytes).chain(buffers).collect()
}

/// The first entry's question and what comes after it; nothing if the list ends inside the entry.
pub fn first(list: &[u8]) -> Option<(Question, &[u8])> {
    let (head, mut rest) = (list.get(..8 * HEAD)?, &list[8 * HEAD..]);
    let number = |bytes: &[u8]| u64::from_le_bytes(bytes.try_into().expect("eight bytes"));
    let numbers: Vec<u64> = head.chunks(8).map(number).collect();
    let mut part = |at: usize| {
        let part = rest.get(..numbers[at] as usize)?;
        rest = &rest[part.len()..];
        Some(part.to_vec())
    };
    let (width, height) = (numbers[0], numbers[1]);
    let page = |offset, stride| Placement { offset, width, height, stride };
    let question = Question {
        ticket: part(6)?,
        source_page: page(numbers[2], numbers[3]),
        output_page: page(numbers[4], numbers[5]),
        source: part(7)?,
        output_length: numbers[8],
        scratch_length: numbers[9],
        column: numbers[10],
        row: numbers[11],
    };
    Some((question, rest))
}

pub fn printed(mut list: &[u8]) -> String {
    let mut text = String::new();
    while let Some((question, rest)) = first(list) {
        text += &line(&reason::of(&question));
        list = rest;
    }
    text
}

/// Refusal, place, kind, box and phase, then column and row of through and of from.
pub fn line(reason: &Reason) -> String {
    let Reason { refusal, place, kind, hidden_box, phase, through, from } = reason;
    let steps = [through.column, through.row, from.column, from.row].map(|n| n.to_string());
    format!("{refusal} {place} {kind} {hidden_box} {phase} {}\n", steps.join(" "))
}

/// All that is asked and lent, to be told with a difference.
pub fn told(question: &Question) -> String {
    let (source, output) = (question.source_page, question.output_page);
    let mut text = format!("column {} row {}", question.column, question.row);
    text += &format!(" sides {} {}", source.width, source.height);
    text += &format!(" source at {} stride {}", source.offset, source.stride);
    text += &format!(" output at {} stride {}", output.offset, output.stride);
    text += &format!(" of {} scratch of {}", question.output_length, question.scratch_length);
    text + &format!("\nticket {}\nsource {}", hex(&question.ticket), hex(&question.source))
}
