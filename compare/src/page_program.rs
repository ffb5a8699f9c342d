//! What the page program must print for any standard input at all.

use crate::job::{self, Job};
use crate::placement::scratch_needed;
use crate::refusal;

/// Width, height and ticket length, two bytes each.
const HEADER: usize = 6;
/// "or the ticket length is above 800".
pub const LONGEST_TICKET: usize = 800;
/// "`too big` if w·h is above 8192".
pub const MOST_PIXELS: u64 = 8192;

#[derive(Clone, Debug, PartialEq, Eq)]
pub enum Reply {
    BadInput,
    TooBig,
    Refused { number: u8, place: u64 },
    Done { work: u64, rows: Vec<Vec<u8>> },
}

pub fn reply(input: &[u8]) -> Reply {
    if input.len() < HEADER {
        return Reply::BadInput;
    }
    let number = |at: usize| u16::from_be_bytes([input[at], input[at + 1]]);
    let (width, height) = (u64::from(number(0)), u64::from(number(2)));
    let ticket_length = usize::from(number(4));
    if ticket_length > LONGEST_TICKET {
        return Reply::BadInput;
    }
    let pixels = width * height;
    if pixels > MOST_PIXELS {
        return Reply::TooBig;
    }
    if input.len() != HEADER + ticket_length + pixels as usize {
        return Reply::BadInput;
    }
    let (ticket, source) = input[HEADER..].split_at(ticket_length);
    answered(width, height, ticket, source)
}

/// "Both its pages stand at offset 0 with stride w, and its trays and scratch are just long
/// enough": w·h bytes a tray. With a zero side the trays are empty and the job is refused.
fn answered(width: u64, height: u64, ticket: &[u8], source: &[u8]) -> Reply {
    let outcome = job::run(&Job {
        ticket: ticket.to_vec(),
        width,
        height,
        source_offset: 0,
        source_stride: width,
        output_offset: 0,
        output_stride: width,
        source: source.to_vec(),
        output: vec![0; source.len()],
        scratch: vec![0; scratch_needed(width, height) as usize],
    });
    let answer = outcome.answer;
    if answer.refusal != refusal::NONE {
        return Reply::Refused { number: answer.refusal, place: answer.place };
    }
    let rows = outcome.output.chunks(width as usize).map(<[u8]>::to_vec);
    Reply::Done { work: answer.work, rows: rows.collect() }
}

impl Reply {
    /// The whole standard output.
    pub fn printed(&self) -> String {
        match self {
            Reply::Refused { place, .. } => format!("{} at {place}\n", self.kind()),
            Reply::Done { work, rows } => {
                let mut text = format!("done {work}\n");
                for row in rows {
                    let greys: Vec<String> = row.iter().map(u8::to_string).collect();
                    text += &(greys.join(" ") + "\n");
                }
                text
            }
            _ => self.kind() + "\n",
        }
    }

    /// The kind of answer, as a summary names it.
    pub fn kind(&self) -> String {
        match self {
            Reply::BadInput => "bad input".to_string(),
            Reply::TooBig => "too big".to_string(),
            Reply::Refused { number, .. } => format!("refused {number}"),
            Reply::Done { .. } => "done".to_string(),
        }
    }
}
