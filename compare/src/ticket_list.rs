//! Tickets laid end to end, and what the ticket program must print for them.

use crate::refusal::{self, Refusal};
use crate::ticket::{self, Ticket};

/// The ticket program reads "up to 65,536 bytes".
pub const LONGEST_LIST: usize = 65536;

/// A ticket after its two-byte length.
pub fn entry(ticket: &[u8]) -> Vec<u8> {
    let length = u16::try_from(ticket.len()).expect("a ticket's length has two bytes");
    [&length.to_be_bytes(), ticket].concat()
}

/// The first entry's ticket and what comes after it; nothing if the list ends inside the entry.
fn first(list: &[u8]) -> Option<(&[u8], &[u8])> {
    let end = 2 + usize::from(u16::from_be_bytes(list.get(..2)?.try_into().ok()?));
    Some((list.get(2..end)?, &list[end..]))
}

pub fn printed(mut list: &[u8]) -> String {
    let mut text = String::new();
    while !list.is_empty() {
        let Some((ticket, rest)) = first(list) else {
            return text + "cut\n";
        };
        text += &line(ticket);
        list = rest;
    }
    text
}

/// The line for one ticket.
pub fn line(bytes: &[u8]) -> String {
    let (Refusal { number, place }, t) = ticket::shown(bytes);
    if number != refusal::NONE {
        return format!("refused {number} at {place}\n");
    }
    fields(&t)
}

fn fields(t: &Ticket) -> String {
    let mut line = format!("ticket {} {} {} {}", t.operation, t.line, t.dx, t.dy);
    line += &format!(" {} {} {} {}", t.length, t.origin, t.phase, t.count);
    for b in t.hidden_boxes() {
        line += &format!(" {},{},{},{}", b.left, b.top, b.width, b.height);
    }
    line + "\n"
}

/// The kind of answer, as a summary names it.
pub fn kind(bytes: &[u8]) -> String {
    match ticket::shown(bytes).0.number {
        refusal::NONE => "ticket".to_string(),
        number => format!("refused {number}"),
    }
}
