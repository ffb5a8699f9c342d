//! Where the tickets of a list lie in their buffer and past it, and which of them lie over others.

use super::{pairs, Answered, Mark};
use crate::ticket;
use crate::tray::Call;

pub fn marks(call: &Call, all: &[Answered]) -> Vec<Mark> {
    let mut marks = empty_marks(call, all).to_vec();
    marks.extend(past_marks(call, all));
    marks.extend(small_looking_marks(call, all));
    marks.extend(shared_marks(all));
    marks
}

/// Whether start and length of some job's ticket have this to them.
fn any(all: &[Answered], holds: impl Fn(u64, u64) -> bool) -> bool {
    all.iter().any(|a| holds(a.job.ticket_start, a.job.ticket_length))
}

/// Whether a good ticket stands there in the buffer.
fn good(call: &Call, start: u64, length: u64) -> bool {
    let ticket = call.tickets.get(start as usize..(start + length) as usize);
    ticket.is_some_and(|bytes| ticket::read(bytes).is_ok())
}

fn empty_marks(call: &Call, all: &[Answered]) -> [Mark; 3] {
    let buffer = call.tickets.len() as u64;
    let empty = |holds: fn(&u64, &u64) -> bool| {
        any(all, |start, length| length == 0 && holds(&start, &buffer))
    };
    [
        ("empty ticket in the buffer", empty(u64::lt)),
        ("empty ticket at the buffer's end", empty(u64::eq)),
        ("empty ticket past the buffer", empty(u64::gt)),
    ]
}

fn past_marks(call: &Call, all: &[Answered]) -> [Mark; 4] {
    let buffer = call.tickets.len() as u64;
    let one_past = |start: u64, length: u64| start < buffer && length == buffer - start + 1;
    let else_good = |start, length| one_past(start, length) && good(call, start, length - 1);
    [
        ("ticket from the buffer's end on", any(all, |at, length| at == buffer && length > 0)),
        ("ticket from past the buffer on", any(all, |at, length| at > buffer && length > 0)),
        ("ticket one byte past the buffer", any(all, one_past)),
        ("ticket one byte past the buffer, else good", any(all, else_good)),
    ]
}

/// Tickets that are not in the buffer, yet would seem to be if numbers had 64 or 32 bits.
fn small_looking_marks(call: &Call, all: &[Answered]) -> [Mark; 4] {
    let buffer = call.tickets.len() as u64;
    let round = |start: u64, length: u64| {
        start.checked_add(length).is_none() && start.wrapping_add(length) <= buffer
    };
    let from_inside = |start, length| start <= buffer && round(start, length);
    let from_past = |start, length| start > buffer && round(start, length);
    let low = |number: u64| u64::from(number as u32);
    let seems_good = |start, length| good(call, low(start), low(length));
    let long_start = |start, length| start > low(start) && seems_good(start, length);
    let long_length = |start, length| length > low(length) && seems_good(start, length);
    [
        ("ticket round 2^64 from in the buffer", any(all, from_inside)),
        ("ticket round 2^64 from past the buffer", any(all, from_past)),
        ("ticket with a good start in 32 bits", any(all, long_start)),
        ("ticket with a good length in 32 bits", any(all, long_length)),
    ]
}

/// Tickets that have bytes in common.
fn shared_marks(all: &[Answered]) -> [Mark; 3] {
    let ticket = |a: &Answered| (a.job.ticket_start, a.job.ticket_length);
    let done = |one: &Answered, two: &Answered| one.done() && two.done();
    let inside = |one: &Answered, two: &Answered| {
        let (start, end) = (one.job.ticket_start, one.job.ticket_end());
        start < two.job.ticket_start && u128::from(two.job.ticket_start) < end && one.done()
    };
    [
        (
            "a ticket for two finished jobs",
            pairs(all).any(|(one, two)| done(one, two) && ticket(one) == ticket(two)),
        ),
        (
            "a finished job's ticket begins another's",
            pairs(all).any(|(one, two)| {
                let same_start = one.job.ticket_start == two.job.ticket_start;
                done(one, two) && same_start && ticket(one) != ticket(two)
            }),
        ),
        (
            "a ticket from inside a finished job's",
            pairs(all).any(|(one, two)| inside(one, two) || inside(two, one)),
        ),
    ]
}
