//! Document 01, "Work": comparisons, counted on every line of the page, block by block.

use crate::filter::{Pass, Window};
use crate::lines::{Lines, Sides};
use crate::ticket::Ticket;

/// The work of a finished job. It looks at no pixel and at no box.
pub fn of_job(sides: Sides, ticket: &Ticket) -> u64 {
    Pass::of(ticket.operation).iter().map(|&pass| of_pass(sides, ticket, pass)).sum()
}

pub fn of_pass(sides: Sides, ticket: &Ticket, pass: Pass) -> u64 {
    let (length, window) = (usize::from(ticket.length), pass.window(ticket));
    let lines = Lines::of(ticket).every_line(sides);
    lines.iter().map(|line| of_line(line.len(), length, window)).sum()
}

/// The work of one pass on a line of n steps, with blocks of this length.
pub fn of_line(n: usize, length: usize, window: Window) -> u64 {
    let steps: Vec<usize> = (0..n).collect();
    let mut block_of = Vec::new();
    let mut work = 0;
    for (number, block) in steps.chunks(length).enumerate() {
        for step in block {
            block_of.push(number);
            // The rightward running extreme, then the leftward one.
            work += u64::from(Some(step) != block.first());
            work += u64::from(Some(step) != block.last());
        }
    }
    for x in 0..n {
        let begins = x.saturating_sub(window.behind);
        let ends = (x + window.ahead).min(n - 1);
        work += u64::from(block_of[begins] != block_of[ends]);
    }
    work
}
