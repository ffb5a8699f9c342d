//! Document 02, wish 4: "Why did this pixel come out so?" The windows are listed step by step and
//! the first step that gives the result is taken.

use crate::filter::{holds, Page, Pass};
use crate::job::{self, Job, Lengths};
use crate::lines::{Lines, Pixel, Sides, Way};
use crate::placement::Placement;
use crate::refusal::{self, unless, Refusal};
use crate::ticket::Ticket;

/// Kinds of reason; 2 is left for later.
pub const HIDDEN: u8 = 1;
pub const ONE_PASS: u8 = 3;
pub const TWO_PASSES: u8 = 4;

/// "Given a job and a pixel." Output tray and scratch are not lent, as nothing is written: only
/// their lengths are said. Both pages share their sides.
#[derive(Clone, Debug, PartialEq, Eq)]
pub struct Question {
    pub ticket: Vec<u8>,
    pub source_page: Placement,
    pub output_page: Placement,
    pub source: Vec<u8>,
    pub output_length: u64,
    pub scratch_length: u64,
    pub column: u64,
    pub row: u64,
}

/// Refusal and place alone for a question that is refused, else kind and what it means; all the
/// rest is zero.
#[derive(Clone, Copy, Debug, Default, PartialEq, Eq)]
pub struct Reason {
    pub refusal: u8,
    pub place: u64,
    pub kind: u8,
    pub hidden_box: u64,
    pub phase: u16,
    pub through: Pixel,
    pub from: Pixel,
}

impl Question {
    pub fn about(job: Job, column: u64, row: u64) -> Question {
        let [source_page, output_page] = job.pages();
        let Lengths { output: output_length, scratch: scratch_length, .. } = job.lengths();
        let Job { ticket, source, .. } = job;
        Question {
            ticket,
            source_page,
            output_page,
            source,
            output_length,
            scratch_length,
            column,
            row,
        }
    }

    pub fn pages(&self) -> [Placement; 2] {
        [self.source_page, self.output_page]
    }

    pub fn lengths(&self) -> Lengths {
        let (output, scratch) = (self.output_length, self.scratch_length);
        Lengths { source: self.source.len() as u64, output, scratch }
    }

    /// Asked for any sides at all.
    pub fn on_page(&self) -> bool {
        self.column < self.source_page.width && self.row < self.source_page.height
    }

    /// Asked only of a pixel on a page within the limits.
    pub fn pixel(&self) -> Pixel {
        Pixel { column: self.column as i64, row: self.row as i64 }
    }
}

pub fn of(question: &Question) -> Reason {
    match judged(question) {
        Ok(ticket) => named(question, &ticket),
        Err(Refusal { number, place }) => Reason { refusal: number, place, ..Reason::default() },
    }
}

/// The job's refusals, then "19, pixel off the page, after 14, place 0".
fn judged(question: &Question) -> Result<Ticket, Refusal> {
    let ticket = job::judged(&question.ticket, question.pages(), question.lengths())?;
    unless(question.on_page(), refusal::PIXEL_OFF_PAGE, 0)?;
    Ok(ticket)
}

/// "For one pass, the first unhidden step in the window whose value is the result; for two passes,
/// the first unhidden step of the second window that gives the result, then the first unhidden step
/// in that one's own window that gave it. For a hidden pixel, the first box that holds it."
fn named(question: &Question, ticket: &Ticket) -> Reason {
    let (pixel, boxes) = (question.pixel(), ticket.hidden_boxes());
    if let Some(number) = boxes.iter().position(|hidden_box| holds(hidden_box, pixel)) {
        return Reason { kind: HIDDEN, hidden_box: number as u64, ..Reason::default() };
    }
    let greys = question.source_page.greys(&question.source);
    let page = Page::unhidden(question.source_page.sides(), &greys, boxes);
    let (kind, through, from) = match *Pass::of(ticket.operation) {
        [only] => (ONE_PASS, pixel, first_giving(&page, ticket, only, pixel)),
        [first, second] => {
            let between = page.after(ticket, first);
            let through = first_giving(&between, ticket, second, pixel);
            (TWO_PASSES, through, first_giving(&page, ticket, first, through))
        }
        _ => panic!("an operation has one pass or two"),
    };
    Reason { kind, phase: ticket.phase, through, from, ..Reason::default() }
}

/// The first step of an unhidden pixel's window that has, before a pass, what the pixel has after
/// it. A hidden step has nothing, so it is never the first.
fn first_giving(page: &Page, ticket: &Ticket, pass: Pass, pixel: Pixel) -> Pixel {
    let result = page.result(ticket, pass, pixel);
    let steps = window(page.sides, ticket, pass, pixel);
    let first = steps.into_iter().find(|&at| page.grey(at) == result);
    first.expect("an extreme is one of the greys it is taken of")
}

/// The in-page steps of a pixel's window, the smaller step first.
fn window(sides: Sides, ticket: &Ticket, pass: Pass, pixel: Pixel) -> Vec<Pixel> {
    let (lines, window) = (Lines::of(ticket), pass.window(ticket));
    let mut steps: Vec<Pixel> = lines.walk(sides, pixel, Way::Behind).take(window.behind).collect();
    steps.reverse();
    steps.push(pixel);
    steps.extend(lines.walk(sides, pixel, Way::Ahead).take(window.ahead));
    steps
}
