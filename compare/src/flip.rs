//! Wish 2: "Flipping the page and its boxes (top to bottom for a shallow vector, left to right for
//! a steep one) and negating the minor component then flips the result."

use crate::filter::hidden;
use crate::job::Job;
use crate::job_list;
use crate::lines::{Lines, Pixel, Sides};
use crate::ticket::{self, Ticket};

#[derive(Clone, Copy, Debug, PartialEq, Eq)]
pub enum Flip {
    TopToBottom,
    LeftToRight,
}

/// Where a number of two bytes lies in every ticket that is read: its first six fields have their
/// own lengths, 4, 4, 7, 5, 5 and 5 with their heads.
const DX: usize = 11;
const DY: usize = 13;
/// The first box field, and the length of each.
const BOXES: usize = 30;
const BOX_FIELD: usize = 11;
/// Left, top, width and height in a box field.
const LEFT: usize = 3;
const TOP: usize = 5;
const WIDTH: usize = 7;
const HEIGHT: usize = 9;

impl Flip {
    /// The flip that goes with a ticket's vector.
    pub fn of(ticket: &Ticket) -> Flip {
        if Lines::of(ticket).shallow() {
            Flip::TopToBottom
        } else {
            Flip::LeftToRight
        }
    }

    /// Where a pixel comes to lie.
    pub fn pixel(self, sides: Sides, Pixel { column, row }: Pixel) -> Pixel {
        match self {
            Flip::TopToBottom => Pixel { column, row: sides.height - 1 - row },
            Flip::LeftToRight => Pixel { column: sides.width - 1 - column, row },
        }
    }

    /// A ticket with the minor component negated and its boxes, which lie on the page, flipped. All
    /// its other bytes stay.
    fn ticket(self, sides: Sides, ticket: &[u8]) -> Vec<u8> {
        let (minor, near, extent, side) = match self {
            Flip::TopToBottom => (DY, TOP, HEIGHT, sides.height),
            Flip::LeftToRight => (DX, LEFT, WIDTH, sides.width),
        };
        let mut flipped = ticket.to_vec();
        change(&mut flipped[minor..], |component| component.wrapping_neg());
        for field in flipped[BOXES..].chunks_mut(BOX_FIELD) {
            let extent = u16::from_be_bytes([field[extent], field[extent + 1]]);
            // What lay past the box's far edge now lies before it.
            change(&mut field[near..], |near| side as u16 - near - extent);
        }
        flipped
    }
}

/// Changes the big-endian number in the first two bytes.
fn change(bytes: &mut [u8], to: impl Fn(u16) -> u16) {
    let number = to(u16::from_be_bytes([bytes[0], bytes[1]]));
    bytes[..2].copy_from_slice(&number.to_be_bytes());
}

/// The ticket of a job that finishes.
fn ticket_of(job: &Job) -> Ticket {
    ticket::read(&job.ticket).expect("a job that finishes has a ticket that is read")
}

/// The flipped job of a job that finishes. It takes over what is lent elsewhere for a page of the
/// same sides, all but the ticket and the unhidden bytes of the source page: what lies under a box
/// is absent, so it need not be flipped.
pub fn flipped(job: &Job, elsewhere: Job) -> Job {
    let (ticket, sides) = (ticket_of(job), job.sides());
    let (flip, boxes) = (Flip::of(&ticket), ticket.hidden_boxes());
    let mut flipped = Job { ticket: flip.ticket(sides, &job.ticket), ..elsewhere };
    let (from, to) = (job.source_page(), flipped.source_page());
    for at in sides.pixels().into_iter().filter(|&at| !hidden(boxes, at)) {
        flipped.source[to.byte(flip.pixel(sides, at))] = job.source[from.byte(at)];
    }
    flipped
}

/// What was printed for a job, its page flipped, and what was printed for its flipped job; both
/// must be the same. Nothing if one of them cannot be read: it is not the line due then, and told
/// as such.
pub fn seen([job, flipped]: &[Job; 2], printed: [&[u8]; 2]) -> Option<[String; 2]> {
    let (flip, pixels) = (Flip::of(&ticket_of(job)), job.sides().pixels());
    let turned: Vec<Pixel> = pixels.iter().map(|&at| flip.pixel(job.sides(), at)).collect();
    let due = job_list::page_seen(job, printed[0], &turned)?;
    Some([due, job_list::page_seen(flipped, printed[1], &pixels)?])
}
