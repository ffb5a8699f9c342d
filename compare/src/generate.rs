//! Seeded inputs of every kind: valid ones, ones at the limits and one past them, damaged ones.
//! Every function gives the same answer for the same seed and index.

mod boundary;
mod damage;
mod draft;
mod file_draft;
mod file_headers;
mod file_kinds;
mod file_numbers;
mod files;
mod flips;
mod inputs;
mod jobs;
mod lists;
mod questions;
mod tray_jobs;
mod trays;

pub use draft::Draft;
pub use files::{kinds as file_kinds, MadeFile, CUT_FILES};
pub use inputs::assemble;
pub use lists::{ticket_list, TicketList};

use crate::job::Job;
use crate::lines::{Lines, Sides};
use crate::random::Random;
use crate::reason::Question;
use crate::ticket::{CONNECTED, PERIODIC};
use crate::tray::Call;

/// How an input is made. A boundary one may be accepted or refused; a damaged one is mostly
/// refused, yet a flipped bit can leave a ticket valid.
#[derive(Clone, Copy, Debug, PartialEq, Eq)]
enum Make {
    Valid,
    Boundary,
    Damaged,
}

impl Make {
    fn any(random: &mut Random) -> Make {
        match random.below(10) {
            0..=3 => Make::Valid,
            4..=6 => Make::Boundary,
            _ => Make::Damaged,
        }
    }
}

/// Allowed lines and the sides of a page, to number steps on.
#[derive(Clone, Copy, Debug, PartialEq, Eq)]
pub struct LineSample {
    pub lines: Lines,
    pub sides: Sides,
}

/// A standard input for the page program.
pub fn page_input(seed: u64, index: u64) -> Vec<u8> {
    inputs::page_input(&mut Random::new(seed, index))
}

/// A ticket alone, rarely one that goes on for long.
pub fn ticket(seed: u64, index: u64) -> Vec<u8> {
    let random = &mut Random::new(seed, index);
    let (make, (width, height)) = (Make::any(random), draft::sides(random));
    let ticket = ticket_for(random, width, height, make);
    if random.one_in(1000) {
        return damage::lengthened(random, ticket);
    }
    ticket
}

/// A standard input for the number program.
pub fn number_input(seed: u64, index: u64) -> Vec<u8> {
    lists::number_input(&mut Random::new(seed, index))
}

/// A whole job at a random placement, with random old contents.
pub fn job(seed: u64, index: u64) -> Job {
    jobs::job(&mut Random::new(seed, index))
}

/// A job that finishes, and its flipped job, which lies elsewhere in trays of its own.
pub fn flip_pair(seed: u64, index: u64) -> [Job; 2] {
    flips::pair(&mut Random::new(seed, index))
}

/// A whole job on a P5 file, with random old contents.
pub fn file_job(seed: u64, index: u64) -> MadeFile {
    files::file_job(&mut Random::new(seed, index), index)
}

/// A whole list of jobs on one pair of trays, with random old contents.
pub fn tray_call(seed: u64, index: u64) -> Call {
    trays::call(&mut Random::new(seed, index))
}

/// A job, mostly one that finishes, and a pixel to be asked about, on its page or off it.
pub fn question(seed: u64, index: u64) -> Question {
    questions::question(&mut Random::new(seed, index))
}

pub fn line_sample(seed: u64, index: u64) -> LineSample {
    let random = &mut Random::new(seed, index);
    let kind = random.pick(&[CONNECTED, PERIODIC]);
    let (dx, dy) = draft::vector(random, kind);
    let phase = i64::from(draft::phase(random, kind, dx, dy));
    let lines = Lines { kind, dx: i64::from(dx), dy: i64::from(dy), phase };
    let (width, height) = draft::sides(random);
    LineSample { lines, sides: Sides { width: i64::from(width), height: i64::from(height) } }
}

/// Ticket bytes meant for a page of these sides.
fn ticket_for(random: &mut Random, width: u16, height: u16, make: Make) -> Vec<u8> {
    let draft = Draft::valid(random, width, height);
    match make {
        Make::Valid => draft.bytes(),
        Make::Boundary => boundary::ticket(random, draft, width, height),
        Make::Damaged => damage::ticket(random, &draft),
    }
}
