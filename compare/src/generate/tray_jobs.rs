//! The jobs of a list: pages that overlap in small trays, tickets that share one buffer, and flaws
//! amid jobs that finish.

use super::{ticket_for, Make};
use crate::placement::{scratch_needed, Placement, LONGEST_STRIDE};
use crate::random::Random;
use crate::tray::Listed;

/// A ticket without boxes, and each box field.
const FIELDS: u64 = 30;
const BOX_FIELD: u64 = 11;
/// From so many jobs on a list is long, and its pages are tiny.
const LONG: usize = 10;
const LONGEST_SIDE: u16 = 7;
const LONGEST_TINY_SIDE: u16 = 4;

/// A list before its buffers are filled.
pub struct ListDraft {
    pub jobs: Vec<Listed>,
    pub tickets: Vec<u8>,
    pub source_length: u64,
    pub output_length: u64,
    longest_side: u16,
    /// One job in so many has a flaw.
    flaws: u64,
}

impl ListDraft {
    pub fn new(random: &mut Random, count: usize) -> ListDraft {
        let long = count >= LONG;
        let longest_side = if long { LONGEST_TINY_SIDE } else { LONGEST_SIDE };
        // Every page fits a tray that is not empty.
        let least = i64::from(longest_side) * i64::from(longest_side);
        let mut tray = || match random.below(60) {
            0 => 0,
            _ => random.between(least, 4 * least) as u64,
        };
        let (source_length, output_length) = (tray(), tray());
        let flaws = random.pick(&[3, 5, 12, 100]);
        let (jobs, tickets) = (Vec::new(), Vec::new());
        let mut list =
            ListDraft { jobs, tickets, source_length, output_length, longest_side, flaws };
        for _ in 0..count {
            list.add(random);
        }
        list
    }

    fn add(&mut self, random: &mut Random) {
        let mut job = self.placed(random);
        if random.one_in(self.flaws) {
            self.flaw(random, &mut job);
        } else {
            self.give_ticket(random, &mut job);
        }
        self.jobs.push(job);
    }

    /// A job that was added before.
    fn earlier(&self, random: &mut Random) -> Option<Listed> {
        (!self.jobs.is_empty()).then(|| random.pick(&self.jobs))
    }

    /// Pages in both trays; the output page now and then the very one of an earlier job.
    fn placed(&self, random: &mut Random) -> Listed {
        let again = self.earlier(random).filter(sound_sides).filter(|_| random.one_in(5));
        let job = again.unwrap_or_else(|| {
            let mut side = || random.between(1, i64::from(self.longest_side)) as u64;
            let (width, height) = (side(), side());
            let (output_offset, output_stride) = place(random, width, height, self.output_length);
            Listed { width, height, output_offset, output_stride, ..Listed::default() }
        });
        let (source_offset, source_stride) =
            place(random, job.width, job.height, self.source_length);
        Listed { source_offset, source_stride, ..job }
    }

    /// The ticket of an earlier job, whole or without its last boxes, or one of its own.
    fn give_ticket(&mut self, random: &mut Random, job: &mut Listed) {
        let share = if self.longest_side == LONGEST_TINY_SIDE { 0..=5 } else { 0..=1 };
        match self.earlier(random) {
            Some(other) if share.contains(&random.below(8)) => {
                (job.ticket_start, job.ticket_length) = (other.ticket_start, other.ticket_length);
                let boxes = other.ticket_length.saturating_sub(FIELDS) / BOX_FIELD;
                if boxes > 0 && random.one_in(2) {
                    job.ticket_length = FIELDS + BOX_FIELD * random.below(boxes);
                }
            }
            _ => self.append(random, job, Make::Valid),
        }
    }

    /// A new ticket in the buffer, meant for the job's sides.
    fn append(&mut self, random: &mut Random, job: &mut Listed, make: Make) {
        let ticket = ticket_for(random, job.width as u16, job.height as u16, make);
        let between = random.pick(&[0, 0, 0, 1, 3]);
        self.tickets.extend(random.bytes(between));
        (job.ticket_start, job.ticket_length) = (self.tickets.len() as u64, ticket.len() as u64);
        self.tickets.extend(ticket);
    }

    /// A ticket at fault, or a good one and a placement at fault.
    fn flaw(&mut self, random: &mut Random, job: &mut Listed) {
        let make = if random.one_in(2) { Make::Boundary } else { Make::Damaged };
        let kind = random.below(12);
        self.append(random, job, if kind < 6 { make } else { Make::Valid });
        let huge = random.pick(&[u64::MAX, u64::MAX - 1, u64::MAX - 200, 1 << 63, 1 << 32]);
        let side = random.pick(&[0, 8192, 8193, huge]);
        let stride = random.pick(&[job.width - 1, LONGEST_STRIDE + 1, huge]);
        // Where the page would end one past its tray.
        let past = |tray: u64, stride| (tray + 1).saturating_sub(extent(job, stride));
        let past_source = past(self.source_length, job.source_stride);
        let past_output = past(self.output_length, job.output_stride);
        match kind {
            6 => job.width = side,
            7 => job.height = side,
            8 => job.source_stride = stride,
            9 => job.output_stride = stride,
            10 => job.source_offset = random.pick(&[past_source, huge]),
            11 => job.output_offset = random.pick(&[past_output, huge]),
            _ => {}
        }
    }

    /// Once all tickets are laid, sends a few jobs for tickets that are empty, begin inside another
    /// or are not wholly in the buffer.
    pub fn stray_tickets(&mut self, random: &mut Random) {
        let (length, many) = (self.tickets.len() as u64, random.pick(&[4, 8, 30, 200]));
        let last = self.jobs.iter().map(|job| job.ticket_start).max().unwrap_or(0);
        for job in &mut self.jobs {
            if random.one_in(many) {
                let start = random.pick(&[job.ticket_start, last]);
                (job.ticket_start, job.ticket_length) =
                    stray(random, start, job.ticket_length, length);
            }
        }
    }

    /// Enough scratch for every job, or for some of them only.
    pub fn scratch_length(&self, random: &mut Random) -> usize {
        let sound = self.jobs.iter().filter(|job| sound_sides(job));
        let needed: Vec<usize> =
            sound.map(|job| scratch_needed(job.width, job.height) as usize).collect();
        let most = needed.iter().copied().max().unwrap_or(0);
        let one = if needed.is_empty() { 0 } else { random.pick(&needed) };
        let spare = random.pick(&[0, 0, 1, 17]);
        match random.below(16) {
            0..=10 => most + spare,
            11..=13 => one + spare,
            14 => one.saturating_sub(1),
            _ => random.index(most + 1),
        }
    }
}

/// Whether no flaw has touched a job's sides.
fn sound_sides(job: &Listed) -> bool {
    let sound = 1..=u64::from(LONGEST_SIDE);
    sound.contains(&job.width) && sound.contains(&job.height)
}

/// From a page's first byte to one past its last.
fn extent(job: &Listed, stride: u64) -> u64 {
    Placement { offset: 0, stride, ..job.output_page() }.end() as u64
}

/// Offset and stride of a page anywhere in a tray, often at its beginning or its end.
fn place(random: &mut Random, width: u64, height: u64, tray: u64) -> (u64, u64) {
    let job = Listed { width, height, ..Listed::default() };
    let wide = width + random.pick(&[0, 0, 1, 3, width, 2 * width]);
    let stride = if extent(&job, wide) <= tray { wide } else { width };
    let last = tray.saturating_sub(extent(&job, stride));
    let any = random.below(last + 1);
    (random.pick(&[0, last, any, any]), stride)
}

/// Start and length of a ticket, from those of one that is in the buffer of this length.
fn stray(random: &mut Random, start: u64, ticket: u64, buffer: u64) -> (u64, u64) {
    let (end, any) = (random.pick(&[buffer, start]), random.below(ticket.min(buffer - start) + 1));
    let before = random.between(1, 40) as u64;
    match random.below(12) {
        0 => (end, 0),
        1 => (random.pick(&[buffer + 1, u64::MAX]), 0),
        2 => (random.pick(&[buffer, buffer + 1, buffer + 30]), ticket.max(1)),
        3 => (random.pick(&[1 << 63, u64::MAX - ticket, u64::MAX]), ticket),
        // In 32 bits the start would be a good one.
        4 => ((1 << 32) + start, ticket),
        5 => (start, (1 << 32) + ticket),
        6..=7 => (start, buffer - start + 1),
        8 => (start, u64::MAX),
        // The end comes round to a byte of the buffer.
        9 if start > 0 => (start, (0u64.wrapping_sub(start)) + random.below(start)),
        10 => (0u64.wrapping_sub(before), before + random.below(buffer + 1)),
        _ => (start + any, ticket.min(buffer - start) - any),
    }
}
