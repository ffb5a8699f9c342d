//! Whole jobs at random placements, with none, one or two flaws.

use super::{inputs, ticket_for, Draft, Make};
use crate::job::Job;
use crate::placement::{scratch_needed, Placement, LONGEST_STRIDE};
use crate::random::Random;

pub fn job(random: &mut Random) -> Job {
    let mut job = fitting_job(random);
    // Two flaws in one job show which of them is judged first.
    for _ in 0..random.pick(&[0, 0, 0, 1, 1, 2]) {
        flaw(random, &mut job);
    }
    job
}

/// A job whose pages fit; its ticket is mostly valid for it.
fn fitting_job(random: &mut Random) -> Job {
    let (ticket, width, height) = if random.one_in(60) {
        long_ticket(random)
    } else {
        let (width, height) = small_sides(random);
        let any = Make::any(random);
        let make = random.pick(&[Make::Valid, Make::Valid, Make::Valid, Make::Boundary, any]);
        (ticket_for(random, width, height, make), width, height)
    };
    lent(random, ticket, width, height)
}

pub fn small_sides(random: &mut Random) -> (u16, u16) {
    (random.between(1, 12) as u16, random.between(1, 12) as u16)
}

/// A job with this ticket on pages of these sides, which lie in trays they fit.
pub fn lent(random: &mut Random, ticket: Vec<u8>, width: u16, height: u16) -> Job {
    let (width, height) = (u64::from(width), u64::from(height));
    let (source_page, source_length) = placed(random, width, height);
    let (output_page, output_length) = placed(random, width, height);
    let scratch_length = scratch_needed(width, height) as usize + random.pick(&[0, 0, 1, 17]);
    Job {
        ticket,
        width,
        height,
        source_offset: source_page.offset,
        source_stride: source_page.stride,
        output_offset: output_page.offset,
        output_stride: output_page.stride,
        source: inputs::pixels(random, source_length),
        output: random.bytes(output_length),
        scratch: random.bytes(scratch_length),
    }
}

/// A valid ticket for one to three rows or columns of up to 8192 pixels, often along them.
pub fn long_ticket(random: &mut Random) -> (Vec<u8>, u16, u16) {
    let any = random.between(1000, 8192) as u16;
    let (long, few) = (random.pick(&[8192, 8191, any]), random.between(1, 3) as u16);
    let across = random.one_in(2);
    let (width, height) = if across { (long, few) } else { (few, long) };
    let mut draft = Draft::valid(random, width, height);
    if random.one_in(2) {
        (draft.dx, draft.dy) = if across { (1, 0) } else { (0, 1) };
        draft.phase = 0;
    }
    if few > 1 || random.one_in(2) {
        // Each pixel walks up to L steps in this reading; all of L only on a single line.
        draft.length = draft.length.min(500);
        draft.origin = draft.origin.min(draft.length - 1);
    }
    (draft.bytes(), width, height)
}

/// A page with neighbours beside, above and below it in its tray, and the tray's length.
fn placed(random: &mut Random, width: u64, height: u64) -> (Placement, usize) {
    // Up to three whole pages beside it where pages are small.
    let pages = random.below(if width <= 12 { 4 } else { 1 }) * width;
    let left_of_it = random.pick(&[0, 0, 1, width.min(60), pages]);
    let right_of_it = random.pick(&[0, 0, 1, 5, width.min(60), pages]);
    let mut stride = left_of_it + width + right_of_it;
    // The longest stride only where few rows keep the tray small.
    if height <= 12 && random.one_in(50) {
        stride = LONGEST_STRIDE;
    }
    let offset = random.below(3) * stride + left_of_it;
    let page = Placement { offset, width, height, stride };
    let spare = random.pick(&[0, 0, 1, right_of_it, 40]);
    (page, page.end() as usize + spare as usize)
}

fn flaw(random: &mut Random, job: &mut Job) {
    let huge = random.pick(&[u64::MAX, u64::MAX - 1, u64::MAX - 200, 1 << 63, 1 << 32]);
    let stride = random.pick(&[0, job.width.saturating_sub(1), LONGEST_STRIDE, 16385, huge]);
    let side = random.pick(&[0, 8192, 8193, huge]);
    match random.below(12) {
        0 => shorten(&mut job.source, &[1], random),
        1 => shorten(&mut job.output, &[1], random),
        2 => shorten(&mut job.scratch, &[1, 18], random),
        3 => job.source_offset = huge,
        4 => job.output_offset = huge,
        5 => {
            // Strides that follow, so that the width alone is judged.
            job.width = side;
            job.source_stride = job.source_stride.max(side.min(LONGEST_STRIDE));
            job.output_stride = job.output_stride.max(side.min(LONGEST_STRIDE));
        }
        6 => job.height = side,
        7 => job.source_stride = stride,
        8 => job.output_stride = stride,
        9 => job.source.clear(),
        10 => job.ticket.truncate(random.index(job.ticket.len() + 1)),
        _ => job.ticket.extend([7, 0, 8, 255, 255, 0, 0, 0, 2, 0, 1]),
    }
}

/// Cuts bytes off the end: one too few where there was nothing to spare.
fn shorten(bytes: &mut Vec<u8>, by: &[usize], random: &mut Random) {
    let by = random.pick(by);
    bytes.truncate(bytes.len().saturating_sub(by));
}
