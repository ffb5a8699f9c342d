//! Jobs with a pixel of each to be asked about: pages of few greys, so that several steps of a
//! window give the result; boxes that lie over one another; pixels off the page; and the flaws of
//! jobs, so that a pixel off the page is asked about together with each of them.

use super::{draft, flips, jobs, ticket_for, Draft, Make};
use crate::job::Job;
use crate::lines::{Lines, Pixel, Way};
use crate::placement::{scratch_needed, Placement};
use crate::random::Random;
use crate::reason::Question;
use crate::ticket::{self, HiddenBox, BOX_PLACES, CLOSE, ERODE, OPEN, PERIODIC};

pub fn question(random: &mut Random) -> Question {
    let fitting = random.below(12) < 7;
    let mut question = if fitting { fitting_question(random) } else { flawed_question(random) };
    if question.pages().iter().all(Placement::within_limits) && random.one_in(8) {
        say_lengths(random, &mut question);
    }
    question
}

fn fitting_question(random: &mut Random) -> Question {
    let mut job = fitting_job(random);
    let (column, row) = match random.below(16) {
        0 => off_page(random, &job),
        1..=10 => plant_stroke(random, &mut job),
        _ => pixel(random, &job),
    };
    Question::about(job, column, row)
}

/// Every other pixel is off the page, so that it is asked about together with each flaw of a job.
fn flawed_question(random: &mut Random) -> Question {
    let any_flaw = random.below(5) < 2;
    let job = if any_flaw { jobs::job(random) } else { job_with_odd_ticket(random) };
    let off = random.one_in(2);
    let (column, row) = if off { off_page(random, &job) } else { pixel(random, &job) };
    Question::about(job, column, row)
}

/// Only the ticket can be at fault.
fn job_with_odd_ticket(random: &mut Random) -> Job {
    let (width, height) = jobs::small_sides(random);
    let make = random.pick(&[Make::Boundary, Make::Boundary, Make::Boundary, Make::Damaged]);
    let ticket = ticket_for(random, width, height, make);
    jobs::lent(random, ticket, width, height)
}

/// A job that finishes, mostly on a page of few greys.
fn fitting_job(random: &mut Random) -> Job {
    let (ticket, width, height) = if random.one_in(40) {
        jobs::long_ticket(random)
    } else {
        let (width, height) = sides(random);
        (ticket(random, width, height), width, height)
    };
    let mut job = jobs::lent(random, ticket, width, height);
    if !random.one_in(6) {
        job.source = few_greys(random, job.source.len());
    }
    job
}

/// Small pages; tiny ones, single lines and larger pages oftener than by chance.
fn sides(random: &mut Random) -> (u16, u16) {
    let mut up_to = |most| random.between(1, most) as u16;
    let (line, large) = (up_to(40), (up_to(30), up_to(30)));
    match random.below(16) {
        0 => random.pick(&[(1, 1), (2, 1), (1, 2)]),
        1..=2 => (line, 1),
        3..=4 => (1, line),
        5..=10 => large,
        _ => jobs::small_sides(random),
    }
}

/// Any valid ticket, oftener one with sloping lines of many steps, short windows and two passes:
/// then several steps of a window give the result, or seem to.
fn ticket(random: &mut Random, width: u16, height: u16) -> Vec<u8> {
    let mut draft = Draft::valid(random, width, height);
    let any = draft.operation;
    draft.operation = random.pick(&[any, any, OPEN, CLOSE]);
    // On a single row or column a sloping line has but one step.
    match random.below(6) {
        _ if width == 1 || height == 1 => {}
        0..=1 => flips::set_ties(random, &mut draft),
        2..=3 => set_small_period(random, &mut draft),
        _ => {}
    }
    if !random.one_in(3) {
        draft.length = random.between(2, 7) as u16;
        draft.origin = random.below(u64::from(draft.length)) as u16;
    }
    match random.below(8) {
        0 => pile_boxes(random, &mut draft, width, height),
        1..=3 => scatter_boxes(random, &mut draft, width, height),
        4..=5 => draft.boxes.clear(),
        _ => {}
    }
    draft.bytes()
}

/// A periodic line has many steps on a small page if its vector is small.
fn set_small_period(random: &mut Random, draft: &mut Draft) {
    draft.line = PERIODIC;
    let sloping: [(i16, i16); 6] = [(2, 1), (2, -1), (3, 1), (3, -1), (3, 2), (3, -2)];
    let (long, short) = random.pick(&[&sloping[..], &[(1, 0), (2, 0), (1, 1), (1, -1)]].concat());
    let steep = short.abs() < long && random.one_in(2);
    (draft.dx, draft.dy) = if steep { (short, long) } else { (long, short) };
    draft.phase = 0;
}

/// Boxes of one pixel each: few enough for windows to go on behind them.
fn scatter_boxes(random: &mut Random, draft: &mut Draft, width: u16, height: u16) {
    let pixels = i64::from(width) * i64::from(height);
    let count = random.between(1, 1 + pixels / 3).min(BOX_PLACES as i64);
    let mut one = || HiddenBox { width: 1, height: 1, ..draft::a_box(random, width, height) };
    draft.boxes = (0..count).map(|_| one()).collect();
}

/// Boxes that all hold one pixel, anywhere in the list.
fn pile_boxes(random: &mut Random, draft: &mut Draft, width: u16, height: u16) {
    let (column, row) = (random.below(u64::from(width)), random.below(u64::from(height)));
    for _ in 0..random.between(1, 4) {
        let (left, width) = around(random, column as u16, width);
        let (top, height) = around(random, row as u16, height);
        draft.boxes.truncate(BOX_PLACES - 1);
        let place = random.index(draft.boxes.len() + 1);
        draft.boxes.insert(place, HiddenBox { left, top, width, height });
    }
}

/// Where a box begins and how far it goes, within a side and over this place of it.
fn around(random: &mut Random, place: u16, side: u16) -> (u16, u16) {
    let near = place.min(random.below(3) as u16);
    let far = (side - 1 - place).min(random.below(3) as u16);
    (place - near, near + 1 + far)
}

/// One to four greys, in runs or mixed, black and white among them oftener than by chance.
fn few_greys(random: &mut Random, count: usize) -> Vec<u8> {
    let number = random.pick(&[1, 2, 2, 3, 3, 3, 4]);
    let mut greys = random.bytes(number);
    if random.one_in(3) {
        greys[0] = random.pick(&[0, 255]);
    }
    let (mut grey, change) = (greys[0], random.pick(&[1, 1, 2, 5]));
    let mut next = || {
        grey = if random.one_in(change) { random.pick(&greys) } else { grey };
        grey
    };
    (0..count).map(|_| next()).collect()
}

/// Gives the page's lightest grey, or its darkest for an erosion or a closing, to about as many
/// steps of a line as a segment has, the opposite one to the step before them, and asks about one of
/// them. Segments that begin before such a stroke have its grey too, yet give another; and where it
/// begins in a box, a hidden step has it.
fn plant_stroke(random: &mut Random, job: &mut Job) -> (u64, u64) {
    let (ticket, page) = (ticket::shown(&job.ticket).1, job.source_page());
    let mut first = random.pick(&page.sides().pixels());
    if ticket.count > 0 && random.one_in(3) {
        let HiddenBox { left, top, .. } = random.pick(ticket.hidden_boxes());
        first = Pixel { column: i64::from(left), row: i64::from(top) };
    }
    let mut greys = page.greys(&job.source);
    greys.sort();
    if ![ERODE, CLOSE].contains(&ticket.operation) {
        greys.reverse();
    }
    let walk = |way| Lines::of(&ticket).walk(page.sides(), first, way);
    let length = usize::from(ticket.length) + random.pick(&[0, 0, 0, 1, 2]) - random.index(2);
    let stroke = std::iter::once(first).chain(walk(Way::Ahead)).take(length.max(1));
    let stroke: Vec<Pixel> = stroke.collect();
    stroke.iter().for_each(|&at| job.source[page.byte(at)] = greys[0]);
    walk(Way::Behind).take(1).for_each(|at| job.source[page.byte(at)] = greys[greys.len() - 1]);
    let Pixel { column, row } = random.pick(&stroke);
    (column as u64, row as u64)
}

/// A pixel on the page, often one at its edge or in a box. A page without pixels has this one too.
fn pixel(random: &mut Random, job: &Job) -> (u64, u64) {
    let sides = [job.width, job.height].map(|side| side.max(1));
    let boxes = ticket::shown(&job.ticket).1.hidden_boxes().to_vec();
    let [column, row] = sides.map(|side| random.below(side));
    let [right, bottom] = sides.map(|side| random.pick(&[0, side - 1]));
    match random.below(9) {
        0 => (right, row),
        1 => (column, bottom),
        2 if !boxes.is_empty() => {
            let HiddenBox { left, top, width, height } = random.pick(&boxes);
            let mut within =
                |from: u16, extent: u16| u64::from(from) + random.below(u64::from(extent.max(1)));
            (within(left, width), within(top, height))
        }
        _ => (column, row),
    }
}

/// A pixel just off the page, far off it, or one whose numbers look small in fewer bits.
fn off_page(random: &mut Random, job: &Job) -> (u64, u64) {
    let (column, row) = pixel(random, job);
    let mut past = |number: u64, side: u64| {
        let near = side.saturating_add(random.pick(&[0, 0, 1, 2, side]));
        let round = number.wrapping_sub(side).max(side);
        let high = number | 1 << random.pick(&[16, 31, 32, 32, 63]);
        random.pick(&[near, near, near, high, high, round, u64::MAX, u64::MAX - number])
    };
    let (past_column, past_row) = (past(column, job.width), past(row, job.height));
    match random.below(8) {
        0..=2 => (past_column, row),
        3..=5 => (column, past_row),
        // On a page that is not square this may be off it.
        6 => (row, column),
        _ => (past_column, past_row),
    }
}

/// Output tray and scratch are not lent, so any lengths may be said: as long as a number can be,
/// such as look short in 32 bits, or one byte too few. Asked only of pages within the limits.
fn say_lengths(random: &mut Random, question: &mut Question) {
    let [source, output] = question.pages();
    let long = random.pick(&[u64::MAX, u64::MAX, 1 << 63, 1 << 32]);
    match random.below(8) {
        0 => question.output_length = long,
        1 => question.scratch_length = long,
        2 => (question.output_length, question.scratch_length) = (long, long),
        // The page ends with the longest tray that there can be, or one byte past it.
        3..=4 => {
            let extent = Placement { offset: 0, ..output }.end() as u64;
            question.output_page.offset = u64::MAX - extent + random.below(2);
            question.output_length = u64::MAX;
        }
        5 => question.output_length = (output.end() - 1) as u64,
        6 => question.scratch_length = (scratch_needed(output.width, output.height) - 1) as u64,
        _ => question.source.truncate((source.end() - 1) as usize),
    }
}
