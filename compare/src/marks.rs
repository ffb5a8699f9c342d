//! What a summary counts of a job: its answer, its near misses, its ticket and its placing; and of
//! a job that is flipped.

use crate::flip::Flip;
use crate::job::{Job, Lengths, Outcome};
use crate::lines::{Lines, Sides};
use crate::placement::{scratch_needed, Placement, LONGEST_SIDE, LONGEST_STRIDE};
use crate::refusal::{BEYOND_LIMITS, BOX_OFF_PAGE, NONE, OUTPUT_DOES_NOT_FIT};
use crate::refusal::{SCRATCH_TOO_SHORT, SOURCE_DOES_NOT_FIT, TICKET_ENDS};
use crate::ticket::{self, Ticket, BOX_PLACES, CONNECTED, PERIODIC};

/// Each mark by its name and whether this job shows it.
pub fn of(job: &Job, outcome: &Outcome) -> Vec<(String, bool)> {
    let refusal = outcome.answer.refusal;
    let done = refusal == NONE;
    let mut marks = vec![("done".to_string(), done)];
    marks.extend((TICKET_ENDS..=BOX_OFF_PAGE).map(|n| (format!("refused {n}"), refusal == n)));
    let near_misses = refused_marks(job.pages(), job.lengths(), refusal);
    marks.extend(near_misses.map(|(name, holds)| (name.to_string(), holds)));
    let ticket = ticket::shown(&job.ticket).1;
    for (name, holds) in ticket_marks(&ticket) {
        marks.push((format!("done, {name}"), done && holds));
    }
    for (name, holds) in placing_marks(job, &ticket, done) {
        marks.push((format!("done, {name}"), done && holds));
    }
    marks
}

/// The same for a job that is held to its flipped job, given with its own outcome.
pub fn of_flip([job, flipped]: &[Job; 2], outcome: &Outcome) -> Vec<(String, bool)> {
    let done = outcome.answer.refusal == NONE;
    let ticket = ticket::shown(&job.ticket).1;
    let (lines, sides) = (Lines::of(&ticket), job.sides());
    let (tie, minor) = (done && tie(lines, sides), lines.major_and_minor().1);
    let (source, other) = (job.source_page(), flipped.source_page());
    let (flip, output) = (Flip::of(&ticket), job.output_page());
    let result = |at| outcome.output[output.byte(at)];
    let turned = |at| result(at) != result(flip.pixel(sides, at));
    let more = [
        ("a tie on a rising line", tie && minor > 0),
        ("a tie on a falling line", tie && minor < 0),
        ("flipped elsewhere", source.offset != other.offset && source.stride != other.stride),
        ("not its own flip", done && sides.pixels().into_iter().any(turned)),
    ];
    let marks = ticket_marks(&ticket).into_iter();
    let marks = marks.chain(more.map(|(name, holds)| (name.to_string(), holds)));
    marks.map(|(name, holds)| (name, done && holds)).collect()
}

/// Whether the true line lies halfway between two rows at some column of the page; between two
/// columns at some row, when steep. A page of one row or one column cannot show it.
fn tie(lines: Lines, sides: Sides) -> bool {
    let (major, minor) = lines.major_and_minor();
    let side = if lines.shallow() { sides.width } else { sides.height };
    let halfway = |c: i64| (2 * (c + lines.phase) * minor.abs() + major) % (2 * major) == 0;
    let room = sides.width > 1 && sides.height > 1;
    lines.kind == CONNECTED && room && (0..side).any(halfway)
}

/// Near misses, each with the refusal it is there for.
pub fn refused_marks(
    [source, output]: [Placement; 2],
    lengths: Lengths,
    refusal: u8,
) -> [(&'static str, bool); 9] {
    let one_short = |needed: u128, length: u64| needed == u128::from(length) + 1;
    let needed = || scratch_needed(source.width, source.height);
    let (sides, strides) = ([source.width, source.height], [source.stride, output.stride]);
    let (beyond, near_end) = (refusal == BEYOND_LIMITS, u64::MAX - 200);
    let (no_source, no_output) = (refusal == SOURCE_DOES_NOT_FIT, refusal == OUTPUT_DOES_NOT_FIT);
    let no_scratch = refusal == SCRATCH_TOO_SHORT;
    [
        ("source one byte short", no_source && one_short(source.end(), lengths.source)),
        ("output one byte short", no_output && one_short(output.end(), lengths.output)),
        ("scratch one byte short", no_scratch && one_short(needed(), lengths.scratch)),
        ("source offset near 2^64", no_source && source.offset >= near_end),
        ("output offset near 2^64", no_output && output.offset >= near_end),
        ("side 0", beyond && sides.contains(&0)),
        ("side above 8192", beyond && sides.iter().any(|&side| side > LONGEST_SIDE)),
        ("stride below the width", beyond && strides.iter().any(|&stride| stride < source.width)),
        ("stride above 16384", beyond && strides.iter().any(|&stride| stride > LONGEST_STRIDE)),
    ]
}

/// A way for a vector to point, and whether dx and dy do.
type Slope = (&'static str, fn(i16, i16) -> bool);

/// Every allowed vector has exactly one of these names.
const SLOPES: [Slope; 8] = [
    ("level", |_, dy| dy == 0),
    ("shallow, dy above 0", |dx, dy| 0 < dy && dy < dx),
    ("shallow, dy below 0", |dx, dy| dy < 0 && -dy < dx),
    ("diagonal, dy above 0", |dx, dy| dx == dy),
    ("diagonal, dy below 0", |dx, dy| dx == -dy),
    ("steep, dx above 0", |dx, dy| 0 < dx && dx < dy),
    ("steep, dx below 0", |dx, dy| dx < 0 && -dx < dy),
    ("upright", |dx, _| dx == 0),
];

pub fn ticket_marks(ticket: &Ticket) -> Vec<(String, bool)> {
    let operations = (1..).zip(["erode", "dilate", "open", "close"]);
    let mut marks: Vec<_> =
        operations.map(|(n, name)| (name.to_string(), ticket.operation == n)).collect();
    for (line, kind) in [(CONNECTED, "connected"), (PERIODIC, "periodic")] {
        for (slope, holds) in SLOPES {
            let met = ticket.line == line && holds(ticket.dx, ticket.dy);
            marks.push((format!("{kind}, {slope}"), met));
        }
    }
    marks.push(("with a phase".to_string(), ticket.phase > 0));
    marks.push(("with boxes".to_string(), ticket.count > 0));
    marks.push(("with 64 boxes".to_string(), usize::from(ticket.count) == BOX_PLACES));
    marks
}

fn placing_marks(job: &Job, ticket: &Ticket, done: bool) -> [(&'static str, bool); 9] {
    let (source, output) = (job.source_page(), job.output_page());
    let room_beside = |page: Placement| page.stride / 2 >= page.width;
    let ends = |page: Placement, tray: &[u8]| done && page.end() == tray.len() as u128;
    let scratch_ends = || scratch_needed(job.width, job.height) == job.scratch.len() as u128;
    let trays_end = ends(source, &job.source) && ends(output, &job.output);
    let old = [&job.output, &job.scratch].map(|bytes| bytes.iter().any(|&byte| byte != 0));
    [
        ("pages side by side in the source", room_beside(source)),
        ("pages side by side in the output", room_beside(output)),
        ("placed differently", source.offset != output.offset && source.stride != output.stride),
        ("stride as the width", source.stride == job.width || output.stride == job.width),
        ("stride 16384", [source.stride, output.stride].contains(&LONGEST_STRIDE)),
        ("side 8192", [job.width, job.height].contains(&LONGEST_SIDE)),
        ("no byte to spare", trays_end && scratch_ends()),
        ("old contents not zero", old == [true, true]),
        ("a line of 1000 steps or more", done && long_line(job, ticket)),
    ]
}

fn long_line(job: &Job, ticket: &Ticket) -> bool {
    let sides = job.sides();
    let long_side = sides.width.max(sides.height) >= 1000;
    long_side && Lines::of(ticket).every_line(sides).iter().any(|line| line.len() >= 1000)
}
