//! What a summary counts of a question about a pixel: its refusal, where the pixel lies, which
//! boxes hold it, and what the windows hold that are searched.

mod steps;

use crate::filter::holds;
use crate::lines::Pixel;
use crate::marks::{refused_marks, ticket_marks};
use crate::placement::{LONGEST_SIDE, LONGEST_STRIDE};
use crate::reason::{Question, Reason, HIDDEN, ONE_PASS, TWO_PASSES};
use crate::refusal::{BOX_OFF_PAGE, NONE, OUTPUT_DOES_NOT_FIT, PIXEL_OFF_PAGE, TICKET_ENDS};
use crate::ticket::{self, HiddenBox, Ticket};

type Mark = (&'static str, bool);

/// Each mark by its name and whether this question shows it.
pub fn of(question: &Question, reason: &Reason) -> Vec<(String, bool)> {
    let ticket = ticket::shown(&question.ticket).1;
    let mut marks: Vec<(String, bool)> = Vec::new();
    for number in TICKET_ENDS..=BOX_OFF_PAGE {
        let refused = reason.refusal == number;
        marks.push((format!("refused {number}"), refused));
        marks.push((
            format!("refused {number}, pixel off the page"),
            refused && !question.on_page(),
        ));
    }
    let kinds = kind_marks(reason).into_iter();
    let near_misses = refused_marks(question.pages(), question.lengths(), reason.refusal);
    let plain = kinds.chain(near_misses).chain(length_marks(question, reason));
    marks.extend(plain.map(|(name, holds)| (name.to_string(), holds)));
    // What is counted of an answer does not hold of a refused question, whatever pixel it asks for.
    let at = if reason.refusal == NONE { question.pixel() } else { Pixel::default() };
    let mut add = |kind: &str, all: bool, more: &[Mark]| {
        marks.extend(more.iter().map(|(name, holds)| (format!("{kind}, {name}"), all && *holds)));
    };
    add("refused 19", reason.refusal == PIXEL_OFF_PAGE, &off_page_marks(question));
    add("hidden", reason.kind == HIDDEN, &hidden_marks(at, &ticket, reason));
    let named = reason.kind == ONE_PASS || reason.kind == TWO_PASSES;
    add("named", named, &page_marks(question));
    for (name, holds) in ticket_marks(&ticket) {
        marks.push((format!("named, {name}"), named && holds));
    }
    marks.extend(steps::marks(question, &ticket, reason));
    marks
}

fn kind_marks(reason: &Reason) -> [Mark; 4] {
    [
        ("refused 19", reason.refusal == PIXEL_OFF_PAGE),
        ("kind 1, hidden", reason.kind == HIDDEN),
        ("kind 3, one pass", reason.kind == ONE_PASS),
        ("kind 4, two passes", reason.kind == TWO_PASSES),
    ]
}

/// Lengths that no buffer has, as none is lent.
fn length_marks(question: &Question, reason: &Reason) -> [Mark; 6] {
    let (answered, output) = (reason.refusal == NONE, question.output_page);
    let low = |number: u64| u128::from(number as u32);
    let ends = |end: u128| output.within_limits() && output.end() == end;
    let most = u128::from(u64::MAX);
    [
        ("output of 2^64 - 1 bytes", answered && question.output_length == u64::MAX),
        ("scratch of 2^64 - 1 bytes", answered && question.scratch_length == u64::MAX),
        ("output short in 32 bits", answered && low(question.output_length) < output.end()),
        ("scratch short in 32 bits", answered && low(question.scratch_length) == 0),
        ("output page ends at 2^64 - 1", answered && ends(most)),
        (
            "refused 12, output page ends at 2^64",
            reason.refusal == OUTPUT_DOES_NOT_FIT && ends(most + 1),
        ),
    ]
}

/// How a pixel is off the page, and where it would seem to be.
fn off_page_marks(question: &Question) -> [Mark; 11] {
    let (page, column, row) = (question.source_page, question.column, question.row);
    let (past_column, past_row) = (column >= page.width, row >= page.height);
    let low = |number: u64| u64::from(number as u32);
    let byte =
        u128::from(page.offset) + u128::from(row) * u128::from(page.stride) + u128::from(column);
    [
        ("column alone", past_column && !past_row),
        ("row alone", !past_column && past_row),
        ("column and row", past_column && past_row),
        ("column the width", column == page.width && !past_row),
        ("row the height", row == page.height && !past_column),
        ("column 2^64 - 1", column == u64::MAX),
        ("row 2^64 - 1", row == u64::MAX),
        ("on the page in 32 bits", low(column) < page.width && low(row) < page.height),
        ("on the page if exchanged", row < page.width && column < page.height),
        ("in the padding", past_column && column < page.stride && !past_row),
        ("a byte of the tray", byte < question.source.len() as u128),
    ]
}

/// The boxes that hold a hidden pixel.
fn hidden_marks(at: Pixel, ticket: &Ticket, reason: &Reason) -> [Mark; 8] {
    let boxes = ticket.hidden_boxes();
    let holding: Vec<&HiddenBox> = boxes.iter().filter(|one| holds(one, at)).collect();
    let area = |one: &&HiddenBox| u32::from(one.width) * u32::from(one.height);
    let first = holding.first().map(area);
    let ends = |one: &&HiddenBox| {
        let next = [Pixel { column: at.column + 1, ..at }, Pixel { row: at.row + 1, ..at }];
        next.iter().all(|&next| !holds(one, next))
    };
    let last = reason.hidden_box + 1 == boxes.len() as u64;
    [
        ("box 0", reason.hidden_box == 0),
        ("another box", reason.hidden_box > 0),
        ("the last box of several", last && boxes.len() > 1),
        ("several boxes hold it", holding.len() > 1),
        ("a later box is smaller", holding.iter().any(|one| first > Some(area(one)))),
        ("a later box is larger", holding.iter().any(|one| first < Some(area(one)))),
        ("last pixel of a large box", first > Some(1) && holding.first().is_some_and(ends)),
        ("with a phase", ticket.phase > 0),
    ]
}

/// The page that a named step lies on.
fn page_marks(question: &Question) -> [Mark; 8] {
    let [source, output] = question.pages();
    let sides = (source.width, source.height);
    [
        ("page of one pixel", sides == (1, 1)),
        ("row of two pixels", sides == (2, 1)),
        ("column of two pixels", sides == (1, 2)),
        ("side 8192", sides.0.max(sides.1) == LONGEST_SIDE),
        ("stride as the width", source.stride == source.width),
        ("stride 16384", source.stride == LONGEST_STRIDE),
        ("pages side by side in the source", source.stride / 2 >= source.width),
        ("placed differently", source.offset != output.offset && source.stride != output.stride),
    ]
}
