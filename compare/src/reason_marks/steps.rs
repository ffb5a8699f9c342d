//! What the windows hold that are searched for a named step: how many steps give the result, and
//! which ones seem to. All by step numbers on the pixel's line, which is listed here once more.

use std::ops::RangeInclusive;

use crate::filter::{hidden, Pass};
use crate::lines::{Lines, Pixel, Way};
use crate::reason::{Question, Reason, ONE_PASS, TWO_PASSES};
use crate::ticket::Ticket;

/// A line of so many steps is a long one.
const LONG: usize = 1000;

/// A step is named by its number; numbers off the line are below 0 or not below its length.
type Step = i64;

/// The line of a pixel that is asked about.
struct Line<'a> {
    ticket: &'a Ticket,
    pixels: Vec<Pixel>,
    /// The source's grey at each step, under a box too.
    greys: Vec<u8>,
    hidden: Vec<bool>,
    /// What lies in the tray, if anything, where the steps before step 0 would be, the nearest
    /// first.
    before: Vec<Option<u8>>,
}

impl Line<'_> {
    fn of<'a>(question: &Question, ticket: &'a Ticket) -> Line<'a> {
        let (lines, page, pixel) = (Lines::of(ticket), question.source_page, question.pixel());
        let mut pixels: Vec<Pixel> = lines.walk(page.sides(), pixel, Way::Behind).collect();
        pixels.reverse();
        pixels.push(pixel);
        pixels.extend(lines.walk(page.sides(), pixel, Way::Ahead));
        let behind = |at: &Pixel| Some(lines.step(Way::Behind, *at));
        let off_page = std::iter::successors(Some(pixels[0]), behind).skip(1);
        let byte = |at: Pixel| {
            let byte = page.offset as i64 + at.row * page.stride as i64 + at.column;
            question.source.get(usize::try_from(byte).ok()?).copied()
        };
        Line {
            ticket,
            greys: pixels.iter().map(|&at| question.source[page.byte(at)]).collect(),
            hidden: pixels.iter().map(|&at| hidden(ticket.hidden_boxes(), at)).collect(),
            before: off_page.take(usize::from(ticket.length)).map(byte).collect(),
            pixels,
        }
    }

    fn number(&self, pixel: Pixel) -> Step {
        self.pixels.iter().position(|&at| at == pixel).expect("it lies on the line") as Step
    }

    fn window(&self, pass: Pass, step: Step) -> RangeInclusive<Step> {
        let window = pass.window(self.ticket);
        step - window.behind as Step..=step + window.ahead as Step
    }

    fn on_line(&self, step: Step) -> bool {
        (0..self.pixels.len() as Step).contains(&step)
    }

    fn present(&self, step: Step) -> bool {
        self.on_line(step) && !self.hidden[step as usize]
    }

    /// The grey that lies at a step, whether it is present or not.
    fn grey(&self, step: Step) -> Option<u8> {
        match step {
            0.. => self.greys.get(step as usize).copied(),
            _ => self.before.get((-1 - step) as usize).copied().flatten(),
        }
    }

    /// What a pass would make of a step, whether it is present or not.
    fn after(&self, pass: Pass, step: Step) -> Option<u8> {
        let window = self.window(pass, step);
        let on_line = 0.max(*window.start())..=(self.pixels.len() as Step - 1).min(*window.end());
        let greys = on_line.filter(|&at| self.present(at)).map(|at| self.greys[at as usize]);
        greys.reduce(|one, other| pass.extreme(one, other))
    }
}

/// What is counted of each window.
const WINDOW: [&str; 11] = [
    "an earlier step is named",
    "its own step is named",
    "a later step is named",
    "several steps give it",
    "all of three steps or more give it",
    "its own step gives it too, behind the named one",
    "another step that gives it is first row by row",
    "a hidden step before seems to give it",
    "a step off the page seems to give it before",
    "cut before step 0",
    "cut behind the last step",
];

/// The window of a step, in which one is named.
struct Search<'a> {
    line: &'a Line<'a>,
    of: Step,
    window: RangeInclusive<Step>,
    named: Step,
}

impl Search<'_> {
    /// Which steps have what is searched for, absent ones too, is asked of `has`.
    fn shown(&self, has: impl Fn(Step) -> bool) -> [bool; WINDOW.len()] {
        let (line, named, own) = (self.line, self.named, self.of);
        let present: Vec<Step> = self.window.clone().filter(|&at| line.present(at)).collect();
        let giving: Vec<Step> = present.iter().copied().filter(|&at| has(at)).collect();
        let row_by_row = |step: &&Step| {
            let Pixel { column, row } = line.pixels[**step as usize];
            (row, column)
        };
        let absent = (*self.window.start()..named).filter(|&at| !line.present(at));
        let seeming: Vec<Step> = absent.filter(|&at| has(at)).collect();
        [
            named < own,
            named == own,
            named > own,
            giving.len() > 1,
            giving.len() == present.len() && present.len() > 2,
            named < own && has(own),
            giving.iter().min_by_key(row_by_row) != Some(&named),
            seeming.iter().any(|&at| line.on_line(at)),
            seeming.iter().any(|&at| at < 0),
            *self.window.start() < 0,
            !line.on_line(*self.window.end()),
        ]
    }
}

/// What is counted of two windows together.
const BOTH: [&str; 4] = [
    "an earlier step's window has the grey, yet it gives another",
    "an earlier step of the reach has the grey",
    "from lies outside the second window",
    "through and from are the pixel",
];

/// The first two show who names the first step that has the grey: looking step by step of the second
/// window, or over the whole reach.
fn both_shown(line: &Line, [first, second]: [Pass; 2], steps: [Step; 3]) -> [bool; BOTH.len()] {
    let [pixel, through, from] = steps;
    let grey = line.grey(from);
    let (window, reach) = (line.window(second, pixel), i64::from(line.ticket.length) - 1);
    let stands = |at: Step| line.present(at) && line.grey(at) == grey;
    let mut earlier = (*window.start()..through).filter(|&at| line.present(at));
    [
        earlier.any(|step| line.window(first, step).any(stands)),
        (pixel - reach..from).any(stands),
        !window.contains(&from),
        [through, from] == [pixel; 2],
    ]
}

/// What is counted of the line.
const LINE: [&str; 4] = ["one step", "two steps", "1000 steps or more", "fewer steps than L"];

fn line_shown(line: &Line) -> [bool; LINE.len()] {
    let steps = line.pixels.len();
    [steps == 1, steps == 2, steps >= LONG, steps < usize::from(line.ticket.length)]
}

/// What a question shows that names a step; nothing of what it has not.
#[derive(Default)]
struct Shown {
    line: [bool; LINE.len()],
    only: [bool; WINDOW.len()],
    second: [bool; WINDOW.len()],
    first: [bool; WINDOW.len()],
    both: [bool; BOTH.len()],
}

fn shown(question: &Question, ticket: &Ticket, reason: &Reason) -> Shown {
    let line = &Line::of(question, ticket);
    let [pixel, through, from] =
        [question.pixel(), reason.through, reason.from].map(|at| line.number(at));
    let search = |pass, of, named| Search { line, of, window: line.window(pass, of), named };
    let grey = line.grey(from);
    let mut shown = Shown { line: line_shown(line), ..Shown::default() };
    match *Pass::of(ticket.operation) {
        [only] => shown.only = search(only, pixel, from).shown(|at| line.grey(at) == grey),
        [first, second] => {
            let given = search(second, pixel, through);
            shown.second = given.shown(|at| line.after(first, at) == grey);
            shown.first = search(first, through, from).shown(|at| line.grey(at) == grey);
            shown.both = both_shown(line, [first, second], [pixel, through, from]);
        }
        _ => panic!("an operation has one pass or two"),
    }
    shown
}

/// The marks of a question; one that names no step has the same by name, and none of them holds.
pub fn marks(question: &Question, ticket: &Ticket, reason: &Reason) -> Vec<(String, bool)> {
    let names_a_step = [ONE_PASS, TWO_PASSES].contains(&reason.kind);
    let shown = if names_a_step { shown(question, ticket, reason) } else { Shown::default() };
    let parts: [(&str, &[&str], &[bool]); 5] = [
        ("line", &LINE, &shown.line),
        ("one pass", &WINDOW, &shown.only),
        ("second window", &WINDOW, &shown.second),
        ("first window", &WINDOW, &shown.first),
        ("two passes", &BOTH, &shown.both),
    ];
    let name = |part: &str, mark: &str| format!("{part}, {mark}");
    let marks = parts.iter().flat_map(|(part, names, shown)| {
        names.iter().zip(*shown).map(move |(mark, &holds)| (name(part, mark), holds))
    });
    marks.collect()
}
