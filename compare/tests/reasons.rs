//! Wish 4 on small pages by hand, each refusal before 19, and reasons found once more by step
//! numbers on listed lines.

use compare::filter::{hidden, Pass};
use compare::generate::{self, Draft};
use compare::job::{self, Job, WHITE};
use compare::lines::{Lines, Pixel};
use compare::question_list;
use compare::reason::{of, Question, Reason, HIDDEN, ONE_PASS, TWO_PASSES};
use compare::ticket::{self, HiddenBox, Ticket};
use compare::ticket::{CLOSE, CONNECTED, DILATE, ERODE, OPEN, PERIODIC};

/// Connected (1, 0), phase 0, no box.
fn draft(operation: u8, length: u16, origin: u16) -> Draft {
    let (line, boxes) = (CONNECTED, vec![]);
    Draft { operation, line, dx: 1, dy: 0, length, origin, phase: 0, boxes }
}

/// A question about a page that stands in the middle of a wider tray, with whites about it. Output
/// and scratch are just long enough.
fn question(rows: &[&[u8]], draft: &Draft, (column, row): (u64, u64)) -> Question {
    let (width, height) = (rows[0].len(), rows.len());
    let (mut source, stride) = (vec![255; 4 + (width + 2) * height], width as u64 + 2);
    for (at, row) in rows.iter().enumerate() {
        source[4 + (width + 2) * at..][..width].copy_from_slice(row);
    }
    let job = Job {
        ticket: draft.bytes(),
        width: width as u64,
        height: height as u64,
        source_offset: 4,
        source_stride: stride,
        output_offset: 1,
        output_stride: width as u64,
        source,
        output: vec![0; 1 + width * height],
        scratch: vec![0; 2 * width * height + 3 * width.max(height)],
    };
    Question::about(job, column, row)
}

/// For each pixel of a page of one row the kind, and the columns of through and from.
fn on_row(greys: &[u8], draft: &Draft) -> Vec<(u8, i64, i64)> {
    let columns = 0..greys.len() as u64;
    let reason = |column| {
        let reason = of(&question(&[greys], draft, (column, 0)));
        assert_eq!((reason.refusal, reason.through.row, reason.from.row), (0, 0, 0));
        (reason.kind, reason.through.column, reason.from.column)
    };
    columns.map(reason).collect()
}

#[test]
fn the_row_of_document_01() {
    let row = [9, 1, 5];
    let one = |step, from| (ONE_PASS, step, from);
    let two = |through, from| (TWO_PASSES, through, from);
    assert_eq!(on_row(&row, &draft(ERODE, 2, 0)), [one(0, 1), one(1, 1), one(2, 2)]);
    assert_eq!(on_row(&row, &draft(DILATE, 2, 0)), [one(0, 0), one(1, 0), one(2, 2)]);
    assert_eq!(on_row(&row, &draft(OPEN, 2, 0)), [two(0, 1), two(0, 1), two(2, 2)]);
    assert_eq!(on_row(&row, &draft(CLOSE, 2, 0)), [two(0, 0), two(2, 2), two(2, 2)]);
    // Eroded 9 1 1, then the maximum over x and x+1.
    assert_eq!(on_row(&row, &draft(OPEN, 2, 1)), [two(0, 0), two(1, 1), two(2, 1)]);
    assert_eq!(on_row(&row, &draft(ERODE, 8192, 0)), [one(0, 1), one(1, 1), one(2, 2)]);
    for operation in [OPEN, CLOSE] {
        let own: Vec<_> = (0..3).map(|step| two(step, step)).collect();
        assert_eq!(on_row(&row, &draft(operation, 1, 0)), own);
    }
}

#[test]
fn the_grey_in_a_window_that_gives_another_is_no_reason() {
    // Eroded 1 5. Step 0 has the 5 in its window, and gives 1.
    let last = on_row(&[1, 5], &draft(OPEN, 2, 0))[1];
    assert_eq!(last, (TWO_PASSES, 1, 1));
    // Dilated 5 1. Step 0 has the 1 in its window, and gives 5.
    let last = on_row(&[5, 1], &draft(CLOSE, 2, 1))[1];
    assert_eq!(last, (TWO_PASSES, 1, 1));
    // Eroded 2 2 5 5 5. Steps 0 and 1 have a 5 in their windows, and give 2.
    let row = on_row(&[5, 2, 5, 5, 5], &draft(OPEN, 2, 0));
    assert_eq!(row[2..], [(TWO_PASSES, 2, 2), (TWO_PASSES, 2, 2), (TWO_PASSES, 3, 3)]);
}

#[test]
fn the_first_of_several() {
    let flat = [7; 5];
    let froms = |draft: &Draft| on_row(&flat, draft).iter().map(|r| r.2).collect::<Vec<_>>();
    assert_eq!(froms(&draft(ERODE, 3, 1)), [0, 0, 1, 2, 3]);
    assert_eq!(froms(&draft(DILATE, 3, 0)), [0, 0, 0, 1, 2]);
    // Through one step before the pixel, and from one step before that.
    let opened = on_row(&flat, &draft(OPEN, 3, 1));
    assert_eq!(opened[4], (TWO_PASSES, 3, 2));
    assert_eq!(opened[1], (TWO_PASSES, 0, 0));
}

#[test]
fn hidden_steps_are_passed_over() {
    let middle = HiddenBox { left: 1, top: 0, width: 1, height: 1 };
    let hiding = |draft: Draft| Draft { boxes: vec![middle], ..draft };
    let hidden = (HIDDEN, 0, 0);
    // Document 01's case 9: eroded 5 - 5, and the first of the two is through.
    let row = on_row(&[9, 1, 5], &hiding(draft(OPEN, 3, 0)));
    assert_eq!(row, [(TWO_PASSES, 0, 2), hidden, (TWO_PASSES, 0, 2)]);
    // A hidden step has the grey before the one that is named.
    let row = on_row(&[9, 5, 5], &hiding(draft(ERODE, 3, 1)));
    assert_eq!(row, [(ONE_PASS, 0, 0), hidden, (ONE_PASS, 2, 2)]);
    let row = on_row(&[9, 5, 5], &hiding(draft(ERODE, 3, 0)));
    assert_eq!(row[0], (ONE_PASS, 0, 2));
    // The hidden step would give 255 to the second pass of an opening, or 1 to that of a closing.
    assert_eq!(on_row(&[3, 1, 3], &hiding(draft(OPEN, 2, 0)))[2], (TWO_PASSES, 2, 2));
    assert_eq!(on_row(&[3, 1, 3], &hiding(draft(CLOSE, 2, 0)))[0], (TWO_PASSES, 0, 0));
}

#[test]
fn a_hidden_pixel_names_the_first_box_that_holds_it() {
    let one = |left, top, width, height| HiddenBox { left, top, width, height };
    let boxes = vec![one(0, 0, 1, 2), one(1, 1, 2, 1), one(1, 0, 2, 2), one(2, 1, 1, 1)];
    let vector = Draft { dx: 3, dy: 2, phase: 2, ..draft(OPEN, 2, 0) };
    let asked = |column, row| {
        let draft = Draft { boxes: boxes.clone(), ..vector.clone() };
        of(&question(&[&[9, 1, 5, 2], &[3, 8, 4, 6]], &draft, (column, row)))
    };
    for (column, row, hidden_box) in
        [(0, 0, 0), (0, 1, 0), (1, 0, 2), (2, 0, 2), (1, 1, 1), (2, 1, 1)]
    {
        let due = Reason { kind: HIDDEN, hidden_box, ..Reason::default() };
        assert_eq!(asked(column, row), due, "{column} {row}");
    }
    assert_eq!((asked(3, 0).kind, asked(3, 0).phase), (TWO_PASSES, 2));
}

fn pixel(column: i64, row: i64) -> Pixel {
    Pixel { column, row }
}

#[test]
fn a_falling_line_with_a_tie() {
    // D 0 -1 -1 -2: the line 0/2 1/1 2/1 3/0 has 7 4 4 7. Before wish 2 it was 0/1 1/1 2/0 3/0.
    let rows: [&[u8]; 3] = [&[1, 1, 1, 7], &[1, 4, 4, 1], &[7, 1, 1, 1]];
    let falling = Draft { dx: 2, dy: -1, ..draft(DILATE, 4, 0) };
    let reason = of(&question(&rows, &falling, (3, 0)));
    let due = Reason { kind: ONE_PASS, through: pixel(3, 0), ..Reason::default() };
    // The smaller step, though row by row the other is first.
    assert_eq!(reason, Reason { from: pixel(0, 2), ..due });
    // Phase 1, D(c+1) - D(1) is 0 0 -1 -1: the line 0/1 1/1 2/0 3/0 has 1 4 1 7.
    let phase = Draft { phase: 1, ..falling.clone() };
    let reason = of(&question(&rows, &phase, (3, 0)));
    assert_eq!(reason, Reason { phase: 1, from: pixel(3, 0), ..due });
    // Closed along the falling line with L 2, o 1: dilated 7 4 7 7, and over x-1 and x then 7 4 4 7.
    let closing = Draft { operation: CLOSE, length: 2, origin: 1, ..falling };
    let reason = of(&question(&rows, &closing, (2, 1)));
    let due =
        Reason { kind: TWO_PASSES, through: pixel(1, 1), from: pixel(1, 1), ..Reason::default() };
    assert_eq!(reason, due);
}

#[test]
fn steep_and_periodic_lines() {
    let rows: [&[u8]; 3] = [&[1, 2, 3], &[4, 5, 6], &[7, 8, 9]];
    let named = |draft: &Draft, at| {
        let reason = of(&question(&rows, draft, at));
        assert_eq!((reason.refusal, reason.kind, reason.phase), (0, ONE_PASS, 0));
        assert_eq!(reason.through, pixel(at.0 as i64, at.1 as i64));
        (reason.from.column, reason.from.row)
    };
    // Document 01's case 11: 1 2 3 / 4 1 2 / 7 4 5.
    let periodic = Draft { line: PERIODIC, dx: 1, dy: 1, ..draft(ERODE, 3, 1) };
    assert_eq!(named(&periodic, (1, 1)), (0, 0));
    assert_eq!(named(&periodic, (2, 1)), (1, 0));
    assert_eq!(named(&periodic, (2, 2)), (1, 1));
    assert_eq!(named(&periodic, (0, 2)), (0, 2));
    // Steps of two columns, of two rows, and both: what lies between is passed over.
    let two_columns = Draft { dx: 2, dy: 0, ..periodic.clone() };
    assert_eq!(named(&two_columns, (2, 1)), (0, 1));
    let steep = Draft { operation: DILATE, dx: -1, dy: 2, ..periodic.clone() };
    assert_eq!(named(&steep, (2, 0)), (1, 2));
    assert_eq!(named(&Draft { operation: ERODE, ..steep }, (1, 2)), (2, 0));
    let both = Draft { dx: 2, dy: 2, ..periodic };
    assert_eq!((named(&both, (2, 2)), named(&both, (1, 1))), ((0, 0), (1, 1)));
    // Connected (-1, 2): D 0 -1 -1, so 2/0 goes on to 1/1 and 1/2.
    let connected = Draft { dx: -1, dy: 2, ..draft(DILATE, 3, 1) };
    assert_eq!(named(&connected, (2, 0)), (1, 1));
    assert_eq!(named(&connected, (1, 1)), (1, 2));
}

/// Refusal and place, all else zero.
fn refused(question: &Question) -> (u8, u64) {
    let reason = of(question);
    let Reason { refusal, place, .. } = reason;
    assert_eq!(reason, Reason { refusal, place, ..Reason::default() });
    assert_ne!(refusal, 0);
    (refusal, place)
}

#[test]
fn a_pixel_off_the_page_is_refused_last() {
    let rows: [&[u8]; 2] = [&[9, 1, 5], &[2, 4, 6]];
    let asked = |at| question(&rows, &draft(OPEN, 2, 0), at);
    for row in 0..2 {
        (0..3).for_each(|column| assert_eq!(of(&asked((column, row))).refusal, 0));
    }
    let far = [1 << 16, 1 << 32, 1 << 63, u64::MAX - 1, u64::MAX];
    for far in far.into_iter().chain([3, 4]) {
        assert_eq!(refused(&asked((far, 1))), (19, 0));
        assert_eq!(refused(&asked((2, far))), (19, 0));
        assert_eq!(refused(&asked((far, far))), (19, 0));
    }
    assert_eq!(refused(&asked((1, 2))), (19, 0));
    // Every earlier refusal comes first, whatever pixel is asked about.
    for at in [(0, 0), (3, 0), (u64::MAX, u64::MAX)] {
        let cut =
            |length: usize| Question { ticket: asked(at).ticket[..length].to_vec(), ..asked(at) };
        assert_eq!((refused(&cut(0)), refused(&cut(29))), ((1, 0), (1, 25)));
        let wrong = |draft: Draft| refused(&question(&rows, &draft, at));
        assert_eq!(wrong(draft(5, 2, 0)), (4, 0));
        assert_eq!(wrong(Draft { dx: 2, ..draft(OPEN, 2, 0) }), (6, 8));
        assert_eq!((wrong(draft(OPEN, 0, 0)), wrong(draft(OPEN, 2, 2))), ((7, 15), (8, 20)));
        assert_eq!(wrong(Draft { phase: 1, ..draft(OPEN, 2, 0) }), (9, 25));
        let past = HiddenBox { left: 65535, top: 0, width: 2, height: 1 };
        let on_it = HiddenBox { left: 0, top: 0, width: 1, height: 1 };
        assert_eq!(wrong(Draft { boxes: vec![on_it, past], ..draft(OPEN, 2, 0) }), (14, 1));
    }
}

#[test]
fn lengths_are_only_said() {
    let rows: [&[u8]; 2] = [&[9, 1, 5], &[2, 4, 6]];
    // Output ends at 1 + 6, scratch at 2·6 + 3·3, source at 4 + 5 + 3.
    for at in [(0, 0), (3, 0)] {
        let asked = || question(&rows, &draft(OPEN, 2, 0), at);
        assert_eq!((asked().output_length, asked().scratch_length), (7, 21));
        let source = asked().source[..11].to_vec();
        let all = Question { source, output_length: 6, scratch_length: 20, ..asked() };
        assert_eq!(refused(&all), (11, 0));
        let source = asked().source[..12].to_vec();
        assert_eq!(refused(&Question { source: source.clone(), ..all }), (12, 0));
        assert_eq!(refused(&Question { scratch_length: 20, ..asked() }), (13, 0));
        let mut wide = asked();
        wide.source_page.stride = 2;
        assert_eq!(refused(&wide), (10, 0));
        // As long as a number can be, and a page that ends there or one byte past it.
        let (output_length, scratch_length) = (u64::MAX, u64::MAX);
        let mut long = Question { source, output_length, scratch_length, ..asked() };
        assert_eq!(of(&long), of(&asked()));
        long.output_page.offset = u64::MAX - 6;
        assert_eq!(of(&long), of(&asked()));
        long.output_page.offset = u64::MAX - 5;
        assert_eq!(refused(&long), (12, 0));
    }
}

/// The line of the pixel asked about, out of all lines of the page, and its unhidden greys.
struct Listed {
    ticket: Ticket,
    line: Vec<Pixel>,
    greys: Vec<Option<u8>>,
}

impl Listed {
    fn of(question: &Question) -> Listed {
        let ticket = ticket::read(&question.ticket).expect("a step is named");
        let (page, asked) = (question.source_page, question.pixel());
        let every_line = Lines::of(&ticket).every_line(page.sides());
        let line = every_line.into_iter().find(|line| line.contains(&asked)).expect("it has one");
        let unhidden = |at: &&Pixel| !hidden(ticket.hidden_boxes(), **at);
        let grey = |at| Some(at).filter(unhidden).map(|at| question.source[page.byte(*at)]);
        let greys = line.iter().map(grey).collect();
        Listed { ticket, line, greys }
    }

    fn steps(&self, pass: Pass, x: usize) -> Vec<usize> {
        let (x, l, o) = (x as i64, i64::from(self.ticket.length), i64::from(self.ticket.origin));
        let first = if pass == Pass::Erosion { x - o } else { x - (l - 1 - o) };
        let within = |&step: &usize| (first..first + l).contains(&(step as i64));
        (0..self.line.len()).filter(within).collect()
    }

    /// What a pass makes of these greys at step x.
    fn after(&self, pass: Pass, greys: &[Option<u8>], x: usize) -> Option<u8> {
        let present = self.steps(pass, x).into_iter().filter_map(|step| greys[step]);
        let extreme = if pass == Pass::Erosion { present.min() } else { present.max() };
        extreme.filter(|_| greys[x].is_some())
    }

    /// The first step of x's window with what x has after the pass.
    fn first(&self, pass: Pass, greys: &[Option<u8>], x: usize) -> usize {
        let result = self.after(pass, greys, x);
        self.steps(pass, x).into_iter().find(|&step| greys[step] == result).expect("one has it")
    }
}

/// Through and from once more, by step numbers on a listed line.
fn by_listed_lines(question: &Question) -> (Pixel, Pixel) {
    let listed = Listed::of(question);
    let Listed { ticket, line, greys } = &listed;
    let x = line.iter().position(|&at| at == question.pixel()).expect("it is there");
    let passes = Pass::of(ticket.operation);
    let between: Vec<_> = (0..line.len()).map(|at| listed.after(passes[0], greys, at)).collect();
    let through = if passes.len() == 2 { listed.first(passes[1], &between, x) } else { x };
    (line[through], line[listed.first(passes[0], greys, through)])
}

#[test]
fn walks_and_listed_lines_name_the_same() {
    let small =
        |question: &Question| question.source_page.width.max(question.source_page.height) < 50;
    let mut named = 0;
    for question in (0..3000).map(|index| generate::question(8, index)).filter(small) {
        let reason = of(&question);
        if [ONE_PASS, TWO_PASSES].contains(&reason.kind) {
            let due = by_listed_lines(&question);
            assert_eq!((reason.through, reason.from), due, "{}", question_list::told(&question));
            named += 1;
        }
    }
    assert!(named > 1000);
}

#[test]
fn a_reason_is_of_the_page_that_the_job_leaves() {
    let mut answered = 0;
    for index in 0..1500 {
        let job = generate::job(9, index);
        let outcome = job::run(&job);
        let (column, row) = (index % job.width.clamp(1, 40), index % job.height.clamp(1, 30));
        let reason = of(&Question::about(job.clone(), column, row));
        assert_eq!((reason.refusal, reason.place), (outcome.answer.refusal, outcome.answer.place));
        if reason.refusal != 0 {
            continue;
        }
        let asked = pixel(column as i64, row as i64);
        let result = outcome.output[job.output_page().byte(asked)];
        let due = match reason.kind {
            HIDDEN => WHITE,
            _ => job.source[job.source_page().byte(reason.from)],
        };
        assert_eq!(result, due, "job {index} at {column} {row}");
        answered += 1;
    }
    assert!(answered > 500);
}

#[test]
fn lines_and_entries() {
    let falling = Draft { dx: 2, dy: -1, phase: 1, ..draft(DILATE, 4, 0) };
    let rows: [&[u8]; 3] = [&[1, 1, 1, 7], &[1, 4, 4, 1], &[7, 1, 1, 1]];
    let asked = question(&rows, &falling, (2, 0));
    let off = Question { column: u64::MAX, ..asked.clone() };
    let line = "0 0 3 0 1 2 0 1 1\n";
    assert_eq!(question_list::line(&of(&asked)), line);
    let entries = [question_list::entry(&asked), question_list::entry(&off)].concat();
    assert_eq!(question_list::first(&entries), Some((asked, &question_list::entry(&off)[..])));
    assert_eq!(question_list::printed(&entries), format!("{line}19 0 0 0 0 0 0 0 0\n"));
    // An entry that is cut is none.
    assert_eq!(question_list::printed(&entries[..entries.len() - 1]), line);
    assert_eq!(question_list::printed(&[255; 96]), "");
}
