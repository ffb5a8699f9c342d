//! Wish 2: flipping the page and its boxes and negating the minor component flips the result.

use compare::filter::{filtered, hidden};
use compare::flip::{flipped, seen, Flip};
use compare::generate::{flip_pair, Draft};
use compare::job::{run, Job, Outcome, WHITE};
use compare::job_list::line;
use compare::lines::{nearest_row, Pixel, Sides};
use compare::random::Random;
use compare::ticket::{read, HiddenBox, Ticket};
use compare::ticket::{vector_allowed, CLOSE, CONNECTED, DILATE, ERODE, PERIODIC};

const NINE: [u8; 9] = [1, 2, 3, 4, 5, 6, 7, 8, 9];
const THREE: Sides = Sides { width: 3, height: 3 };

/// A page, row by row, flipped.
fn page<T: Copy>(flip: Flip, sides: Sides, greys: &[T]) -> Vec<T> {
    let place = |at: Pixel| (at.row * sides.width + at.column) as usize;
    sides.pixels().into_iter().map(|at| greys[place(flip.pixel(sides, at))]).collect()
}

/// The source page of a job as a filter sees it: nothing under a box.
fn source(job: &Job) -> Vec<Option<u8>> {
    let ticket = read(&job.ticket).expect("it finishes");
    let seen =
        |at| (!hidden(ticket.hidden_boxes(), at)).then(|| job.source[job.source_page().byte(at)]);
    job.sides().pixels().into_iter().map(seen).collect()
}

/// A job on a blank page elsewhere, of the same sides as this one.
fn blank(job: &Job) -> Job {
    let (ticket, source) = (Vec::new(), vec![0; job.source.len()]);
    Job { ticket, source, ..job.clone() }
}

#[test]
fn the_cases_of_two_and_one_flipped() {
    let shallow = Ticket { operation: DILATE, line: CONNECTED, dx: 2, dy: -1, ..Ticket::zero() };
    let shallow = Ticket { length: 2, origin: 1, ..shallow };
    let steep = Ticket { dx: -1, dy: 2, ..shallow };
    // Cases 12 and 13 upside down; and turned over their diagonal, left to right.
    for (phase, upside_down, left_to_right) in [
        (0, [7, 9, 9, 8, 6, 6, 5, 3, 3], [7, 8, 5, 9, 6, 3, 9, 6, 3]),
        (1, [8, 8, 9, 5, 9, 6, 2, 6, 3], [8, 5, 2, 8, 9, 6, 9, 6, 3]),
    ] {
        let results = |greys: &[u8], ticket| filtered(THREE, greys, &ticket, WHITE);
        let bottom_up = [7, 8, 9, 4, 5, 6, 1, 2, 3];
        assert_eq!(results(&bottom_up, Ticket { phase, ..shallow }), upside_down);
        let turned = [7, 4, 1, 8, 5, 2, 9, 6, 3];
        assert_eq!(results(&turned, Ticket { phase, ..steep }), left_to_right);
    }
}

/// Each pixel of a page three wide with the next on its line, whichever is brighter, for any D.
fn dilated(greys: &[u8], d: impl Fn(i64) -> i64) -> Vec<u8> {
    let next = |at: Pixel| {
        let (column, row) = (at.column + 1, at.row + d(at.column + 1) - d(at.column));
        THREE.on_page(Pixel { column, row }).then(|| greys[(3 * row + column) as usize])
    };
    let pixels = THREE.pixels().into_iter().zip(greys);
    pixels.map(|(at, &grey)| next(at).map_or(grey, |next| grey.max(next))).collect()
}

#[test]
fn with_the_floor_of_document_01_the_result_is_not_flipped() {
    let upside_down = |greys: &[u8]| page(Flip::TopToBottom, THREE, greys);
    let d = |dy| move |c| nearest_row(c, 2, dy);
    let floor = |dy: i64| move |c: i64| (2 * c * dy + 2).div_euclid(4);
    let due = upside_down(&[5, 3, 3, 8, 6, 6, 7, 9, 9]);
    assert_eq!(upside_down(&dilated(&NINE, d(1))), due);
    assert_eq!(upside_down(&dilated(&NINE, floor(1))), due);
    assert_eq!(dilated(&upside_down(&NINE), d(-1)), due);
    assert_eq!(dilated(&upside_down(&NINE), floor(-1)), [8, 8, 9, 5, 9, 6, 2, 6, 3]);
}

#[test]
fn a_flipped_ticket_differs_in_minor_component_and_boxes_alone() {
    let one = HiddenBox { left: 0, top: 1, width: 2, height: 3 };
    let two = HiddenBox { left: 9, top: 0, width: 1, height: 7 };
    let draft = Draft {
        operation: CLOSE,
        line: CONNECTED,
        dx: 4,
        dy: -3,
        length: 700,
        origin: 600,
        phase: 2,
        boxes: vec![one, two],
    };
    let ticket_of = |draft: &Draft| {
        let job = Job { ticket: draft.bytes(), width: 10, height: 7, ..flip_pair(1, 0)[0].clone() };
        let tray = Job { source_offset: 0, source_stride: 10, source: vec![0; 70], ..job };
        flipped(&tray, tray.clone()).ticket
    };
    let upside_down = [HiddenBox { top: 3, ..one }, two].to_vec();
    assert_eq!(ticket_of(&draft), Draft { dy: 3, boxes: upside_down, ..draft.clone() }.bytes());
    let steep = Draft { dx: 3, dy: 4, ..draft };
    let left_to_right = [HiddenBox { left: 8, ..one }, HiddenBox { left: 0, ..two }].to_vec();
    assert_eq!(ticket_of(&steep), Draft { dx: -3, boxes: left_to_right, ..steep }.bytes());
}

#[test]
fn a_job_flipped_twice_is_the_job() {
    for index in 0..500 {
        let [job, once] = flip_pair(2, index);
        let flip = Flip::of(&read(&job.ticket).expect("it finishes"));
        assert_eq!(source(&once), page(flip, job.sides(), &source(&job)));
        let twice = flipped(&once, blank(&job));
        assert_eq!((&twice.ticket, source(&twice)), (&job.ticket, source(&job)));
        // Nothing else moved, and no byte beside the page was written.
        let mut around = twice.source.clone();
        let on_page = job.sides().pixels().into_iter().map(|at| job.source_page().byte(at));
        on_page.for_each(|byte| around[byte] = 0);
        assert_eq!(around, blank(&job).source);
        assert_eq!(Job { source: job.source.clone(), ..twice }, job);
    }
}

#[test]
fn the_two_lines_of_a_pair_are_held_to_one_another_pixel_by_pixel() {
    let short = |pair: &[Job; 2]| pair[1].output.len() < 300;
    let pairs: Vec<[Job; 2]> = (0..60).map(|index| flip_pair(6, index)).filter(short).collect();
    assert!(pairs.len() > 20);
    for pair in pairs {
        let outcomes = pair.each_ref().map(run);
        let held = |outcomes: &[Outcome; 2]| {
            let lines = outcomes.each_ref().map(line);
            let [job, flipped] = seen(&pair, lines.each_ref().map(|line| line.as_bytes())).unwrap();
            job == flipped
        };
        assert!(held(&outcomes));
        // One byte of the second output is wrong: that is told if it is one of the page's.
        let (page, pixels) = (pair[1].output_page(), pair[1].sides().pixels());
        for byte in 0..outcomes[1].output.len() {
            let mut wrong = outcomes.clone();
            wrong[1].output[byte] ^= 1;
            assert_eq!(held(&wrong), pixels.iter().all(|&at| page.byte(at) != byte));
        }
    }
}

#[test]
fn every_small_vector_phase_and_origin_flips() {
    let (sides, random) = (Sides { width: 7, height: 6 }, &mut Random::new(8, 0));
    let greys = random.bytes(42);
    let all = (-6..=6).flat_map(|dx| (-6..=6).map(move |dy| (dx, dy)));
    let kinds = all.flat_map(|(dx, dy)| [(CONNECTED, dx, dy), (PERIODIC, dx, dy)]);
    for (line, dx, dy) in kinds.filter(|&(line, dx, dy)| vector_allowed(line, dx, dy)) {
        let phases = if line == PERIODIC { 1 } else { dx.abs().max(dy.abs()) };
        for phase in 0..phases as u16 {
            let (dx, dy) = (dx as i16, dy as i16);
            let ticket = Ticket { line, dx, dy, phase, ..Ticket::zero() };
            let flip = Flip::of(&ticket);
            let negated = match flip {
                Flip::TopToBottom => Ticket { dy: -dy, ..ticket },
                Flip::LeftToRight => Ticket { dx: -dx, ..ticket },
            };
            for (operation, origin) in (ERODE..=CLOSE).flat_map(|op| [0, 1, 2].map(|o| (op, o))) {
                let set = |ticket| Ticket { operation, length: 3, origin, ..ticket };
                let result = filtered(sides, &greys, &set(ticket), WHITE);
                let other = page(flip, sides, &greys);
                let other = filtered(sides, &other, &set(negated), WHITE);
                assert_eq!(other, page(flip, sides, &result), "{ticket:?}");
            }
        }
    }
}

#[test]
fn generated_jobs_flip() {
    for index in 0..500 {
        let pair = flip_pair(4, index);
        let [outcome, other] = pair.each_ref().map(run);
        assert_eq!(outcome.answer, other.answer);
        let flip = Flip::of(&read(&pair[0].ticket).expect("it finishes"));
        for at in pair[0].sides().pixels() {
            let byte = other.output[pair[1].output_page().byte(at)];
            let turned = flip.pixel(pair[0].sides(), at);
            assert_eq!(byte, outcome.output[pair[0].output_page().byte(turned)]);
        }
    }
}
