//! Checks of this reading against itself: what must hold whatever the numbers are.

use compare::filter::{filtered, hidden, Pass};
use compare::generate::{line_sample, Draft, LineSample};
use compare::job::WHITE;
use compare::lines::{Lines, Pixel, Sides, Way};
use compare::random::Random;
use compare::ticket::{read, Ticket, CLOSE, CONNECTED, DILATE, ERODE, OPEN};
use compare::work;

/// A small page, its greys and an accepted ticket.
fn page_and_ticket(index: u64) -> (Sides, Vec<u8>, Ticket) {
    let random = &mut Random::new(5, index);
    let (width, height) = (random.between(1, 14) as u16, random.between(1, 14) as u16);
    let mut draft = Draft::valid(random, width, height);
    draft.length = draft.length.min(30);
    draft.origin = draft.origin.min(draft.length - 1);
    let ticket = read(&draft.bytes()).expect("a valid draft is accepted");
    let sides = Sides { width: i64::from(width), height: i64::from(height) };
    (sides, random.bytes(sides.pixels().len()), ticket)
}

#[test]
fn lines_partition_the_page_and_number_alike_from_both_ends() {
    for index in 0..300 {
        let LineSample { lines, sides } = line_sample(3, index);
        let every_line = lines.every_line(sides);
        let mut met: Vec<Pixel> = every_line.concat();
        met.sort_by_key(|at| (at.row, at.column));
        assert_eq!(met, sides.pixels(), "{lines:?} {sides:?}");
        for line in every_line.iter().filter(|line| line.len() < 100) {
            for (step, &pixel) in line.iter().enumerate() {
                assert_eq!(lines.number(sides, pixel), step);
                assert_eq!(lines.after(sides, pixel), line.len() - 1 - step);
                assert_eq!(lines.step(Way::Behind, lines.step(Way::Ahead, pixel)), pixel);
            }
        }
    }
}

#[test]
fn a_line_stays_nearest_to_the_true_line() {
    for index in 0..300 {
        let LineSample { lines: Lines { kind, dx, dy, .. }, sides } = line_sample(4, index);
        let start = Pixel { column: 0, row: 0 };
        let lines = Lines { kind, dx, dy, phase: 0 };
        for k in 0..sides.width.min(50) {
            let at = (0..k).fold(start, |at, _| lines.step(Way::Ahead, at));
            // Twice the distance past the true line along the minor axis, times the major
            // component; past it is away from zero, where a tie goes.
            let (major, minor) = lines.major_and_minor();
            let past = if lines.shallow() { 1 } else { -1 } * if minor < 0 { -1 } else { 1 };
            let off = 2 * (at.row * dx - at.column * dy) * past;
            let nearest = -major < off && off <= major;
            assert!(if kind == CONNECTED { nearest } else { off == 0 }, "({dx}, {dy}) at {at:?}");
        }
    }
}

/// The same filter by step numbers on listed lines instead of walks from each pixel.
fn by_listed_lines(sides: Sides, greys: &[u8], ticket: &Ticket) -> Vec<u8> {
    let place = |at: Pixel| (at.row * sides.width + at.column) as usize;
    let covered = |at: &Pixel| hidden(ticket.hidden_boxes(), *at);
    let mut page = greys.to_vec();
    for pass in Pass::of(ticket.operation) {
        let (l, o) = (i64::from(ticket.length), i64::from(ticket.origin));
        let (first, last) = if *pass == Pass::Erosion { (-o, l - 1 - o) } else { (o + 1 - l, o) };
        let mut later = vec![255; page.len()];
        for line in Lines::of(ticket).every_line(sides) {
            for x in (0..line.len()).filter(|&x| !covered(&line[x])) {
                let steps = (x as i64 + first..=x as i64 + last).filter(|&s| s >= 0);
                let present = steps.filter_map(|s| line.get(s as usize)).filter(|at| !covered(at));
                let window = present.map(|&at| page[place(at)]);
                let extreme = if *pass == Pass::Erosion { window.min() } else { window.max() };
                later[place(line[x])] = extreme.expect("the pixel itself counts");
            }
        }
        page = later;
    }
    page
}

#[test]
fn walks_and_listed_lines_agree() {
    for index in 0..400 {
        let (sides, greys, ticket) = page_and_ticket(index);
        let results = filtered(sides, &greys, &ticket, WHITE);
        assert_eq!(results, by_listed_lines(sides, &greys, &ticket), "{ticket:?}");
    }
}

#[test]
fn openings_and_closings_keep_their_laws_and_hidden_greys_do_not_matter() {
    for index in 0..400 {
        let (sides, greys, mut ticket) = page_and_ticket(index);
        let mut other = greys.clone();
        for (at, grey) in sides.pixels().into_iter().zip(&mut other) {
            *grey = if hidden(ticket.hidden_boxes(), at) { !*grey } else { *grey };
        }
        for operation in [OPEN, CLOSE] {
            ticket.operation = operation;
            let once = filtered(sides, &greys, &ticket, WHITE);
            assert_eq!(filtered(sides, &once, &ticket, WHITE), once, "twice is once: {ticket:?}");
            assert_eq!(filtered(sides, &other, &ticket, WHITE), once);
            for ((at, before), after) in sides.pixels().into_iter().zip(&greys).zip(&once) {
                let covered = hidden(ticket.hidden_boxes(), at);
                let ordered = if operation == OPEN { after <= before } else { after >= before };
                assert!(if covered { *after == 255 } else { ordered });
            }
        }
    }
}

#[test]
fn a_steep_line_is_a_shallow_one_on_the_page_turned_over() {
    for index in 0..300 {
        let LineSample { lines, sides } = line_sample(6, index);
        let turned = Lines { dx: lines.dy, dy: lines.dx, ..lines };
        // A diagonal is shallow either way, and a falling one turned over is not allowed.
        let pixels = sides.pixels().into_iter().take(400);
        for at in pixels.filter(|_| lines.dx.abs() != lines.dy.abs()) {
            let over = turned.step(Way::Ahead, Pixel { column: at.row, row: at.column });
            let ahead = lines.step(Way::Ahead, at);
            assert_eq!((over.column, over.row), (ahead.row, ahead.column));
        }
    }
}

#[test]
fn work_keeps_its_bound_and_is_counted_by_blocks() {
    for index in 0..400 {
        let (sides, _, mut ticket) = page_and_ticket(index);
        let most = 3 * (sides.width * sides.height) as u64;
        let passes = [Pass::Erosion, Pass::Dilation].map(|p| work::of_pass(sides, &ticket, p));
        assert!(passes.iter().all(|&work| work <= most));
        for (operation, sum) in
            [(ERODE, passes[0]), (DILATE, passes[1]), (OPEN, passes.iter().sum())]
        {
            ticket.operation = operation;
            assert_eq!(work::of_job(sides, &ticket), sum);
        }
        (ticket.length, ticket.origin) = (1, 0);
        assert_eq!(work::of_job(sides, &ticket), 0);
    }
    // Seven steps in blocks of three, a window one step behind to one ahead: 4 and 4 for the
    // running extremes, and the results at steps 2, 3, 5 and 6 reach over a block's end.
    let window = compare::filter::Window { behind: 1, ahead: 1 };
    assert_eq!(work::of_line(7, 3, window), 12);
}

/// Whether each step up to L-1 from x on a row can change an opening's or closing's result at x.
fn reach_is_exact(width: i64, x: i64, ticket: &Ticket) -> bool {
    let (sides, length) = (Sides { width, height: 1 }, i64::from(ticket.length));
    let at_x = |greys: &[u8]| filtered(sides, greys, ticket, WHITE)[x as usize];
    (x - (length - 1)..=x + (length - 1)).all(|step| {
        // One run of L steps holds x and the step; breaking it at the step must show at x.
        let run = x.min(step)..x.min(step) + length;
        let grey = |at| u8::from(run.contains(&at) == (ticket.operation == OPEN));
        let whole: Vec<u8> = (0..width).map(grey).collect();
        let mut broken = whole.clone();
        broken[step as usize] ^= 1;
        at_x(&whole) != at_x(&broken)
    })
}

#[test]
fn the_reach_of_openings_and_closings_is_exact() {
    let mut ticket = Ticket { line: CONNECTED, dx: 1, ..Ticket::zero() };
    for (length, width) in [(1, 1), (2, 3), (3, 7), (4, 11)] {
        for (operation, origin) in (0..length).flat_map(|o| [(OPEN, o), (CLOSE, o)]) {
            ticket = Ticket { operation, length, origin, ..ticket };
            assert!(reach_is_exact(width, width / 2, &ticket), "L {length}, o {origin}");
        }
    }
}
