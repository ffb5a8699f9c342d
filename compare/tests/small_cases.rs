//! Document 01, "Small pages to check against", with the D of wish 2, and the order in which it
//! judges.

use compare::generate::{assemble, Draft};
use compare::job::{run, Answer, Job};
use compare::lines::{nearest_row, Lines, Pixel, Way};
use compare::page_program::{reply, Reply};
use compare::placement::{scratch_needed, Placement};
use compare::ticket::{shown, HiddenBox, Ticket, CLOSE, CONNECTED, DILATE, ERODE, OPEN, PERIODIC};
use compare::ticket_list::entry;
use compare::{job_list, number_list, ticket_list};

const ROW: [u8; 3] = [9, 1, 5];
const NINE: [u8; 9] = [1, 2, 3, 4, 5, 6, 7, 8, 9];
const MIDDLE: HiddenBox = HiddenBox { left: 1, top: 0, width: 1, height: 1 };

/// Connected (1, 0), phase 0, no box: what the cases mean "unless said otherwise".
fn draft(operation: u8, length: u16, origin: u16) -> Draft {
    let (line, boxes) = (CONNECTED, vec![]);
    Draft { operation, line, dx: 1, dy: 0, length, origin, phase: 0, boxes }
}

fn along(line: u8, dx: i16, dy: i16, phase: u16, draft: Draft) -> Draft {
    Draft { line, dx, dy, phase, ..draft }
}

fn hiding(boxes: &[HiddenBox], draft: Draft) -> Draft {
    Draft { boxes: boxes.to_vec(), ..draft }
}

/// A job on a page three pixels wide that stands in the middle of wider trays, just long enough.
fn job_of(greys: &[u8], ticket: Vec<u8>) -> Job {
    let height = greys.len() / 3;
    let mut source = vec![200; 4 + 5 * (height - 1) + 3];
    for (row, three) in greys.chunks(3).enumerate() {
        source[4 + 5 * row..][..3].copy_from_slice(three);
    }
    let needed = 2 * greys.len() + 3 * height.max(3);
    Job {
        ticket,
        width: 3,
        height: height as u64,
        source_offset: 4,
        source_stride: 5,
        output_offset: 1,
        output_stride: 3,
        source,
        output: vec![77; 1 + greys.len() + 2],
        scratch: vec![88; needed + 1],
    }
}

/// Through the page program and through a job elsewhere in its trays.
fn check(greys: &[u8], draft: &Draft, results: &[u8], work: u64) {
    let input = assemble(3, (greys.len() / 3) as u16, &draft.bytes(), greys);
    let rows = results.chunks(3).map(<[u8]>::to_vec).collect();
    assert_eq!(reply(&input), Reply::Done { work, rows }, "{draft:?}");
    let job = job_of(greys, draft.bytes());
    let outcome = run(&job);
    assert_eq!(outcome.answer, Answer { refusal: 0, place: 0, work }, "{draft:?}");
    assert_eq!(outcome.output, [&[77], results, &[77, 77]].concat());
    let used = job.scratch.len() - 1;
    assert_eq!(outcome.scratch, [vec![0; used], vec![88]].concat());
}

#[test]
fn cases_1_to_9_on_the_row() {
    check(&ROW, &draft(ERODE, 2, 0), &[1, 1, 5], 3);
    check(&ROW, &draft(DILATE, 2, 0), &[9, 9, 5], 3);
    check(&ROW, &draft(OPEN, 2, 0), &[1, 1, 5], 6);
    check(&ROW, &draft(CLOSE, 2, 0), &[9, 5, 5], 6);
    check(&ROW, &draft(OPEN, 2, 1), &[9, 1, 1], 6);
    for operation in ERODE..=CLOSE {
        check(&ROW, &draft(operation, 1, 0), &ROW, 0);
    }
    check(&ROW, &draft(ERODE, 8192, 0), &[1, 1, 5], 4);
    check(&ROW, &hiding(&[MIDDLE], draft(OPEN, 2, 0)), &[9, 255, 5], 6);
    check(&ROW, &hiding(&[MIDDLE], draft(OPEN, 3, 0)), &[5, 255, 5], 8);
}

#[test]
fn cases_11_to_13_on_nine_pixels() {
    let case_11 = along(PERIODIC, 1, 1, 0, draft(ERODE, 3, 1));
    check(&NINE, &case_11, &[1, 2, 3, 4, 1, 2, 7, 4, 5], 8);
    let case_12 = along(CONNECTED, 2, 1, 0, draft(DILATE, 2, 1));
    check(&NINE, &case_12, &[5, 3, 3, 8, 6, 6, 7, 9, 9], 8);
    let case_13 = along(CONNECTED, 2, 1, 1, draft(DILATE, 2, 1));
    check(&NINE, &case_13, &[2, 6, 3, 5, 9, 6, 8, 8, 9], 8);
}

#[test]
fn case_3_byte_for_byte() {
    let input = b"\x00\x03\x00\x01\x00\x1E\x01\x00\x01\x03\x02\x00\x01\x01\x03\x00\x04\x00\x01\x00\
        \x00\x04\x00\x02\x00\x02\x05\x00\x02\x00\x00\x06\x00\x02\x00\x00\x09\x01\x05";
    assert_eq!(reply(input).printed(), "done 6\n1 1 5\n");
    assert_eq!(assemble(3, 1, &draft(OPEN, 2, 0).bytes(), &ROW), input);
}

/// The refusal's number and place for these ticket bytes, shown with zero fields.
fn refused(bytes: &[u8]) -> (u8, u64) {
    let (refusal, ticket) = shown(bytes);
    assert_eq!(ticket == Ticket::zero(), refusal.number != 0);
    (refusal.number, refusal.place)
}

#[test]
fn cases_10_14_and_15_refuse_or_accept() {
    assert_eq!(refused(&[]), (1, 0));
    let vector = |line, dx, dy| refused(&along(line, dx, dy, 0, draft(OPEN, 2, 0)).bytes());
    for (line, dx, dy) in [(CONNECTED, 2, 2), (CONNECTED, 0, 0), (PERIODIC, 0, 0)] {
        assert_eq!(vector(line, dx, dy), (6, 8));
    }
    assert_eq!(vector(PERIODIC, 2, 2), (0, 0));
    assert_eq!(refused(&draft(OPEN, 8192, 8191).bytes()), (0, 0));
    assert_eq!(refused(&draft(OPEN, 8193, 0).bytes()), (7, 15));
    assert_eq!(refused(&draft(OPEN, 2, 2).bytes()), (8, 20));
    for (flaw, number) in [(0, 11), (1, 12), (2, 13)] {
        let mut job = job_of(&ROW, draft(OPEN, 2, 0).bytes());
        let buffer = [&mut job.source, &mut job.output, &mut job.scratch];
        let cut = [1, 3, 2];
        buffer.into_iter().zip(cut).nth(flaw).map(|(b, by)| b.truncate(b.len() - by));
        let outcome = run(&job);
        assert_eq!(outcome.answer, Answer { refusal: number, place: 0, work: 0 });
        assert_eq!((outcome.output, outcome.scratch), (job.output, job.scratch));
    }
}

#[test]
fn vectors_at_their_limits() {
    let allowed =
        |line, dx, dy| refused(&along(line, dx, dy, 0, draft(OPEN, 2, 0)).bytes()) == (0, 0);
    for vector in [(0, 1), (1, 0), (1, 1), (1, -1), (-1, 2), (255, 254), (-254, 255), (255, -1)] {
        assert!(allowed(CONNECTED, vector.0, vector.1) && allowed(PERIODIC, vector.0, vector.1));
    }
    for vector in [(2, 2), (2, -2), (2, 0), (0, 255), (255, 255), (-2, 4)] {
        assert!(!allowed(CONNECTED, vector.0, vector.1) && allowed(PERIODIC, vector.0, vector.1));
    }
    let min = i16::MIN;
    for vector in [(0, -1), (-1, 0), (-1, 1), (256, 1), (1, 256), (min, 1), (1, min), (min, min)] {
        assert!(!allowed(CONNECTED, vector.0, vector.1) && !allowed(PERIODIC, vector.0, vector.1));
    }
}

#[test]
fn d_tables() {
    let d = |dx, dy, last| (0..=last).map(|c| nearest_row(c, dx, dy)).collect::<Vec<i64>>();
    assert_eq!(d(5, 3, 5), [0, 1, 1, 2, 2, 3]);
    assert_eq!(d(3, -2, 3), [0, -1, -1, -2]);
    // Wish 2: "so (2, -1) gives 0 -1 -1 -2".
    assert_eq!(d(2, -1, 3), [0, -1, -1, -2]);
    assert_eq!(d(2, 1, 3), [0, 1, 1, 2]);
    assert_eq!(d(4, -3, 5), [0, -1, -2, -2, -3, -4]);
    // Left of the page the line goes on in the same pattern.
    for (dx, dy) in [(5, 3), (3, -2), (2, -1), (4, -3), (1, -1), (1, 0)] {
        for c in -20..20 {
            assert_eq!(nearest_row(c + dx, dx, dy), nearest_row(c, dx, dy) + dy);
            assert_eq!(nearest_row(c, dx, -dy), -nearest_row(c, dx, dy));
        }
    }
}

#[test]
fn steep_lines_step_likewise() {
    let columns = |dx, dy, phase| {
        let lines = Lines { kind: CONNECTED, dx, dy, phase };
        let mut at = Pixel { column: 0, row: 0 };
        [0, 1, 2, 3].map(|row| {
            assert_eq!(at.row, row);
            let column = at.column;
            at = lines.step(Way::Ahead, at);
            column
        })
    };
    assert_eq!(columns(-1, 2, 0), [0, -1, -1, -2]);
    assert_eq!(columns(1, 2, 0), [0, 1, 1, 2]);
    assert_eq!(columns(-1, 2, 1), [0, 0, -1, -1]);
    assert_eq!(columns(-2, 3, 0), [0, -1, -1, -2]);
}

#[test]
fn fields_are_judged_in_order() {
    let good = draft(OPEN, 2, 0).bytes();
    let then = |more: &[u8]| refused(&[&good, more].concat());
    assert_eq!(refused(&[9, 0]), (1, 0)); // head before tag
    assert_eq!(refused(&[9, 0, 9]), (2, 0)); // tag before length
    assert_eq!(refused(&[1, 0, 2]), (3, 0)); // length before value
    assert_eq!(refused(&[1, 0, 1]), (1, 0));
    assert_eq!(refused(&[1, 0, 1, 5]), (4, 0));
    assert_eq!(refused(&good[..29]), (1, 25));
    assert_eq!(then(&[8]), (1, 30));
    assert_eq!(then(&[6, 0, 2, 0, 0]), (2, 30));
    assert_eq!(then(&[7, 0, 8, 0, 0, 0]), (1, 30));
    let full = hiding(&[MIDDLE; 64], draft(OPEN, 2, 0)).bytes();
    assert_eq!(refused(&full), (0, 0));
    for (more, number) in [(&[7, 0][..], 1), (&[8, 0, 8], 2), (&[7, 0, 8], 5), (&[7, 9, 9], 5)] {
        assert_eq!(refused(&[&full, more].concat()), (number, 734));
    }
    assert_eq!(refused(&along(CONNECTED, 2, 1, 2, draft(OPEN, 2, 0)).bytes()), (9, 25));
    assert_eq!(refused(&along(PERIODIC, 2, 1, 1, draft(OPEN, 2, 0)).bytes()), (9, 25));
}

#[test]
fn boxes_are_judged_last_and_by_number() {
    let wide = HiddenBox { left: 65535, top: 0, width: 2, height: 1 };
    let flat = HiddenBox { left: 0, top: 0, width: 1, height: 0 };
    for (boxes, place) in [([MIDDLE, wide, flat], 1), ([flat, MIDDLE, wide], 0)] {
        let mut job = job_of(&ROW, hiding(&boxes, draft(OPEN, 2, 0)).bytes());
        assert_eq!(run(&job).answer, Answer { refusal: 14, place, work: 0 });
        job.scratch.clear();
        assert_eq!(run(&job).answer.refusal, 13);
        job.output_offset = u64::MAX;
        assert_eq!(run(&job).answer.refusal, 12);
        job.source_offset = u64::MAX - 2;
        assert_eq!(run(&job).answer.refusal, 11);
        job.output_stride = 16385;
        assert_eq!(run(&job).answer.refusal, 10);
        job.ticket.push(0);
        assert_eq!(run(&job).answer, Answer { refusal: 1, place: 63, work: 0 });
    }
}

#[test]
fn placements_at_their_limits() {
    let within = |width, height, stride| {
        Placement { offset: u64::MAX, width, height, stride }.within_limits()
    };
    assert!(within(1, 1, 1) && within(8192, 8192, 8192) && within(8192, 1, 16384));
    assert!(!within(0, 1, 1) && !within(1, 0, 1) && !within(8193, 1, 8193) && !within(1, 8193, 1));
    assert!(!within(5, 1, 4) && !within(5, 1, 16385) && !within(5, 1, u64::MAX));
    let page = Placement { offset: 7, width: 3, height: 2, stride: 10 };
    assert!(page.fits(20) && !page.fits(19));
    assert!(!Placement { offset: u64::MAX - 4, ..page }.fits(u64::MAX));
    assert_eq!((scratch_needed(2, 5), scratch_needed(5, 2)), (35, 35));
}

#[test]
fn numbers_on_nine_pixels_and_bad_samples() {
    let printed = |kind: u8, numbers: [i16; 5]| {
        let numbers = numbers.map(i16::to_be_bytes).concat();
        number_list::printed(&[&[kind], &numbers[..]].concat())
    };
    // The lines of case 12, and of case 11.
    let case_12 = "0/2 0/1 1/0\n0/2 1/1 2/0\n0/0 1/1 2/0\n";
    assert_eq!(printed(CONNECTED, [2, 1, 0, 3, 3]), case_12);
    assert_eq!(printed(CONNECTED, [4, 2, 2, 3, 3]), case_12);
    assert_eq!(printed(PERIODIC, [1, 1, 0, 3, 3]), "0/2 0/1 0/0\n0/1 1/1 1/0\n0/0 1/0 2/0\n");
    assert_eq!(printed(CONNECTED, [255, 0, 254, 2, 1]), "0/1 1/0\n");
    assert_eq!(printed(PERIODIC, [-1, 2, 0, 1, 4096]), "0/0\n".repeat(4096));
    for (kind, numbers) in [
        (0, [1, 0, 0, 1, 1]),
        (3, [1, 0, 0, 1, 1]),
        (CONNECTED, [0, 0, 0, 1, 1]),
        (CONNECTED, [256, 1, 0, 1, 1]),
        (PERIODIC, [-1, 1, 0, 1, 1]),
        (PERIODIC, [2, 1, 1, 1, 1]),
        (CONNECTED, [2, -1, 2, 1, 1]),
        (CONNECTED, [2, 1, -1, 1, 1]),
        (CONNECTED, [1, 0, 0, 0, 1]),
        (CONNECTED, [1, 0, 0, 1, 0]),
        (CONNECTED, [1, 0, 0, 241, 17]),
        (CONNECTED, [1, 0, 0, -1, -1]),
    ] {
        assert_eq!(printed(kind, numbers), "bad input\n", "{kind} {numbers:?}");
    }
    let good = [1, 0, 1, 0, 0, 0, 0, 0, 1, 0, 1, 0];
    let kept = (0..=12).filter(|&length| number_list::printed(&good[..length]) != "bad input\n");
    assert_eq!(kept.collect::<Vec<usize>>(), [11]);
}

#[test]
fn tickets_end_to_end() {
    let (good, line) = (draft(OPEN, 2, 0).bytes(), "ticket 3 1 1 0 2 0 0 0\n");
    let list = [entry(&good), entry(&[]), entry(&good)].concat();
    for length in 0..=list.len() {
        let (whole, inside) = match length {
            0..32 => (String::new(), length > 0),
            32..34 => (line.to_string(), length > 32),
            34..66 => (format!("{line}refused 1 at 0\n"), length > 34),
            _ => (format!("{line}refused 1 at 0\n{line}"), false),
        };
        let cut = if inside { "cut\n" } else { "" };
        assert_eq!(ticket_list::printed(&list[..length]), whole + cut);
    }
}

#[test]
fn jobs_end_to_end() {
    let good = draft(OPEN, 2, 0).bytes();
    let job = Job { output_offset: u64::MAX - 1, ..job_of(&ROW, good.clone()) };
    let bytes = job_list::entry(&job);
    let numbers = [3, 1, 4, 5, u64::MAX - 1, 3, 30, 7, 6, 16u64];
    assert_eq!(bytes[..80], numbers.map(u64::to_le_bytes).concat());
    assert_eq!(bytes[80..], [good, job.source, job.output, job.scratch].concat());
    let list = [bytes, job_list::entry(&job_of(&ROW, vec![]))].concat();
    for length in 0..=list.len() {
        let lines = job_list::printed(&list[..length]).lines().count();
        assert_eq!(lines, usize::from(length >= 139) + usize::from(length == 248));
    }
    let kept = format!("output {} scratch {}", "4d".repeat(6), "58".repeat(16));
    assert_eq!(job_list::printed(&list), format!("12 0 0 {kept}\n1 0 0 {kept}\n"));
}

#[test]
fn the_page_program_judges_its_input_in_order() {
    let good = draft(OPEN, 2, 0).bytes();
    let printed = |input: &[u8]| reply(input).printed();
    assert_eq!(printed(&[0, 3, 0, 1, 0]), "bad input\n");
    assert_eq!(printed(&[255, 255, 255, 255, 3, 33]), "bad input\n");
    assert_eq!(printed(&[255, 255, 255, 255, 3, 32]), "too big\n");
    assert_eq!(printed(&[1, 0, 1, 0, 0, 0]), "too big\n");
    assert_eq!(printed(&assemble(1, 8193, &good, &[0; 8193])), "too big\n");
    assert_eq!(printed(&assemble(3, 1, &good, &[0; 2])), "bad input\n");
    assert_eq!(printed(&assemble(3, 1, &good, &[0; 4])), "bad input\n");
    assert_eq!(printed(&assemble(3, 1, &[7; 800], &[0; 3])), "refused 2 at 0\n");
    assert_eq!(printed(&assemble(0, 0, &[], &[])), "refused 1 at 0\n");
    assert_eq!(printed(&assemble(8193, 0, &good, &[])), "refused 10 at 0\n");
}
