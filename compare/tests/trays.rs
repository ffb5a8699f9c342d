//! Wish 3 on small lists by hand: what the jobs leave in list order, and each refusal of a list.

use compare::generate::Draft;
use compare::job::{self, Answer};
use compare::ticket::{CONNECTED, DILATE, OPEN};
use compare::tray::{run, Call, Listed, Outcome, ANSWERS};
use compare::tray_list;

const NONE: Answer = Answer { refusal: 0, place: 0, work: 0 };

/// Connected (1, 0), L 2, o 0, phase 0: 30 bytes.
fn ticket(operation: u8) -> Vec<u8> {
    let (line, boxes) = (CONNECTED, vec![]);
    Draft { operation, line, dx: 1, dy: 0, length: 2, origin: 0, phase: 0, boxes }.bytes()
}

/// The row 9 1 5 from the source tray into the output tray.
fn row(ticket_start: u64, output_offset: u64) -> Listed {
    let job = Listed { ticket_start, ticket_length: 30, width: 3, height: 1, ..Listed::default() };
    Listed { source_offset: 1, source_stride: 3, output_offset, output_stride: 3, ..job }
}

/// Opens the row (1 1 5, work 6) and dilates it (9 9 5, work 3).
const OPENING: u64 = 0;
const DILATION: u64 = 30;

/// These jobs on small trays, with old contents everywhere.
fn call(jobs: &[Listed]) -> Call {
    Call {
        count: jobs.len() as u64,
        jobs: jobs.iter().flat_map(Listed::numbers).collect(),
        tickets: [ticket(OPEN), ticket(DILATE)].concat(),
        source: vec![77, 9, 1, 5, 78],
        output: vec![40, 41, 42, 43, 44, 45],
        scratch: vec![88; 16],
        answers: (1000..1000 + ANSWERS as u64).collect(),
    }
}

/// Answers that begin so, and zeros behind them.
fn answers(first: &[[u64; 3]]) -> Vec<u64> {
    let mut answers = first.concat();
    answers.resize(ANSWERS, 0);
    answers
}

/// One finished, one refused as its source page does not fit, and one over the first one's end.
fn three() -> [Listed; 3] {
    [row(OPENING, 0), Listed { source_offset: 3, ..row(OPENING, 3) }, row(DILATION, 2)]
}

#[test]
fn a_refused_job_amid_two_that_overlap() {
    let scratch = [vec![0; 15], vec![88]].concat();
    let outcome = run(&call(&three()));
    assert_eq!(outcome.answers, answers(&[[0, 0, 6], [11, 0, 0], [0, 0, 3]]));
    assert_eq!(outcome.output, [1, 1, 9, 9, 5, 45]);
    assert_eq!((&outcome.scratch, outcome.answer), (&scratch, NONE));
    let [opened, refused, dilated] = three();
    let outcome = run(&call(&[dilated, refused, opened]));
    assert_eq!(outcome.answers, answers(&[[0, 0, 3], [11, 0, 0], [0, 0, 6]]));
    assert_eq!(outcome.output, [1, 1, 5, 9, 5, 45]);
    assert_eq!((&outcome.scratch, outcome.answer), (&scratch, NONE));
    // On the very same page the last of three wins, and a refused fourth leaves it there.
    let outcome = run(&call(&[row(OPENING, 1), row(DILATION, 1), row(OPENING, 1), refused]));
    assert_eq!(outcome.output, [40, 1, 1, 5, 44, 45]);
}

#[test]
fn a_list_is_single_calls_in_list_order() {
    let call = call(&three());
    let (mut output, mut scratch) = (call.output.clone(), call.scratch.clone());
    let mut given = Vec::new();
    for listed in three() {
        let single = job::run(&call.single(listed, output, scratch));
        let Answer { refusal, place, work } = single.answer;
        given.push([u64::from(refusal), place, work]);
        (output, scratch) = (single.output, single.scratch);
    }
    let answers = answers(&given);
    assert_eq!(run(&call), Outcome { answer: NONE, output, scratch, answers });
}

#[test]
fn scratch_for_some_jobs_only() {
    // Two rows need 2·6 + 3·3 bytes, one row 15.
    let rows = Listed { height: 2, source_offset: 0, source_stride: 3, ..row(OPENING, 0) };
    let mut call = call(&[row(OPENING, 0), rows, row(DILATION, 3)]);
    (call.source, call.scratch) = (vec![77, 9, 1, 5, 78, 79], vec![88; 20]);
    let outcome = run(&call);
    assert_eq!(outcome.answers, answers(&[[0, 0, 6], [13, 0, 0], [0, 0, 3]]));
    assert_eq!(outcome.output, [1, 1, 5, 9, 9, 5]);
    assert_eq!(outcome.scratch, [vec![0; 15], vec![88; 5]].concat());
}

/// The answer to a job with this ticket; the job behind it is run all the same.
fn with_ticket(ticket_start: u64, ticket_length: u64) -> [u64; 3] {
    let job = Listed { ticket_start, ticket_length, ..row(OPENING, 0) };
    let Outcome { output, answers, .. } = run(&call(&[job, row(DILATION, 2)]));
    assert_eq!((&output[2..], &answers[3..6]), (&[9, 9, 5, 45][..], &[0, 0, 3][..]));
    [answers[0], answers[1], answers[2]]
}

#[test]
fn tickets_in_the_buffer_are_read() {
    assert_eq!(with_ticket(0, 30), [0, 0, 6]);
    assert_eq!(with_ticket(30, 30), [0, 0, 3]);
    // What stands behind the first ticket is no box; the second one is cut short in its last field.
    assert_eq!(with_ticket(0, 60), [2, 30, 0]);
    assert_eq!(with_ticket(30, 29), [1, 25, 0]);
    assert_eq!(with_ticket(31, 29), [2, 0, 0]);
}

#[test]
fn tickets_of_no_bytes_and_tickets_not_wholly_in_the_buffer_are_empty() {
    for (start, length) in [
        (0, 0),
        (60, 0),
        (61, 0),
        (u64::MAX, 0),
        (60, 1),
        (61, 30),
        // One byte too many, though a good ticket stands before it.
        (30, 31),
        (0, 61),
        (1 << 32, 30),
        (30, (1 << 32) + 30),
        (0, u64::MAX),
        // Ends that come round to 0, 1, 30, 30 and 60.
        (30, u64::MAX - 29),
        (2, u64::MAX),
        (31, u64::MAX),
        (u64::MAX, 31),
        (u64::MAX - 29, 90),
    ] {
        assert_eq!(with_ticket(start, length), [1, 0, 0], "{start} {length}");
    }
}

/// A list that is refused and leaves both trays and the scratch alone.
fn refused(call: &Call) -> (u8, u64, Vec<u64>) {
    let Outcome { answer, output, scratch, answers } = run(call);
    assert_eq!((&output, &scratch, answer.work), (&call.output, &call.scratch, 0));
    (answer.refusal, answer.place, answers)
}

#[test]
fn more_than_256_jobs() {
    let outcome = run(&call(&[row(OPENING, 0); 256]));
    assert_eq!((outcome.answer, outcome.answers), (NONE, answers(&[[0, 0, 6]; 256])));
    assert_eq!(refused(&call(&[row(OPENING, 0); 257])), (18, 0, answers(&[])));
    for count in [257, 1 << 32, 1 << 61, (1 << 61) + 3, u64::MAX] {
        let call = Call { count, ..call(&three()) };
        assert_eq!(refused(&call), (18, 0, answers(&[])));
        // Numbers past the answers are nobody's.
        let longer = Call { answers: vec![5; ANSWERS + 2], ..call };
        assert_eq!(refused(&longer), (18, 0, [answers(&[]), vec![5; 2]].concat()));
    }
}

#[test]
fn numbers_too_few() {
    for length in [0, 1, ANSWERS - 1] {
        for count in [0, 3, 4, 257, u64::MAX] {
            let call = Call { count, answers: vec![5; length], ..call(&three()) };
            assert_eq!(refused(&call), (100, 768, vec![5; length]));
        }
    }
    let call = call(&three());
    for (count, length, needed) in [(3, 23, 24), (3, 0, 24), (4, 24, 32), (256, 24, 2048)] {
        let short = Call { count, jobs: call.jobs[..length].to_vec(), ..call.clone() };
        assert_eq!(refused(&short), (100, needed, call.answers.clone()));
    }
}

#[test]
fn numbers_to_spare() {
    let call = call(&three());
    let longer = Call { jobs: [&call.jobs[..], &[1; 9]].concat(), ..call.clone() };
    assert_eq!(run(&longer), run(&call));
    // Only the first of the three jobs is in the list; then none.
    let outcome = run(&Call { count: 1, ..call.clone() });
    assert_eq!(
        (outcome.answers, outcome.output),
        (answers(&[[0, 0, 6]]), vec![1, 1, 5, 43, 44, 45])
    );
    let none = Call { count: 0, jobs: vec![], ..call.clone() };
    let outcome = run(&none);
    assert_eq!((outcome.answer, outcome.answers), (NONE, answers(&[])));
    assert_eq!((outcome.output, outcome.scratch), (none.output, none.scratch));
    let longer = Call { answers: vec![5; ANSWERS + 1], ..call };
    let jobs = answers(&[[0, 0, 6], [11, 0, 0], [0, 0, 3]]);
    assert_eq!(run(&longer).answers, [jobs, vec![5]].concat());
}

#[test]
fn lines_and_entries() {
    let call = call(&three());
    let line = "0 0 0 answers 0*2 6 11 0*4 3 0*759 output 01010909052d \
                scratch 00000000000000000000000000000058\n";
    assert_eq!(tray_list::line(&run(&call)), line);
    let short = Call { answers: vec![7, 7, 8], scratch: vec![], ..call.clone() };
    let other = "100 768 0 answers 7*2 8 output 28292a2b2c2d scratch \n";
    let entries = [tray_list::entry(&call), tray_list::entry(&short)].concat();
    assert_eq!(tray_list::first(&entries), Some((call, &tray_list::entry(&short)[..])));
    assert_eq!(tray_list::printed(&entries), format!("{line}{other}"));
    // An entry that is cut is none.
    assert_eq!(tray_list::printed(&entries[..entries.len() - 1]), line);
    assert_eq!(tray_list::printed(&[255; 56]), "");
}
