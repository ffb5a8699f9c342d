//! Every kind of generated input does occur, and jobs leave their buffers as promised.

use std::collections::BTreeSet;

use compare::generate::{self, ticket_list, MadeFile, CUT_FILES};
use compare::job::run;
use compare::job_list::{entry, first};
use compare::marks;
use compare::number_list::kind;
use compare::page_program::{reply, Reply};
use compare::pgm;
use compare::placement::scratch_needed;
use compare::ticket::{read, shown, CLOSE, ERODE};
use compare::tray::{self, ANSWERS, ANSWER_NUMBERS};
use compare::{file_job, file_list, question_list, reason, reason_marks};
use compare::{tray_list, tray_marks};

#[test]
fn two_thousand_page_inputs_bring_every_answer() {
    let (mut kinds, mut done) = (BTreeSet::new(), BTreeSet::new());
    for index in 0..2000 {
        let input = generate::page_input(1, index);
        let reply = reply(&input);
        kinds.insert(reply.kind());
        if let Reply::Done { rows, .. } = reply {
            let ticket = read(&input[6..input.len() - rows.concat().len()]).expect("it is done");
            done.insert((ticket.operation, ticket.line));
        }
    }
    let refusals = (1..=10).chain([14]).map(|number| format!("refused {number}"));
    let others = ["done", "bad input", "too big"].map(String::from);
    assert_eq!(kinds, refusals.chain(others).collect());
    let all = (ERODE..=CLOSE).flat_map(|operation| [(operation, 1), (operation, 2)]);
    assert_eq!(done, all.collect());
}

#[test]
fn tickets_bring_every_refusal_and_every_number_of_boxes_at_the_limit() {
    let (mut numbers, mut counts) = (BTreeSet::new(), BTreeSet::new());
    for index in 0..2000 {
        let (refusal, ticket) = shown(&generate::ticket(2, index));
        numbers.insert(refusal.number);
        counts.insert(ticket.count);
    }
    assert_eq!(numbers, (0..=9).collect());
    assert!([0, 1, 2, 63, 64].iter().all(|count| counts.contains(count)));
}

/// Of all marks, which are those of the first job, keeps those that no job has shown so far.
fn still_missed(missed: &mut BTreeSet<String>, index: u64, marks: Vec<(String, bool)>) {
    for (mark, holds) in marks {
        if index == 0 {
            missed.insert(mark.clone());
        }
        if holds {
            missed.remove(&mark);
        }
    }
}

#[test]
fn jobs_bring_all_that_is_counted_and_write_only_what_they_may() {
    let (mut numbers, mut missed) = (BTreeSet::new(), BTreeSet::new());
    for index in 0..2000 {
        let job = generate::job(3, index);
        let outcome = run(&job);
        numbers.insert(outcome.answer.refusal);
        assert_eq!(first(&entry(&job)), Some((job.clone(), &[][..])));
        still_missed(&mut missed, index, marks::of(&job, &outcome));
        if outcome.answer.refusal != 0 {
            assert_eq!(outcome.answer.work, 0);
            assert_eq!((&outcome.output, &outcome.scratch), (&job.output, &job.scratch));
            continue;
        }
        let needed = scratch_needed(job.width, job.height) as usize;
        assert!(outcome.scratch[..needed].iter().all(|&byte| byte == 0));
        assert_eq!(outcome.scratch[needed..], job.scratch[needed..]);
        for (at, (later, old)) in (0u64..).zip(outcome.output.iter().zip(&job.output)) {
            let past = at.checked_sub(job.output_offset);
            let on_page = past.is_some_and(|past| {
                past % job.output_stride < job.width && past / job.output_stride < job.height
            });
            assert!(on_page || later == old, "byte {at} of job {index}");
        }
    }
    assert_eq!(numbers, (0..=14).collect());
    assert_eq!(missed, BTreeSet::new());
}

#[test]
fn jobs_to_be_flipped_finish_and_bring_all_that_is_counted() {
    let mut missed = BTreeSet::new();
    for index in 0..2000 {
        let pair = generate::flip_pair(3, index);
        let outcomes = pair.each_ref().map(run);
        assert!(outcomes.iter().all(|outcome| outcome.answer.refusal == 0));
        still_missed(&mut missed, index, marks::of_flip(&pair, &outcomes[0]));
    }
    assert_eq!(missed, BTreeSet::new());
}

#[test]
fn files_are_of_every_kind_and_meet_every_answer() {
    let (mut numbers, mut missed, mut done) = (BTreeSet::new(), BTreeSet::new(), BTreeSet::new());
    missed.extend(generate::file_kinds().into_iter().map(|(kind, _)| kind));
    for index in 0..2000 {
        let MadeFile { job, kinds } = generate::file_job(3, index);
        let outcome = file_job::run(&job);
        let file_job::Answer { refusal, work, length, .. } = outcome.answer;
        numbers.insert(refusal);
        missed.retain(|kind| !kinds.contains(kind));
        assert_eq!(file_list::first(&file_list::entry(&job)), Some((job.clone(), &[][..])));
        if refusal != 0 {
            assert_eq!((work, length), (0, 0));
            assert_eq!((&outcome.output, &outcome.scratch), (&job.output, &job.scratch));
            continue;
        }
        let ticket = read(&job.ticket).expect("it is done");
        done.insert((ticket.operation, ticket.line, ticket.count > 0));
        let (header, length) = (pgm::read(&job.file).expect("it is done"), length as usize);
        let written = pgm::read(&outcome.output[..length]).expect("it is written");
        let sides = [header.width, header.height, u64::from(header.maximum)];
        assert_eq!([written.width, written.height, u64::from(written.maximum)], sides);
        assert_eq!(written.start + written.width * written.height, length as u64);
        assert_eq!(outcome.output[length..], job.output[length..]);
        let needed = scratch_needed(header.width, header.height) as usize;
        assert!(outcome.scratch[..needed].iter().all(|&byte| byte == 0));
        assert_eq!(outcome.scratch[needed..], job.scratch[needed..]);
    }
    assert_eq!(numbers, (0..=17).filter(|&number| number != 11).collect());
    assert_eq!(missed, BTreeSet::new());
    // Four operations along two kinds of line, each with boxes and without.
    assert_eq!(done.len(), 4 * 2 * 2);
}

#[test]
fn a_file_that_is_odd_in_one_way_meets_what_that_brings() {
    let mut met = BTreeSet::new();
    for MadeFile { job, kinds } in (0..5000).map(|index| generate::file_job(9, index)) {
        let number = pgm::shown(&job.file).0.number;
        match kinds[..] {
            [] => assert_eq!(number, 0),
            [one] => {
                let due = generate::file_kinds().into_iter().find(|&(kind, _)| kind == one);
                let (_, answers) = due.expect("every kind has its answers");
                assert!(answers.contains(&number), "{one}: {number}");
                met.extend([(one, number)]);
            }
            _ => {}
        }
    }
    for (kind, answers) in generate::file_kinds().into_iter().filter(|kind| kind.1.len() < 4) {
        // A box over a flaw is never a kind alone.
        let alone = kind != "pixel above the maximum under a box";
        assert!(!alone || answers.iter().all(|&number| met.contains(&(kind, number))), "{kind}");
    }
}

#[test]
fn small_files_are_cut_at_every_byte() {
    let made = (0..5000).map(|index| generate::file_job(4, index));
    let files: BTreeSet<_> = made.map(|made| made.job.file).collect();
    for file in CUT_FILES {
        assert!((0..=file.len()).all(|end| files.contains(&file[..end])));
    }
    let read = CUT_FILES.map(|file| pgm::shown(file).0.number);
    assert_eq!(read, [0, 0, 15, 16]);
}

#[test]
fn lists_bring_all_that_is_counted_and_write_only_what_they_may() {
    let (mut numbers, mut missed) = (BTreeSet::new(), BTreeSet::new());
    for index in 0..2000 {
        let call = generate::tray_call(3, index);
        let outcome = tray::run(&call);
        numbers.insert(outcome.answer.refusal);
        assert_eq!(tray_list::first(&tray_list::entry(&call)), Some((call.clone(), &[][..])));
        still_missed(&mut missed, index, tray_marks::of(&call, &outcome));
        if outcome.answer.refusal != 0 {
            assert_eq!((&outcome.output, &outcome.scratch), (&call.output, &call.scratch));
        }
        if outcome.answer.refusal == 100 {
            assert_eq!(outcome.answers, call.answers);
            continue;
        }
        let jobs = if outcome.answer.refusal == 0 { call.count as usize } else { 0 };
        let (given, zero) = outcome.answers[..ANSWERS].split_at(ANSWER_NUMBERS * jobs);
        assert!(given.chunks(ANSWER_NUMBERS).all(|answer| answer[0] <= 14));
        assert!(zero.iter().all(|&number| number == 0));
        assert_eq!(outcome.answers[ANSWERS..], call.answers[ANSWERS..]);
    }
    assert_eq!(numbers, [0, 18, 100].into());
    assert_eq!(missed, BTreeSet::new());
}

#[test]
fn questions_bring_all_that_is_counted() {
    let (mut numbers, mut kinds, mut missed) = (BTreeSet::new(), BTreeSet::new(), BTreeSet::new());
    for index in 0..2000 {
        let question = generate::question(3, index);
        let reason = reason::of(&question);
        numbers.insert(reason.refusal);
        kinds.insert(reason.kind);
        let entry = question_list::entry(&question);
        assert_eq!(question_list::first(&entry), Some((question.clone(), &[][..])));
        still_missed(&mut missed, index, reason_marks::of(&question, &reason));
    }
    assert_eq!(numbers, (0..=14).chain([19]).collect());
    assert_eq!(kinds, [0, 1, 3, 4].into());
    assert_eq!(missed, BTreeSet::new());
}

#[test]
fn ticket_lists_hold_each_ticket_once_and_are_full() {
    let (mut first, mut ends) = (0, BTreeSet::new());
    while first < 20_000 {
        let list = ticket_list(5, first, 20_000);
        for ticket in &list.tickets {
            assert_eq!(*ticket, generate::ticket(5, first));
            first += 1;
        }
        let next = generate::ticket(5, first).len() + 2;
        assert!(list.bytes.len() <= 65536 && list.bytes.len() + next > 65536 || first == 20_000);
        ends.insert((list.cut, list.bytes.len() == 65536));
    }
    assert!([(false, false), (true, false), (true, true)].iter().all(|end| ends.contains(end)));
}

#[test]
fn number_inputs_are_mostly_good_and_bad_in_every_way() {
    let (mut kinds, mut lengths, mut divisors) = (Vec::new(), BTreeSet::new(), 0);
    for input in (0..2000).map(|index| generate::number_input(6, index)) {
        kinds.push(kind(&input));
        lengths.insert(input.len());
        if kind(&input) == "numbers, connected" {
            let [dx, dy] = [1, 3].map(|at| i16::from_be_bytes([input[at], input[at + 1]]));
            divisors += u32::from(dx % 2 == 0 && dy % 2 == 0);
        }
    }
    let times = |kind| kinds.iter().filter(|&&known| known == kind).count();
    assert!(times("numbers, connected") > 500 && times("numbers, periodic") > 500);
    assert!(times("bad input") > 200 && divisors > 20);
    assert!([0, 10, 11, 12].iter().all(|length| lengths.contains(length)));
}

#[test]
fn line_samples_lie_in_every_octant_with_and_without_a_phase() {
    let mut met = BTreeSet::new();
    for index in 0..2000 {
        let lines = generate::line_sample(4, index).lines;
        let slope = lines.dx.abs().cmp(&lines.dy.abs());
        met.insert((lines.kind, lines.dx.signum(), lines.dy.signum(), slope, lines.phase > 0));
    }
    // Shallow: level, rising, falling, and the two diagonals; steep: upright and two slopes. All
    // eight are periodic with phase 0 and connected with it; a phase needs a vector above 1, so
    // only the four sloping ones have one.
    assert_eq!(met.len(), 8 + 8 + 4);
}

#[test]
fn the_same_seed_and_index_give_the_same_input() {
    assert_eq!(generate::page_input(7, 7), generate::page_input(7, 7));
    assert_ne!(generate::page_input(7, 7), generate::page_input(7, 8));
    assert_ne!(generate::page_input(7, 7), generate::page_input(8, 7));
}
