//! Lists of jobs on one source tray, one output tray and one scratch, with buffers of numbers that
//! are right, too short or longer than they need be.

use super::inputs;
use super::tray_jobs::ListDraft;
use crate::random::Random;
use crate::tray::{Call, Listed, ANSWERS};

/// Counts above 256, and what they look like: few jobs in 32 bits or in fewer, or jobs of which all
/// numbers seem to be there in 64 bits.
const LARGE: [u64; 10] =
    [257, 512, 1 << 16, 1 << 32, (1 << 32) + 1, 1 << 61, (1 << 61) + 1, 1 << 62, 1 << 63, u64::MAX];

pub fn call(random: &mut Random) -> Call {
    let made = how_many(random);
    let mut list = ListDraft::new(random, made);
    list.stray_tickets(random);
    let scratch_length = list.scratch_length(random);
    let (count, jobs) = count_and_numbers(random, &list.jobs);
    Call {
        count,
        jobs,
        source: inputs::pixels(random, list.source_length as usize),
        output: random.bytes(list.output_length as usize),
        scratch: random.bytes(scratch_length),
        answers: old_answers(random),
        tickets: list.tickets,
    }
}

/// Mostly a few jobs, as every job is walked slowly; now and then about as many as may be.
fn how_many(random: &mut Random) -> usize {
    let any = random.between(10, 254) as usize;
    match random.below(48) {
        0..=1 => 0,
        2..=4 => 1,
        5..=9 => random.pick(&[255, 256, 256, 257, 257]),
        10 => any,
        _ => random.between(2, 9) as usize,
    }
}

/// The count of the call and the numbers of its jobs, mostly those that belong to it.
fn count_and_numbers(random: &mut Random, list: &[Listed]) -> (u64, Vec<u64>) {
    let made = list.len() as u64;
    let mut numbers: Vec<u64> = list.iter().flat_map(Listed::numbers).collect();
    match random.below(32) {
        0..=1 => numbers.truncate(numbers.len().saturating_sub(1)),
        2 => numbers.truncate(random.index(numbers.len() + 1)),
        3..=5 => {
            let more = random.between(1, 9);
            numbers.extend((0..more).map(|_| random.number()));
        }
        // The last job stands behind the list.
        6..=8 => return (made.saturating_sub(1), numbers),
        9..=10 => return (random.pick(&LARGE), numbers),
        11 => return (made + random.pick(&LARGE[1..9]), numbers),
        _ => {}
    }
    (made, numbers)
}

/// Room for every answer, for more or for too few, mostly with old values.
fn old_answers(random: &mut Random) -> Vec<u64> {
    let more = ANSWERS + random.between(2, 40) as usize;
    let length = match random.below(32) {
        0 => 0,
        1 => ANSWERS - 1,
        2 => random.index(ANSWERS),
        3..=6 => ANSWERS + 1,
        7..=8 => more,
        _ => ANSWERS,
    };
    let zero = random.one_in(8);
    (0..length).map(|_| if zero { 0 } else { random.number() }).collect()
}
