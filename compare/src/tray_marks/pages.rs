//! How the output pages of a list lie over one another, and whose bytes win there.

use super::{pairs, Answered, Mark};
use crate::placement::{scratch_needed, Placement};
use crate::tray::{self, Call, Outcome, ANSWERS};

/// What lies where in the output tray, whose bytes win there, and what scratch jobs need.
pub fn marks(call: &Call, outcome: &Outcome, all: &[Answered]) -> [Mark; 7] {
    let backwards = tray::run(&reversed(call, all)).output;
    let differs = |byte: usize| outcome.output[byte] != backwards[byte];
    let done = || pairs(all).filter(|(one, two)| one.done() && two.done());
    let page = |a: &Answered| a.job.output_page();
    let same = || pairs(all).filter(|(one, two)| page(one) == page(two));
    let needed = |a: &Answered| scratch_needed(a.job.width, a.job.height);
    [
        ("output pages overlap", done().any(|(one, two)| shared(page(one), page(two)))),
        ("output page in another's padding", done().any(|(one, two)| meshed(page(one), page(two)))),
        ("the later job's bytes win", (0..backwards.len()).any(differs)),
        (
            "the later job's bytes win on the very same page",
            same().any(|(one, two)| {
                one.done() && two.done() && bytes(page(one)).into_iter().any(differs)
            }),
        ),
        ("refused where a job finished before", same().any(|(one, two)| one.done() && !two.done())),
        ("a later job needs less scratch", done().any(|(one, two)| needed(one) > needed(two))),
        ("all jobs refused", all.len() > 1 && !all.iter().any(Answered::done)),
    ]
}

/// The same jobs in the opposite order: the first job's bytes win then.
fn reversed(call: &Call, all: &[Answered]) -> Call {
    let jobs: Vec<u64> = all.iter().rev().flat_map(|a| a.job.numbers()).collect();
    let answers = vec![0; ANSWERS];
    Call { count: all.len() as u64, jobs, answers, ..call.clone() }
}

/// The bytes of a finished job's page.
fn bytes(page: Placement) -> Vec<usize> {
    page.sides().pixels().into_iter().map(|pixel| page.byte(pixel)).collect()
}

fn shared(one: Placement, two: Placement) -> bool {
    let two = bytes(two);
    bytes(one).iter().any(|byte| two.contains(byte))
}

/// Whether two pages have no byte in common and yet neither ends before the other begins.
fn meshed(one: Placement, two: Placement) -> bool {
    let apart = one.end() <= u128::from(two.offset) || two.end() <= u128::from(one.offset);
    !apart && !shared(one, two)
}
