//! Lists of jobs through the wrapper: that they are answered as single calls are, and when a list is refused.

use sotrugla::{filter, filter_tray, HiddenBox, Line, Page, Refusal, Spot, Ticket};
use sotrugla::{Refused, TicketBytes, TrayJob};

/// Bytes that nobody has written; the largest page needs a longer scratch.
const OUTPUT: [u8; 60] = [7; 60];
const SCRATCH: [u8; 30] = [8; 30];

/// A sequence of numbers without order, the same in every run.
struct Numbers(u64);

impl Numbers {
    /// A number below the limit.
    fn below(&mut self, limit: usize) -> usize {
        self.0 = self.0.wrapping_mul(6364136223846793005).wrapping_add(1442695040888963407);
        (self.0 >> 33) as usize % limit
    }
}

fn opening() -> Ticket {
    Ticket::opening(Line::connected(1, 0), 2)
}

/// Tickets for small pages, some of which are refused: for a cut, a vector, a length and a box past the edge.
fn tickets() -> Vec<TicketBytes> {
    let past = HiddenBox { left: 2, top: 0, width: 9, height: 1 };
    let cut = opening().encode().as_bytes()[..20].to_vec();
    vec![
        opening().encode(),
        Ticket::closing(Line::connected(2, -1), 3).encode(),
        Ticket::erosion(Line::periodic(0, 1), 2)
            .hide(HiddenBox { left: 0, top: 0, width: 1, height: 1 })
            .encode(),
        opening().hide(past).encode(),
        Ticket::opening(Line::connected(2, 2), 2).encode(),
        Ticket::opening(Line::connected(1, 0), 0).encode(),
        cut.into(),
        vec![].into(),
    ]
}

/// The answers of single calls in list order, with the output and scratch that they leave.
fn single(jobs: &[TrayJob], source: &[u8]) -> (Vec<Result<u64, Refused>>, Vec<u8>, Vec<u8>) {
    let (mut output, mut scratch) = (OUTPUT.to_vec(), SCRATCH.to_vec());
    let answer =
        |job: &TrayJob| filter(job.ticket, job.page, source, job.spot, &mut output, &mut scratch);
    (jobs.iter().map(answer).collect(), output, scratch)
}

/// A job on a small page, which mostly fits, over places that other jobs write, too.
fn any_job<'a>(numbers: &mut Numbers, tickets: &'a [TicketBytes]) -> TrayJob<'a> {
    let width = numbers.below(5);
    let stride = width + numbers.below(3);
    TrayJob {
        ticket: &tickets[numbers.below(tickets.len())],
        page: Page { offset: numbers.below(50), width, height: numbers.below(4), stride },
        spot: Spot { offset: numbers.below(50), stride: stride + numbers.below(2) },
    }
}

#[test]
fn a_list_is_answered_as_single_calls_in_its_order() {
    let mut numbers = Numbers(3);
    let (tickets, mut refusals) = (tickets(), Vec::new());
    for length in (0..256).step_by(5).chain([256]) {
        let source: Vec<u8> = (0..60).map(|_| numbers.below(256) as u8).collect();
        let jobs: Vec<_> = (0..length).map(|_| any_job(&mut numbers, &tickets)).collect();
        let (mut output, mut scratch) = (OUTPUT, SCRATCH);
        let answers = filter_tray(&jobs, &source, &mut output, &mut scratch).unwrap();
        for refused in answers.iter().filter_map(|answer| answer.err()) {
            refusals.push(refused.refusal.number());
        }
        assert_eq!((answers, output.to_vec(), scratch.to_vec()), single(&jobs, &source));
    }
    refusals.sort();
    refusals.dedup();
    assert_eq!(refusals, [1, 6, 7, 10, 11, 12, 13, 14]);
}

#[test]
fn a_refused_job_says_what_it_says_alone() {
    let (good, bad) = (opening().encode(), Ticket::opening(Line::connected(0, 0), 2).encode());
    let page = Page::alone(3, 1);
    let narrow = Page { stride: 2, ..page };
    let jobs = [(&bad, page), (&good, narrow), (&good, page)].map(|(ticket, page)| TrayJob {
        ticket,
        page,
        spot: page.spot(),
    });
    let answers = filter_tray(&jobs, &[9, 1, 5], &mut [0; 3], &mut [0; 15]).unwrap();
    let sentences = answers.iter().map(|answer| answer.err().map(|refused| refused.sentence));
    assert_eq!(
        sentences.collect::<Vec<_>>(),
        [
            Some("the vector is 0, 0 and has no direction"),
            Some("the source stride is not from the width to 16384"),
            None
        ]
    );
}

#[test]
fn a_list_of_more_than_256_jobs_is_refused_before_any() {
    let ticket = opening().encode();
    let page = Page::alone(3, 1);
    let jobs = vec![TrayJob { ticket: &ticket, page, spot: page.spot() }; 257];
    let (mut output, mut scratch) = ([7; 3], [8; 15]);
    let refused = filter_tray(&jobs, &[9, 1, 5], &mut output, &mut scratch).unwrap_err();
    assert_eq!((refused.refusal, refused.place), (Refusal::TooManyJobs, 0));
    assert_eq!(refused.to_string(), "refused 18 at 0: the list has more than 256 jobs");
    assert_eq!((output, scratch), ([7; 3], [8; 15]));
    let answers = filter_tray(&jobs[1..], &[9, 1, 5], &mut output, &mut scratch);
    assert_eq!(answers, Ok(vec![Ok(6); 256]));
}
