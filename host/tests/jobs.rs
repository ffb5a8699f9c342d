//! The library through the wrapper: the worked cases of an opening, and each refusal of a job.

use sotrugla::{filter, HiddenBox, Line, Operation, Page, Refusal, Spot, Ticket, TicketBytes};

/// The row 9 1 5, opened with a segment of two steps.
fn ticket() -> Ticket {
    Ticket::new(Operation::Open, Line::connected(1, 0), 2)
}

const ROW: [u8; 3] = [9, 1, 5];

fn hidden(left: u16, width: u16) -> HiddenBox {
    HiddenBox { left, top: 0, width, height: 1 }
}

#[test]
fn a_page_is_written_and_nothing_beside_it() {
    let page = Page { offset: 2, width: 3, height: 1, stride: 5 };
    let source = [200, 200, 9, 1, 5, 200];
    let mut output = [7; 9];
    let mut scratch = [8; 20];
    let spot = Spot { offset: 4, stride: 3 };
    let work = filter(&ticket().encode(), page, &source, spot, &mut output, &mut scratch);
    assert_eq!(work, Ok(6));
    assert_eq!(output, [7, 7, 7, 7, 1, 1, 5, 7, 7]);
    assert_eq!(scratch[..15], [0; 15]);
    assert_eq!(scratch[15..], [8; 5]);
}

#[test]
fn a_hidden_box_is_white_and_absent() {
    let page = Page::alone(3, 1);
    let ticket = Ticket::new(Operation::Open, Line::connected(1, 0), 3).hide(hidden(1, 1)).encode();
    let mut output = [0; 3];
    assert!(filter(&ticket, page, &ROW, page.spot(), &mut output, &mut [0; 15]).is_ok());
    assert_eq!(output, [5, 255, 5]);
}

#[test]
fn a_finished_page_is_white_where_its_ticket_hides() {
    let page = Page::alone(7, 5);
    let ticket = ticket()
        .hide(HiddenBox { left: 2, top: 1, width: 3, height: 1 })
        .hide(HiddenBox { left: 6, top: 0, width: 1, height: 5 })
        .encode();
    let mut output = [0; 35];
    let mut scratch = vec![0; page.scratch_needed()];
    assert!(filter(&ticket, page, &[9; 35], page.spot(), &mut output, &mut scratch).is_ok());
    for (at, &pixel) in output.iter().enumerate() {
        assert_eq!(ticket.hides(at % 7, at / 7), pixel == 255);
    }
}

/// Case 12 of the law, and its flip: a tie goes away from where a line starts, upwards and downwards alike.
#[test]
fn a_flipped_page_comes_out_flipped() {
    let page = Page::alone(3, 3);
    let dilated = |dy, pixels: [u8; 9]| {
        let ticket = Ticket::new(Operation::Dilate, Line::connected(2, dy), 2).with_origin(1);
        let (mut output, mut scratch) = ([0; 9], vec![0; page.scratch_needed()]);
        let ticket = ticket.encode();
        let work = filter(&ticket, page, &pixels, page.spot(), &mut output, &mut scratch);
        (work, output)
    };
    let rising = dilated(1, [1, 2, 3, 4, 5, 6, 7, 8, 9]);
    assert_eq!(rising, (Ok(8), [5, 3, 3, 8, 6, 6, 7, 9, 9]));
    let falling = dilated(-1, [7, 8, 9, 4, 5, 6, 1, 2, 3]);
    assert_eq!(falling, (Ok(8), [7, 9, 9, 8, 6, 6, 5, 3, 3]));
}

/// The refusal of a job on the row, which must leave output and scratch as they were.
fn refused(ticket: &TicketBytes, page: Page, lengths: [usize; 3]) -> (Refusal, u64) {
    let mut output = vec![7; lengths[1]];
    let mut scratch = vec![8; lengths[2]];
    let source = &ROW[..lengths[0]];
    let refused = filter(ticket, page, source, page.spot(), &mut output, &mut scratch).unwrap_err();
    assert!(output.iter().all(|&b| b == 7) && scratch.iter().all(|&b| b == 8));
    (refused.refusal, refused.place)
}

#[test]
fn each_ticket_refusal_has_its_place() {
    let with = |at: usize, byte: u8| {
        let mut bytes = ticket().encode().as_bytes().to_vec();
        bytes[at] = byte;
        TicketBytes::from(bytes)
    };
    let of = |ticket: &TicketBytes| refused(ticket, Page::alone(3, 1), [3, 3, 15]);
    let many = (0..65).fold(ticket(), |ticket, _| ticket.hide(hidden(0, 1)));
    let line = |line| Ticket::new(Operation::Open, line, 2).encode();
    assert_eq!(of(&vec![].into()), (Refusal::TicketEnds, 0));
    assert_eq!(of(&with(4, 9)), (Refusal::WrongTag, 4));
    assert_eq!(of(&with(6, 2)), (Refusal::WrongLength, 4));
    assert_eq!(of(&with(3, 5)), (Refusal::Unknown, 0));
    assert_eq!(of(&many.encode()), (Refusal::TooManyBoxes, 30 + 64 * 11));
    assert_eq!(of(&line(Line::connected(2, 2))), (Refusal::BadVector, 8));
    assert_eq!(of(&line(Line::Connected { dx: 2, dy: -1, phase: 2 })), (Refusal::BadPhase, 25));
    assert_eq!(of(&with(19, 0)), (Refusal::BadLength, 15));
    assert_eq!(of(&ticket().with_origin(2).encode()), (Refusal::BadOrigin, 20));
}

#[test]
fn each_page_refusal_has_its_place() {
    let good = ticket().encode();
    let page = Page::alone(3, 1);
    assert_eq!(refused(&good, Page { stride: 2, ..page }, [3, 3, 15]), (Refusal::BadSides, 0));
    assert_eq!(refused(&good, page, [2, 3, 15]), (Refusal::SourceTooShort, 0));
    assert_eq!(refused(&good, page, [3, 2, 15]), (Refusal::OutputTooShort, 0));
    assert_eq!(refused(&good, page, [3, 3, 14]), (Refusal::ScratchTooShort, 0));
    let past = ticket().hide(hidden(0, 3)).hide(hidden(65535, 2)).encode();
    assert_eq!(refused(&past, page, [3, 3, 15]), (Refusal::BadBox, 1));
}

/// That this compiles is the test: the last arm can be reached, as more refusals may come.
#[deny(unreachable_patterns)]
#[allow(clippy::match_like_matches_macro)]
fn is_of_today(refusal: Refusal) -> bool {
    use Refusal::*;
    match refusal {
        TicketEnds | WrongTag | WrongLength | Unknown | TooManyBoxes => true,
        BadVector | BadLength | BadOrigin | BadPhase | BadSides => true,
        SourceTooShort | OutputTooShort | ScratchTooShort | BadBox => true,
        BadHeader | BadMaximum | BadPixel | TooManyJobs | PixelOffPage => true,
        NumbersTooFew => true,
        _ => false,
    }
}

#[test]
fn a_match_leaves_room_for_later_refusals() {
    assert!(is_of_today(Refusal::NumbersTooFew));
}
