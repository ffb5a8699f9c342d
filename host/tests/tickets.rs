//! Tickets through the wrapper: built, shown by their parts, and read back.

use sotrugla::{HiddenBox, Line, Operation, Ticket};

const LINE: Line = Line::Connected { dx: -2, dy: 5, phase: 4 };

#[test]
fn a_ticket_reads_back_as_it_was_built() {
    let full = (0..64).fold(Ticket::new(Operation::Open, Line::connected(1, 0), 2), |ticket, k| {
        ticket.hide(HiddenBox { left: k, top: 1, width: 2, height: 65535 })
    });
    for ticket in [
        full,
        Ticket::new(Operation::Erode, Line::periodic(255, -255), 8192).with_origin(8191),
        Ticket::new(Operation::Dilate, LINE, 1),
        Ticket::new(Operation::Close, Line::connected(0, 1), 300).with_origin(299),
    ] {
        assert_eq!(ticket.encode().read(), Ok(ticket));
    }
}

#[test]
fn a_ticket_shows_its_parts() {
    let hidden = HiddenBox { left: 6, top: 3, width: 2, height: 1 };
    let other = HiddenBox { left: 7, ..hidden };
    let ticket = Ticket::new(Operation::Close, LINE, 7).with_origin(3).hide(hidden).hide(other);
    let shown = ticket.encode().read().unwrap();
    assert_eq!((shown.operation(), shown.line()), (Operation::Close, LINE));
    assert_eq!((shown.length(), shown.origin()), (7, 3));
    assert_eq!(shown.boxes(), [hidden, other]);
}

#[test]
fn a_filter_by_its_name_has_the_origin_in_the_middle() {
    let operations = [Operation::Erode, Operation::Dilate, Operation::Open, Operation::Close];
    let named = [Ticket::erosion, Ticket::dilation, Ticket::opening, Ticket::closing];
    for (length, middle) in [(1, 0), (2, 1), (3, 1), (4, 2), (5, 2), (8192, 4096)] {
        let built = operations.map(|of| Ticket::new(of, LINE, length).with_origin(middle));
        assert_eq!(named.map(|ticket| ticket(LINE, length)), built);
    }
    assert_eq!(Ticket::new(Operation::Erode, LINE, 5).origin(), 0);
}
