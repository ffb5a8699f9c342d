//! What a refused job says: the sentence of its refusal, or which rule of a vector or which number of a page
//! is at fault.

use sotrugla::{
    filter, filter_pgm, read_pgm, Line, Operation, Page, Refusal, Refused, Spot, Ticket,
    TicketBytes,
};

const NEITHER: &str =
    "the vector is neither shallow (dx at least the size of dy) nor steep (dy above the size of dx)";

fn ticket(line: Line) -> TicketBytes {
    Ticket::new(Operation::Open, line, 2).encode()
}

/// A job on a page placed so, with no trays: the placement is judged before them.
fn placed(page: Page, stride: usize) -> Refused {
    let spot = Spot { offset: 0, stride };
    filter(&ticket(Line::connected(1, 0)), page, &[], spot, &mut [], &mut []).unwrap_err()
}

/// The sentence of a ticket that is refused for its vector: the same alone, in a job and for a file.
fn of_vector(line: Line) -> &'static str {
    let (bytes, page) = (ticket(line), Page::alone(0, 0));
    let refused = bytes.read().unwrap_err();
    assert_eq!((refused.refusal, refused.place), (Refusal::BadVector, 8));
    assert_eq!(filter(&bytes, page, &[], page.spot(), &mut [], &mut []), Err(refused));
    assert_eq!(filter_pgm(&bytes, b"P5 0 1 9\n"), Err(refused));
    refused.sentence
}

#[test]
fn a_vector_says_which_rule_it_breaks() {
    for line in [Line::connected, Line::periodic] {
        assert_eq!(of_vector(line(0, 0)), "the vector is 0, 0 and has no direction");
        for (dx, dy) in [(256, 0), (0, 256), (-256, 1), (1, -256), (i16::MIN, i16::MIN)] {
            let sentence = "a component of the vector is beyond -255 to 255";
            assert_eq!(of_vector(line(dx, dy)), sentence);
        }
        for (dx, dy) in [(-1, 0), (0, -1), (-1, 1), (1, -2), (-2, 1), (-255, 255), (254, -255)] {
            assert_eq!(of_vector(line(dx, dy)), NEITHER);
        }
    }
    for (dx, dy) in [(2, 2), (2, 0), (0, 2), (255, -255), (-3, 6)] {
        let sentence = "dx and dy of a connected line have a common divisor above 1";
        assert_eq!(of_vector(Line::connected(dx, dy)), sentence);
    }
}

#[test]
fn a_placement_says_which_number_is_at_fault() {
    let of = |width, height, stride, output_stride| {
        let refused = placed(Page { offset: 0, width, height, stride }, output_stride);
        assert_eq!((refused.refusal, refused.place), (Refusal::BadSides, 0));
        refused.sentence
    };
    for (width, height, stride) in [(0, 0, 0), (8193, 1, 8193), (usize::MAX, 1, 1)] {
        assert_eq!(of(width, height, stride, 1), "the width is not 1 to 8192");
    }
    for (width, height, stride) in [(1, 0, 0), (8192, 8193, 1), (3, usize::MAX, 3)] {
        assert_eq!(of(width, height, stride, 1), "the height is not 1 to 8192");
    }
    for (width, height, stride) in [(3, 1, 2), (8192, 8192, 16385), (1, 1, usize::MAX)] {
        let sentence = "the source stride is not from the width to 16384";
        assert_eq!(of(width, height, stride, 0), sentence);
    }
    for (width, stride, output_stride) in [(3, 3, 2), (8192, 16384, 16385), (1, 1, usize::MAX)] {
        let sentence = "the output stride is not from the width to 16384";
        assert_eq!(of(width, 8192, stride, output_stride), sentence);
    }
}

#[test]
fn a_file_says_that_a_side_of_its_page_is_at_fault() {
    let refused = read_pgm(b"P5 0 1 9\n").unwrap_err();
    assert_eq!(refused.refusal, Refusal::BadSides);
    assert_eq!(refused.sentence, "a side of the file's page is not 1 to 8192");
    assert_eq!(filter_pgm(&ticket(Line::connected(1, 0)), b"P5 0 1 9\n"), Err(refused));
}

#[test]
fn any_other_refusal_says_its_own_sentence() {
    let short = placed(Page::alone(3, 1), 3);
    let ends = TicketBytes::from(vec![]).read().unwrap_err();
    let header = read_pgm(b"P6").unwrap_err();
    for (refused, refusal) in [
        (short, Refusal::SourceTooShort),
        (ends, Refusal::TicketEnds),
        (header, Refusal::BadHeader),
    ] {
        assert_eq!((refused.refusal, refused.sentence), (refusal, refusal.sentence()));
    }
}

#[test]
fn a_refusal_reads_as_a_sentence_with_its_place() {
    let long = Ticket::new(Operation::Open, Line::periodic(2, 2), 8193).encode();
    for (refused, line) in [
        (
            long.read().unwrap_err(),
            "refused 7 at 15: the segment length is 0 or above 8192 \
             (the field at byte 15 of the ticket)",
        ),
        (
            ticket(Line::connected(2, 2)).read().unwrap_err(),
            "refused 6 at 8: dx and dy of a connected line have a common divisor above 1 \
             (the field at byte 8 of the ticket)",
        ),
        (placed(Page::alone(0, 1), 1), "refused 10 at 0: the width is not 1 to 8192"),
        (
            read_pgm(b"P5 3 1 9\n\x01\x02").unwrap_err(),
            "refused 17 at 11: a pixel of the file is above its maximum, or the file has too few \
             pixels (byte 11 of the file, counted from 0, or its end)",
        ),
    ] {
        assert_eq!(refused.to_string(), line);
    }
}
