//! Reasons of pixels through the wrapper: that they name the grey that the job writes, each refusal, and the
//! sentences.

use sotrugla::{
    filter, filter_pgm, read_pgm, why, why_pgm, HiddenBox, Line, Operation, Page, Pixel, Reason,
    Refusal, Refused, Ticket, TicketBytes,
};

const PAGE: Page = Page { offset: 3, width: 7, height: 5, stride: 9 };
const BOXES: [HiddenBox; 2] = [
    HiddenBox { left: 1, top: 1, width: 2, height: 1 },
    HiddenBox { left: 2, top: 1, width: 3, height: 3 },
];

/// A tray of few greys, so that several steps of a window have the result.
fn tray() -> Vec<u8> {
    (0..PAGE.offset + PAGE.height * PAGE.stride).map(|at| (at * at * 31 % 257 % 5) as u8).collect()
}

fn pixels() -> impl Iterator<Item = Pixel> {
    (0..PAGE.width * PAGE.height).map(|at| Pixel { column: at % PAGE.width, row: at / PAGE.width })
}

fn at(column: usize) -> Pixel {
    Pixel { column, row: 0 }
}

/// Every operation along lines of every kind, two boxes hidden.
fn tickets() -> Vec<TicketBytes> {
    let operations = [Operation::Erode, Operation::Dilate, Operation::Open, Operation::Close];
    let mut tickets = Vec::new();
    for (dx, dy) in [(1_i16, 0_i16), (0, 1), (1, 1), (2, -1), (-1, 2), (5, 3), (3, -2)] {
        let last = (dx.abs().max(dy.abs()) - 1) as u16;
        let phased = Line::Connected { dx, dy, phase: last };
        for line in [Line::connected(dx, dy), phased, Line::periodic(dx, dy)] {
            for operation in operations {
                let ticket = Ticket::new(operation, line, 3).with_origin(1);
                tickets.push(ticket.hide(BOXES[0]).hide(BOXES[1]).encode());
            }
        }
    }
    tickets
}

/// The job's page, row by row.
fn filtered(ticket: &TicketBytes, tray: &[u8]) -> Vec<u8> {
    let spot = Page::alone(PAGE.width, PAGE.height).spot();
    let (mut output, mut scratch) = (vec![0; 35], vec![0; PAGE.scratch_needed()]);
    filter(ticket, PAGE, tray, spot, &mut output, &mut scratch).unwrap();
    output
}

/// A file of the tray's page.
fn file_of(tray: &[u8]) -> Vec<u8> {
    let rows = (0..PAGE.height).map(|row| &tray[PAGE.offset + row * PAGE.stride..][..PAGE.width]);
    [b"P5 7 5 4\n", &rows.collect::<Vec<_>>().concat()[..]].concat()
}

#[test]
fn every_pixel_comes_out_as_its_reason_says() {
    let tray = tray();
    for ticket in tickets() {
        let (output, order) = (filtered(&ticket, &tray), ticket.read().unwrap());
        let phase_ordered = match order.line() {
            Line::Connected { phase, .. } => phase,
            Line::Periodic { .. } => 0,
        };
        let two = matches!(order.operation(), Operation::Open | Operation::Close);
        for (pixel, &grey) in pixels().zip(&output) {
            let reason = PAGE.why(&ticket, &tray, pixel).unwrap();
            assert_eq!(reason.grey(), grey);
            let source = |at: Pixel| tray[PAGE.offset + at.row * PAGE.stride + at.column];
            let unhidden = |at: Pixel| !ticket.hides(at.column, at.row);
            match reason {
                Reason::Hidden { pixel: asked, number, hidden, .. } => {
                    assert_eq!((asked, hidden), (pixel, BOXES[number]));
                    assert_eq!(number, usize::from(pixel.row > 1 || pixel.column > 2));
                }
                Reason::OnePass { pixel: asked, phase, from, .. } => {
                    assert!(!two && unhidden(from) && source(from) == grey);
                    assert_eq!((asked, phase), (pixel, phase_ordered));
                }
                Reason::TwoPasses { pixel: asked, phase, through, from, .. } => {
                    assert!(two && unhidden(through) && unhidden(from) && source(from) == grey);
                    assert_eq!((asked, phase), (pixel, phase_ordered));
                }
                _ => unreachable!(),
            }
        }
    }
}

#[test]
fn a_file_has_the_reasons_of_the_job_on_its_pixels() {
    let (tray, file) = (tray(), file_of(&tray()));
    for ticket in tickets() {
        let written = filter_pgm(&ticket, &file).unwrap().file;
        let start = read_pgm(&written).unwrap().start;
        for (pixel, &grey) in pixels().zip(&written[start..]) {
            let reason = why_pgm(&ticket, &file, pixel).unwrap();
            assert_eq!(reason.grey(), grey);
            let mut wanted = PAGE.why(&ticket, &tray, pixel).unwrap();
            if let Reason::Hidden { white, .. } = &mut wanted {
                *white = 4;
            }
            assert_eq!(reason, wanted);
        }
    }
}

#[test]
fn a_reason_reads_as_a_sentence() {
    let of = |ticket: &Ticket, column| {
        let (page, row) = (Page::alone(4, 1), [97, 98, 99, 98]);
        page.why(&ticket.encode(), &row, at(column)).unwrap().to_string()
    };
    let erosion = Ticket::erosion(Line::connected(1, 0), 2);
    let opening = Ticket::opening(Line::connected(1, 0), 2);
    for (found, wanted) in [
        (of(&erosion, 2), "column 2, row 0 is 98 because column 1, row 0 is 98"),
        (of(&erosion, 3), "column 3, row 0 is 98 because it is 98 itself"),
        (
            of(&opening, 2),
            "column 2, row 0 is 98 because column 1, row 0 is 98, by way of column 2, row 0",
        ),
        (of(&opening, 3), "column 3, row 0 is 98 because it is 98 itself"),
        (
            of(&opening.clone().with_origin(0), 3),
            "column 3, row 0 is 98 because it is 98 itself, by way of column 2, row 0",
        ),
        (
            of(&opening.clone().with_origin(0), 2),
            "column 2, row 0 is 98 because column 1, row 0 is 98",
        ),
        (
            of(&opening.hide(HiddenBox { left: 2, top: 0, width: 2, height: 1 }), 3),
            "column 3, row 0 is white because it is hidden by box 0: \
             left 2, top 0, width 2, height 1",
        ),
    ] {
        assert_eq!(found, wanted);
    }
}

fn numbers(answer: Result<Reason, Refused>) -> (Refusal, u64) {
    let refused = answer.unwrap_err();
    (refused.refusal, refused.place)
}

#[test]
fn each_refusal_has_its_place_and_order() {
    let good = Ticket::closing(Line::connected(1, 0), 3);
    let past = good.clone().hide(BOXES[0]).hide(HiddenBox { left: 6, width: 2, ..BOXES[0] });
    let (tray, enough) = (tray(), PAGE.scratch_needed());
    let of = |ticket: &TicketBytes, page: Page, output, scratch| {
        numbers(why(ticket, page, &tray, PAGE.spot(), output, scratch, at(7)))
    };
    let (good, past) = (good.encode(), past.encode());
    assert_eq!(of(&vec![].into(), Page::alone(0, 0), 0, 0), (Refusal::TicketEnds, 0));
    assert_eq!(of(&past, Page { stride: 6, ..PAGE }, 0, 0), (Refusal::BadSides, 0));
    assert_eq!(of(&past, Page { offset: 6, ..PAGE }, 0, 0), (Refusal::SourceTooShort, 0));
    assert_eq!(of(&past, PAGE, 3 + 4 * 9 + 6, 0), (Refusal::OutputTooShort, 0));
    assert_eq!(of(&past, PAGE, 3 + 4 * 9 + 7, enough - 1), (Refusal::ScratchTooShort, 0));
    assert_eq!(of(&past, PAGE, 3 + 4 * 9 + 7, enough), (Refusal::BadBox, 1));
    assert_eq!(of(&good, PAGE, 3 + 4 * 9 + 7, enough), (Refusal::PixelOffPage, 0));
    for pixel in [Pixel { column: 0, row: 5 }, Pixel { column: usize::MAX, row: usize::MAX }] {
        assert_eq!(numbers(PAGE.why(&good, &tray, pixel)), (Refusal::PixelOffPage, 0));
    }
}

#[test]
fn each_refusal_of_a_file_has_its_place_and_order() {
    let good = Ticket::closing(Line::connected(1, 0), 3);
    let past = good.clone().hide(HiddenBox { left: 3, top: 0, width: 1, height: 1 }).encode();
    let of = |ticket: &TicketBytes, file: &[u8]| numbers(why_pgm(ticket, file, at(3)));
    assert_eq!(of(&vec![].into(), b"P6"), (Refusal::TicketEnds, 0));
    assert_eq!(of(&past, b"P6 3 1 9\n\x01\x02\x03"), (Refusal::BadHeader, 1));
    assert_eq!(of(&past, b"P5 3 1 256\n"), (Refusal::BadMaximum, 7));
    assert_eq!(of(&past, b"P5 3 1 9\n\x01\x02"), (Refusal::BadPixel, 11));
    assert_eq!(of(&past, b"P5 0 1 9\n"), (Refusal::BadSides, 0));
    assert_eq!(of(&past, b"P5 3 1 9\n\x01\x02\x03"), (Refusal::BadBox, 0));
    assert_eq!(of(&good.encode(), b"P5 3 1 9\n\x01\x02\x03"), (Refusal::PixelOffPage, 0));
}

#[test]
fn a_refused_question_says_what_a_refused_job_says() {
    let vector = Ticket::closing(Line::connected(2, 2), 3).encode();
    let good = Ticket::closing(Line::connected(1, 0), 3).encode();
    let page = Page::alone(3, 1);
    let sentence = "dx and dy of a connected line have a common divisor above 1";
    let row = [9, 1, 5];
    assert_eq!(page.why(&vector, &row, at(0)).unwrap_err().sentence, sentence);
    assert_eq!(why_pgm(&vector, b"P5 0 1 9\n", at(0)).unwrap_err().sentence, sentence);
    let narrow = Page { stride: 2, ..page }.why(&good, &row, at(0)).unwrap_err();
    assert_eq!(narrow.sentence, "the source stride is not from the width to 16384");
    let side = why_pgm(&good, b"P5 0 1 9\n", at(0)).unwrap_err();
    assert_eq!(side.sentence, "a side of the file's page is not 1 to 8192");
    let off = page.why(&good, &row, at(3)).unwrap_err();
    assert_eq!(off.to_string(), "refused 19 at 0: the pixel is off the page");
}
