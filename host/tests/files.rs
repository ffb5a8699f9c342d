//! P5 files through the wrapper: what is written, and each refusal of a file.

use sotrugla::{
    filter, filter_pgm, read_pgm, HiddenBox, Line, Operation, Page, Pgm, Refusal, Ticket,
    TicketBytes, Written,
};

const SIDES: (usize, usize) = (13, 7);

/// A file as the library writes it.
fn file_of((width, height): (usize, usize), maximum: u8, pixels: &[u8]) -> Vec<u8> {
    [format!("P5\n{width}\n{height}\n{maximum}\n").as_bytes(), pixels].concat()
}

/// Pixels of every grey up to the maximum, in no order.
fn pixels_of((width, height): (usize, usize), maximum: u8) -> Vec<u8> {
    let greys = usize::from(maximum) + 1;
    (0..width * height).map(|at| (at * at * 31 % 257 % greys) as u8).collect()
}

fn ticket() -> Ticket {
    Ticket::new(Operation::Close, Line::connected(3, -1), 4).with_origin(1)
}

const HIDDEN: HiddenBox = HiddenBox { left: 5, top: 2, width: 4, height: 3 };

/// The pixels and the work that a job on a tray gives.
fn filtered(ticket: &TicketBytes, pixels: &[u8]) -> (Vec<u8>, u64) {
    let page = Page::alone(SIDES.0, SIDES.1);
    let mut output = vec![0; pixels.len()];
    let mut scratch = vec![0; page.scratch_needed()];
    let work = filter(ticket, page, pixels, page.spot(), &mut output, &mut scratch).unwrap();
    (output, work)
}

#[test]
fn a_file_has_the_page_of_the_job_on_its_pixels() {
    let (ticket, pixels) = (ticket().hide(HIDDEN).encode(), pixels_of(SIDES, 255));
    let (page, work) = filtered(&ticket, &pixels);
    let file = file_of(SIDES, 255, &page);
    assert_eq!(filter_pgm(&ticket, &file_of(SIDES, 255, &pixels)), Ok(Written { file, work }));
}

#[test]
fn a_hidden_pixel_comes_out_as_the_maximum() {
    let (ticket, pixels) = (ticket().hide(HIDDEN).encode(), pixels_of(SIDES, 100));
    let (mut page, work) = filtered(&ticket, &pixels);
    for (at, pixel) in page.iter_mut().enumerate() {
        let hidden = ticket.hides(at % SIDES.0, at / SIDES.0);
        assert_eq!(hidden, *pixel == 255);
        *pixel = if hidden { 100 } else { *pixel };
    }
    let file = file_of(SIDES, 100, &page);
    assert_eq!(filter_pgm(&ticket, &file_of(SIDES, 100, &pixels)), Ok(Written { file, work }));
}

#[test]
fn what_is_written_reads_back() {
    let unchanged = Ticket::new(Operation::Open, Line::connected(1, 0), 1).encode();
    for (sides, maximum) in [((1, 1), 1), ((13, 7), 255), ((8192, 1), 9), ((1, 8192), 100)] {
        let (width, height) = sides;
        let file = file_of(sides, maximum, &pixels_of(sides, maximum));
        let start = file.len() - width * height;
        assert_eq!(read_pgm(&file), Ok(Pgm { width, height, maximum, start }));
        assert_eq!(filter_pgm(&unchanged, &file).unwrap().file, file);
    }
}

#[test]
fn comments_count_as_nothing_and_a_second_image_is_not_looked_at() {
    let unchanged = Ticket::new(Operation::Open, Line::connected(1, 0), 1).encode();
    for file in [
        &b"P5\n3\n1\n9\n\x01\x02\x03"[..],
        b"P5#\n#x\r 0#y\n3\t1\x0b\x0c9#z\r\n\x01\x02\x03",
        b"P5\r3\r1\r9\r\x01\x02\x03P5 not an image",
    ] {
        assert_eq!(filter_pgm(&unchanged, file).unwrap().file, b"P5\n3\n1\n9\n\x01\x02\x03");
    }
}

/// The refusal of a file, alone and in a job.
fn refused(file: &[u8]) -> (Refusal, u64) {
    let alone = read_pgm(file).unwrap_err();
    assert_eq!(filter_pgm(&ticket().encode(), file), Err(alone));
    (alone.refusal, alone.place)
}

#[test]
fn each_file_refusal_has_its_place() {
    assert_eq!(refused(b""), (Refusal::BadHeader, 0));
    assert_eq!(refused(b"P6 3 1 9\n\x01\x02\x03"), (Refusal::BadHeader, 1));
    assert_eq!(refused(b"P5#x\n3 1 9\n\x01\x02\x03"), (Refusal::BadHeader, 5));
    assert_eq!(refused(b"P5 3 1 9#cut"), (Refusal::BadHeader, 12));
    assert_eq!(refused(b"P5 3 1 00\n\0\0\0"), (Refusal::BadHeader, 7));
    assert_eq!(refused(b"P5 3 1 256x"), (Refusal::BadHeader, 10));
    assert_eq!(refused(b"P5 3 1 256\n"), (Refusal::BadMaximum, 7));
    assert_eq!(refused(b"P5 3 1 9\n\x01\x0a\x0b"), (Refusal::BadPixel, 10));
    assert_eq!(refused(b"P5 3 1 9\n\x01\x02"), (Refusal::BadPixel, 11));
    assert_eq!(refused(b"P5 8193 1 9\n\x01"), (Refusal::BadPixel, 13));
    assert_eq!(refused(b"P5 0 1 9\n"), (Refusal::BadSides, 0));
    let long = file_of((8193, 1), 9, &[0; 8193]);
    assert_eq!(refused(&long), (Refusal::BadSides, 0));
}

#[test]
fn a_file_is_refused_after_its_ticket_and_before_its_boxes() {
    let good = file_of(SIDES, 9, &pixels_of(SIDES, 9));
    let past = ticket().hide(HIDDEN).hide(HiddenBox { left: 12, width: 2, ..HIDDEN }).encode();
    let of = |ticket: &TicketBytes, file: &[u8]| {
        let refused = filter_pgm(ticket, file).unwrap_err();
        (refused.refusal, refused.place)
    };
    assert_eq!(of(&vec![].into(), b"P5"), (Refusal::TicketEnds, 0));
    assert_eq!(of(&vec![].into(), &good), (Refusal::TicketEnds, 0));
    assert_eq!(of(&past, b"P5"), (Refusal::BadHeader, 2));
    assert_eq!(of(&past, &good), (Refusal::BadBox, 1));
}
