//! Small P5 files by hand: what is read of them, each refusal with its place, and jobs on them.

use compare::file_job::{run, Answer, FileJob, Outcome};
use compare::file_list;
use compare::generate::Draft;
use compare::pgm::{shown, Header};
use compare::ticket::{HiddenBox, CONNECTED, DILATE, ERODE, OPEN};

const MIDDLE: HiddenBox = HiddenBox { left: 1, top: 0, width: 1, height: 1 };

/// Width, height, maximum and start of a file that is read.
fn read(file: &[u8]) -> (u64, u64, u8, u64) {
    let (refusal, Header { width, height, maximum, start }) = shown(file);
    assert_eq!((refusal.number, refusal.place), (0, 0), "{}", file.escape_ascii());
    (width, height, maximum, start)
}

/// Number and place of a file that is refused, shown with zeros.
fn refused(file: &[u8]) -> (u8, u64) {
    let (refusal, header) = shown(file);
    assert_eq!(header, Header::default(), "{}", file.escape_ascii());
    (refusal.number, refusal.place)
}

#[test]
fn white_space_comments_and_digits() {
    assert_eq!(read(b"P5\n3 1\n255\n\x09\x01\x05"), (3, 1, 255, 11));
    assert_eq!(read(b"P5 3 1 9 \x09\x01\x05"), (3, 1, 9, 9));
    // Each of the six is white space, also as the delimiter; behind it they are pixels.
    assert_eq!(read(b"P5\t\x0B3\x0C\r\n1 99\x0B   "), (3, 1, 99, 13));
    for delimiter in *b" \t\n\r\x0B\x0C" {
        assert_eq!(read(&[b"P5 2 1 99", &[delimiter][..], b"\n#"].concat()), (2, 1, 99, 10));
    }
    // A comment counts as nothing, and its CR or LF too: behind P5, in a number, before the
    // delimiter. A # inside it changes nothing.
    assert_eq!(read(b"P5#x\n 1 1 9 \0"), (1, 1, 9, 12));
    assert_eq!(read(b"P5 1#x\n2 1 9 \0\0\0\0\0\0\0\0\0\0\0\0"), (12, 1, 9, 13));
    assert_eq!(read(b"P5 1 1 9#\n\n\0"), (1, 1, 9, 11));
    assert_eq!(read(b"P5 1 1 9#\n0 \0"), (1, 1, 90, 12));
    assert_eq!(read(b"P5 1 #a#b\r#c\n1 #d\r\n9 \0"), (1, 1, 9, 21));
    // CR ends the comment, so that LF delimits.
    assert_eq!(read(b"P5 1 1 9#x\r\n\0"), (1, 1, 9, 12));
    // Behind the delimiter a # is a pixel.
    assert_eq!(read(b"P5 1 1 99 #"), (1, 1, 99, 10));
    let zeros = [b"P5 0003 01 ", &[b'0'; 50][..], b"7\n\0\0\0"].concat();
    assert_eq!(read(&zeros), (3, 1, 7, 63));
}

#[test]
fn headers_at_fault() {
    for (file, place) in [
        (&b""[..], 0),
        (b"P", 1),
        (b"P5", 2),
        (b"p5 1 1 9 \0", 0),
        (b"P6 1 1 9 \0", 1),
        (b" P5 1 1 9 \0", 0),
        (b"#x\nP5 1 1 9 \0", 0),
        (b"P#x\n5 1 1 9 \0", 1),
        (b"P53 1 9 \0", 2),
        (b"P5#x\n3 1 9 \0\0\0", 5),
        (b"P5#x", 4),
        (b"P5 #x\n", 6),
        (b"P5 x", 3),
        (b"P5 -1 1 9 \0", 3),
        (b"P5 1x1 9 \0", 4),
        (b"P5 1\x001 9 \0", 4),
        (b"P5 1\xA01 9 \0", 4),
        (b"P5 1", 4),
        (b"P5 1 ", 5),
        (b"P5 1 1", 6),
        (b"P5 1 1 ", 7),
        (b"P5 1 1 9", 8),
        (b"P5 1 1 9#x", 10),
        (b"P5 1 1 9#x\n", 11),
        (b"P5 1 1 9#x\nx", 11),
        (b"P5 1 1 9.5 \0", 8),
    ] {
        assert_eq!(refused(file), (15, place), "{}", file.escape_ascii());
    }
}

#[test]
fn maxima_at_fault() {
    for file in [
        &b"P5 1 1 0 \0"[..],
        b"P5 1 1 000 \0",
        b"P5 1 1 0#x\n0 \0",
        // The first byte at fault counts: the delimiter behind it is broken or missing.
        b"P5 1 1 0",
        b"P5 1 1 0x\0",
        b"P5 1 1 0#x\nx",
        b"P5 1 1 00#x",
    ] {
        assert_eq!(refused(file), (15, 7), "{}", file.escape_ascii());
    }
    assert_eq!(refused(b"P5 1 1 #x\n 0 \0"), (15, 11));
    assert_eq!(read(b"P5 1 1 0#x\n1 \0"), (1, 1, 1, 13));
    for file in
        [&b"P5 1 1 256 \0"[..], b"P5 1 1 0300 \0", b"P5 1 1 2#x\n55#\r6 \xFF", b"P5 0 0 999 "]
    {
        assert_eq!(refused(file), (16, 7), "{}", file.escape_ascii());
    }
    assert_eq!(refused(&[b"P5 1 1 1", &[b'0'; 30][..], b" "].concat()), (16, 7));
    assert_eq!(refused(b"P5 1 1 18446744073709551617 \0"), (16, 7));
    // 15 comes before 16, 16 before 17.
    assert_eq!(refused(b"P5 1 1 300x"), (15, 10));
    assert_eq!(refused(b"P5 1 1 300"), (15, 10));
    assert_eq!(refused(b"P5 1 1 300#x"), (15, 12));
    assert_eq!(refused(b"P5 1 1 300#\n-"), (15, 12));
    assert_eq!(refused(b"P5 1 1 300 "), (16, 7));
}

#[test]
fn pixels_at_fault() {
    assert_eq!(refused(b"P5 3 1 9 \x09\x01"), (17, 11));
    assert_eq!(refused(b"P5 3 1 9 "), (17, 9));
    assert_eq!(refused(b"P5 3 1 9 \x09\x0A\x0B"), (17, 10));
    // A pixel above the maximum comes before the file's end; only the first image is looked at.
    assert_eq!(refused(b"P5 3 1 9 \x09\x0A"), (17, 10));
    assert_eq!(read(b"P5 3 1 9 \x09\x09\x09\x0A"), (3, 1, 9, 9));
    assert_eq!(read(b"P5 1 1 9 \0P5 1 1 0 \0"), (1, 1, 9, 9));
    // Products over whole numbers.
    assert_eq!(refused(b"P5 4294967296 4294967296 9 \0"), (17, 28));
    assert_eq!(refused(b"P5 18446744073709551617 1 9 \0"), (17, 29));
    assert_eq!(refused(b"P5 18446744073709551617 1 9 \0\x0A"), (17, 29));
    let ten_to_30 = |rest: &[u8]| refused(&[b"P5 1", &[b'0'; 30][..], rest].concat());
    assert_eq!(ten_to_30(b" 1 9 \0"), (17, 40));
    assert_eq!(ten_to_30(b" 0 9 \0"), (10, 0));
}

#[test]
fn sides_at_fault() {
    for sides in ["0 1", "1 0", "0 0", "000 9999", "8193 1", "1 8193", "3 8193"] {
        let file = [format!("P5 {sides} 9 ").as_bytes(), &[9; 24579]].concat();
        assert_eq!(refused(&file), (10, 0), "{sides}");
    }
    assert_eq!(read(&[b"P5 8192 1 9 ", &[9; 8192][..]].concat()), (8192, 1, 9, 12));
    assert_eq!(refused(b"P5 0 0 9 \x0A"), (10, 0));
    // 17 comes before 10.
    assert_eq!(refused(&[b"P5 8193 1 9 ", &[9; 8192][..]].concat()), (17, 8204));
}

fn ticket(operation: u8, length: u16, boxes: &[HiddenBox]) -> Vec<u8> {
    let (line, boxes) = (CONNECTED, boxes.to_vec());
    Draft { operation, line, dx: 1, dy: 0, length, origin: 0, phase: 0, boxes }.bytes()
}

/// A job on a row of three pixels with just enough room, and two bytes more in each buffer.
fn job_of(ticket: Vec<u8>, file: &[u8]) -> FileJob {
    FileJob { ticket, file: file.to_vec(), output: vec![77; 14], scratch: vec![88; 17] }
}

fn check(job: &FileJob, work: u64, written: &[u8]) {
    let Outcome { answer, output, scratch } = run(job);
    let length = written.len() as u64;
    assert_eq!(answer, Answer { refusal: 0, place: 0, work, length });
    assert_eq!(output, [written, &vec![77; job.output.len() - written.len()]].concat());
    assert_eq!(scratch, [&[0; 15][..], &vec![88; job.scratch.len() - 15]].concat());
}

#[test]
fn pages_are_filtered_as_they_are() {
    let file = b"P5#x\n 03\t1 9\r\x09\x01\x05P5 1";
    check(&job_of(ticket(ERODE, 2, &[]), file), 3, b"P5\n3\n1\n9\n\x01\x01\x05");
    check(&job_of(ticket(DILATE, 2, &[]), file), 3, b"P5\n3\n1\n9\n\x09\x09\x05");
    check(&job_of(ticket(OPEN, 2, &[]), file), 6, b"P5\n3\n1\n9\n\x01\x01\x05");
    // A hidden pixel comes out as the maximum, and has no value between the passes.
    check(&job_of(ticket(OPEN, 2, &[MIDDLE]), file), 6, b"P5\n3\n1\n9\n\x09\x09\x05");
    check(&job_of(ticket(OPEN, 3, &[MIDDLE]), file), 8, b"P5\n3\n1\n9\n\x05\x09\x05");
    let file = b"P5 3 1 99 \x09\x01\x05";
    check(&job_of(ticket(OPEN, 3, &[MIDDLE]), file), 8, b"P5\n3\n1\n99\n\x05\x63\x05");
    // Read back, a page that nothing was done to is the same.
    let same = job_of(ticket(ERODE, 1, &[]), b"P5\n3\n1\n99\n\x09\x01\x05");
    check(&same, 0, &same.file);
}

#[test]
fn jobs_are_judged_in_order() {
    let wide = HiddenBox { left: 65535, top: 0, width: 2, height: 1 };
    let mut job = job_of(ticket(OPEN, 2, &[MIDDLE, wide]), b"P5 3 1 9 \x09\x01\x05");
    let meets = |job: &FileJob, refusal, place| {
        let outcome = run(job);
        assert_eq!(outcome.answer, Answer { refusal, place, work: 0, length: 0 });
        assert_eq!((&outcome.output, &outcome.scratch), (&job.output, &job.scratch));
    };
    meets(&job, 14, 1);
    job.scratch.truncate(15);
    meets(&job, 14, 1);
    job.scratch.truncate(14);
    meets(&job, 13, 0);
    job.output.truncate(12);
    meets(&job, 13, 0);
    job.output.truncate(11);
    meets(&job, 12, 0);
    for (file, refusal, place) in [
        (&b"P5 3 0 9 \x09\x01\x05"[..], 10, 0),
        (b"P5 3 0 9 ", 10, 0),
        // The pixel stands under the box.
        (b"P5 3 1 9 \x09\xFF\x05", 17, 10),
        (b"P5 3 1 9 \x09\x01", 17, 11),
        (b"P5 3 1 256 \x09", 16, 7),
        (b"P5 3 1 0 \x09", 15, 7),
        (b"", 15, 0),
    ] {
        job.file = file.to_vec();
        meets(&job, refusal, place);
    }
    job.ticket.push(7);
    meets(&job, 1, 52);
}

#[test]
fn output_and_scratch_just_long_enough() {
    let mut job = job_of(ticket(OPEN, 2, &[]), b"P5 3 1 255 \x09\x01\x05");
    (job.output, job.scratch) = (vec![77; 14], vec![88; 15]);
    check(&job, 6, b"P5\n3\n1\n255\n\x01\x01\x05");
    job.output.pop();
    assert_eq!(run(&job).answer.refusal, 12);
}

#[test]
fn jobs_on_files_end_to_end() {
    let good = job_of(ticket(OPEN, 2, &[]), b"P5 3 1 9 \x09\x01\x05");
    let bytes = file_list::entry(&good);
    assert_eq!(bytes[..32], [30, 12, 14, 17u64].map(u64::to_le_bytes).concat());
    assert_eq!(bytes[32..], [&good.ticket[..], &good.file, &good.output, &good.scratch].concat());
    let list = [bytes, file_list::entry(&FileJob::default())].concat();
    for length in 0..=list.len() {
        let lines = file_list::printed(&list[..length]).lines().count();
        assert_eq!(lines, usize::from(length >= 105) + usize::from(length == 137));
    }
    let written = "50350a330a310a390a0101054d4d";
    let line =
        format!("read 0 0 3 1 9 9 run 0 0 6 12 output {written} scratch {}5858\n", "0".repeat(30));
    let empty = "read 15 0 0 0 0 0 run 1 0 0 0 output  scratch \n";
    assert_eq!(file_list::printed(&list), line + empty);
}
