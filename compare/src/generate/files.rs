//! Whole jobs on P5 files: good and odd files, with tickets and buffers for them.

use super::file_draft::FileDraft;
use super::file_kinds::{Kind, FLAWS, HARMLESS, HIGH_PIXEL};
use super::{jobs, ticket_for, Make};
use crate::file_job::{written_length, FileJob};
use crate::pgm::{self, Header};
use crate::placement::scratch_needed;
use crate::random::Random;

/// A job on a file, and by name what is odd about it.
#[derive(Clone, Debug, PartialEq, Eq)]
pub struct MadeFile {
    pub job: FileJob,
    pub kinds: Vec<&'static str>,
}

/// Files that are cut at every byte: a plain one, one with comments everywhere, and one each with
/// a maximum of 0 and one above 255.
pub const CUT_FILES: [&[u8]; 4] = [
    b"P5\n3 2\n255\n\x01\x02\x03\x04\x05\xFF",
    b"P5#a\n #b\r\n0#c #\r#\n3\x0B#d\n\x0C#e\r2\t1#f\n#g\r0#\n0#h\n\r\x01\x02\x03\x04\x05\x64",
    b"P5 3 2 #a\n0#b\r0#c\n #d\n\0\0\0\0\0",
    b"P5 3 2\r#a\r\n03#b\n00#c\r\n\x01\x02\x03\x04\x05\x06",
];
/// One file in so many is one of them.
const CUTS: u64 = 16;

const LONG_PAGE: &str = "side of up to 8192";
const SMALL_CUT: &str = "small file cut";
const HIGH_PIXEL_HIDDEN: &str = "pixel above the maximum under a box";
const SHORT_OUTPUT: &str = "output one byte short";
const SHORT_SCRATCH: &str = "scratch one byte short";

/// Every name there is, and the answers a file may meet that has no other; each once.
pub fn kinds() -> Vec<(&'static str, &'static [u8])> {
    let made = [(LONG_PAGE, &[0][..]), (SMALL_CUT, &[0, 15, 16, 17]), (HIGH_PIXEL_HIDDEN, &[17])];
    let short = [(SHORT_OUTPUT, &[0][..]), (SHORT_SCRATCH, &[0])];
    let odd = HARMLESS.iter().chain(&FLAWS).map(|&(name, answers, _)| (name, answers));
    let mut all: Vec<_> = odd.chain(made).chain(short).collect();
    all.dedup_by_key(|(name, _)| *name);
    all
}

/// The cuts go by the index, so that a long run leaves none of them out.
pub fn file_job(random: &mut Random, index: u64) -> MadeFile {
    if index % CUTS == 0 {
        let cuts: Vec<&[u8]> =
            CUT_FILES.iter().flat_map(|file| (0..=file.len()).map(|end| &file[..end])).collect();
        let file = cuts[(index / CUTS) as usize % cuts.len()].to_vec();
        let ticket = ticket_for(random, 3, 2, Make::Valid);
        return lent(random, ticket, file, (3, 2), vec![SMALL_CUT]);
    }
    let mut kinds = Vec::new();
    let (width, height, long_ticket) = page(random, &mut kinds);
    let mut draft = FileDraft::valid(random, width, height);
    // Two flaws in one file show which of them is judged first.
    for _ in 0..random.pick(&[0, 1, 1, 2, 2, 3]) {
        let from: &[Kind] = if random.one_in(3) { &FLAWS } else { &HARMLESS };
        let (name, _, change) = random.pick(from);
        change(random, &mut draft);
        kinds.push(name);
    }
    let file = draft.bytes();
    let (width, height) = sides(&file).unwrap_or((width, height));
    let mut ticket = long_ticket.unwrap_or_else(|| short_ticket(random, width, height));
    if kinds.contains(&HIGH_PIXEL) && random.one_in(2) {
        ticket.extend(box_over_all(width, height));
        kinds.push(HIGH_PIXEL_HIDDEN);
    }
    lent(random, ticket, file, (width, height), kinds)
}

/// Sides of a page, and now and then a ticket for a long one.
fn page(random: &mut Random, kinds: &mut Vec<&'static str>) -> (u16, u16, Option<Vec<u8>>) {
    if random.one_in(80) {
        kinds.push(LONG_PAGE);
        let (ticket, width, height) = jobs::long_ticket(random);
        return (width, height, Some(ticket));
    }
    let (width, height) = jobs::small_sides(random);
    (width, height, None)
}

/// The sides of a file that is read.
fn sides(file: &[u8]) -> Option<(u16, u16)> {
    pgm::read(file).ok().map(|header| (header.width as u16, header.height as u16))
}

fn short_ticket(random: &mut Random, width: u16, height: u16) -> Vec<u8> {
    let any = Make::any(random);
    let valid = Make::Valid;
    let make = random.pick(&[valid, valid, valid, valid, Make::Boundary, any]);
    ticket_for(random, width, height, make)
}

fn box_over_all(width: u16, height: u16) -> Vec<u8> {
    [&[7, 0, 8], &[0, 0, width, height].map(u16::to_be_bytes).concat()[..]].concat()
}

/// The job with an output and a scratch for its file, just long enough, longer, or too short.
fn lent(
    random: &mut Random,
    ticket: Vec<u8>,
    file: Vec<u8>,
    (width, height): (u16, u16),
    mut kinds: Vec<&'static str>,
) -> MadeFile {
    let (width, height) = (u64::from(width), u64::from(height));
    let drafted = Header { width, height, maximum: 255, start: 0 };
    let header = pgm::read(&file).unwrap_or(drafted);
    let mut output_length = written_length(&header) as usize + random.pick(&[0, 0, 1, 17]);
    let mut scratch_length = scratch_needed(width, height) as usize + random.pick(&[0, 0, 1, 17]);
    if random.one_in(12) {
        output_length = written_length(&header) as usize - 1;
        kinds.push(SHORT_OUTPUT);
    } else if random.one_in(50) {
        output_length = random.index(output_length);
    }
    if random.one_in(12) {
        scratch_length = scratch_needed(width, height) as usize - 1;
        kinds.push(SHORT_SCRATCH);
    }
    let (output, scratch) = (random.bytes(output_length), random.bytes(scratch_length));
    MadeFile { job: FileJob { ticket, file, output, scratch }, kinds }
}
