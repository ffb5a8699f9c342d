//! Odd headers of P5 files, good and bad, and odd bytes behind the image.

use super::damage;
use super::file_draft::{comment, comment_piece, FileDraft, WHITE_SPACE};
use crate::random::Random;

/// Anywhere behind `P5`: before, between and inside the numbers, and right before the delimiter.
pub fn comments(random: &mut Random, draft: &mut FileDraft) {
    let one_in = random.pick(&[2, 4, 10]);
    let pieces = draft.gaps.iter_mut().chain(&mut draft.numbers).chain([&mut draft.delimiter]);
    pieces.for_each(|piece| comment_piece(random, piece, one_in));
}

pub fn white_space(random: &mut Random, draft: &mut FileDraft) {
    for gap in &mut draft.gaps {
        let count = random.between(1, 4);
        *gap = (0..count).flat_map(|_| random.pick(&WHITE_SPACE)).copied().collect();
    }
    draft.delimiter = random.pick(&WHITE_SPACE).to_vec();
}

pub fn leading_zeros(random: &mut Random, draft: &mut FileDraft) {
    for number in &mut draft.numbers {
        let zeros = random.pick(&[0, 1, 2, 19, 40]);
        number.splice(0..0, vec![b'0'; zeros]);
    }
}

pub fn bytes_behind(random: &mut Random, draft: &mut FileDraft) {
    let count = random.index(9) + 1;
    draft.behind = if random.one_in(2) { vec![255; count] } else { random.bytes(count) };
}

pub fn image_behind(random: &mut Random, draft: &mut FileDraft) {
    draft.behind = random.pick(&[&b"P5\n1 1 255\n\xFF"[..], b"P5 0 0 0\n", b"\nP5 2"]).to_vec();
}

pub fn magic(random: &mut Random, draft: &mut FileDraft) {
    let short = [&b""[..], b"P", b"5", b"p5", b"5P", b"P2", b"P4", b"P6"];
    let long = [&b" P5"[..], b"\nP5", b"#x\nP5", b"P#x\n5", b"P 5", b"P5x", b"\xEF\xBB\xBFP5"];
    draft.magic = random.pick(&[&short[..], &long].concat()).to_vec();
}

/// Nothing or a comment where white space is due.
pub fn no_white_space(random: &mut Random, draft: &mut FileDraft) {
    let gap = random.index(3);
    draft.gaps[gap] = if random.one_in(2) { comment(random, b"\n") } else { Vec::new() };
}

/// One byte of the header becomes another, of which the law makes most; or bytes go or come.
pub fn damaged(random: &mut Random, draft: &mut FileDraft) {
    let mut header = draft.header();
    let telling = b"#0159 \t\n\r\x0B\x0C\x08\x0E\x1C\x1F!/:-+.xP\0\x85\xA0\xFF";
    if header.is_empty() || random.one_in(4) {
        header = damage::bytewise(random, header);
    } else {
        let place = random.index(header.len());
        header[place] = random.pick(telling);
    }
    *draft = FileDraft::loose(header, draft.pixels.clone(), draft.behind.clone());
}

/// Also inside `P5` and inside other comments, whose ends then count; its own end may be missing,
/// or be two bytes, of which the second counts.
pub fn comment_anywhere(random: &mut Random, draft: &mut FileDraft) {
    let mut header = draft.header();
    let (place, end) = (random.index(header.len() + 1), random.pick(&[&b""[..], b"\n", b"\r\n"]));
    header.splice(place..place, comment(random, end));
    *draft = FileDraft::loose(header, draft.pixels.clone(), draft.behind.clone());
}

/// Mostly in the header, of which more can be cut.
pub fn cut(random: &mut Random, draft: &mut FileDraft) {
    let mut file = [draft.header(), draft.pixels.clone()].concat();
    let most = random.pick(&[file.len(), draft.header().len()]);
    file.truncate(random.index(most.max(1)));
    *draft = FileDraft::loose(file, Vec::new(), Vec::new());
}

/// Another byte, or the file's end, straight behind the maximum or behind a comment.
pub fn broken_delimiter(random: &mut Random, draft: &mut FileDraft) {
    let end = random.pick(&[b"\n", b"\r"]);
    draft.delimiter = if random.one_in(2) { comment(random, end) } else { Vec::new() };
    match random.below(4) {
        0 => draft.delimiter.extend(comment(random, b"")),
        1 => {}
        _ => {
            let other = random.pick(b"x-.!/:\0\x08\x0E\x1F\x85\xA0\xFF");
            return draft.delimiter.push(other);
        }
    }
    draft.pixels.clear();
    draft.behind.clear();
}
