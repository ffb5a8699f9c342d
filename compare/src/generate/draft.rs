//! Valid tickets as drafts: fields with raw values, which the limits may then be crossed with.

use crate::random::Random;
use crate::ticket::{HiddenBox, BOX_PLACES, BOX_TAG, LARGEST_COMPONENT, LONGEST_SEGMENT};
use crate::ticket::{CLOSE, CONNECTED, DILATE, ERODE, OPEN, PERIODIC};

/// A ticket before it is written out; nothing keeps its values within the limits.
#[derive(Clone, Debug, PartialEq, Eq)]
pub struct Draft {
    pub operation: u8,
    pub line: u8,
    pub dx: i16,
    pub dy: i16,
    pub length: u16,
    pub origin: u16,
    pub phase: u16,
    pub boxes: Vec<HiddenBox>,
}

impl Draft {
    /// A draft that is accepted on a page of these sides, which are within the limits.
    pub fn valid(random: &mut Random, width: u16, height: u16) -> Draft {
        let line = random.pick(&[CONNECTED, PERIODIC]);
        // On a page of one row or column only the vector along it has long lines.
        let along = if height == 1 { (1, 0) } else { (0, 1) };
        let thin = width == 1 || height == 1;
        let (dx, dy) = if thin && random.one_in(2) { along } else { vector(random, line) };
        let length = segment_length(random, width.max(height));
        let operation = random.pick(&[ERODE, DILATE, OPEN, CLOSE]);
        let (origin, phase) = (origin(random, length), phase(random, line, dx, dy));
        let boxes = boxes(random, width, height);
        Draft { operation, line, dx, dy, length, origin, phase, boxes }
    }

    /// The fields, each with its head.
    pub fn fields(&self) -> Vec<Vec<u8>> {
        let vector = [self.dx.to_be_bytes(), self.dy.to_be_bytes()].concat();
        let mut fields = vec![
            field(1, &[self.operation]),
            field(2, &[self.line]),
            field(3, &vector),
            field(4, &self.length.to_be_bytes()),
            field(5, &self.origin.to_be_bytes()),
            field(6, &self.phase.to_be_bytes()),
        ];
        for b in &self.boxes {
            let numbers = [b.left, b.top, b.width, b.height].map(u16::to_be_bytes);
            fields.push(field(BOX_TAG, &numbers.concat()));
        }
        fields
    }

    pub fn bytes(&self) -> Vec<u8> {
        self.fields().concat()
    }
}

fn field(tag: u8, value: &[u8]) -> Vec<u8> {
    let length = (value.len() as u16).to_be_bytes();
    [&[tag, length[0], length[1]], value].concat()
}

/// Page sides: mostly small, as a page is walked slowly; each extreme shape now and then.
pub fn sides(random: &mut Random) -> (u16, u16) {
    let largest = [(8192, 1), (1, 8192), (4096, 2), (2, 4096), (64, 128), (90, 91)];
    match random.below(64) {
        0 => (1, 1),
        1 => random.pick(&largest),
        2 => (side(random, 1200), 1),
        3 => (1, side(random, 1200)),
        4..=5 => (side(random, 60), side(random, 60)),
        6..=12 => (side(random, 40), 1),
        13..=19 => (1, side(random, 40)),
        20..=30 => [side(random, 14); 2].into(),
        _ => (side(random, 16), side(random, 16)),
    }
}

fn side(random: &mut Random, most: i64) -> u16 {
    random.between(1, most) as u16
}

/// An allowed vector in any octant, the axes and the diagonals oftener than by chance.
pub fn vector(random: &mut Random, line: u8) -> (i16, i16) {
    let most = random.pick(&[1, 3, 3, 5, 5, 20, LARGEST_COMPONENT]);
    let mut long = random.between(1, most);
    let mut short = match random.below(8) {
        0 => 0,
        1 => long,
        2 => -long,
        _ => random.between(-long, long),
    };
    if line == CONNECTED {
        let divides = |d: &i64| long % d == 0 && short % d == 0;
        let largest = (1..=long).rev().find(divides).unwrap_or(1);
        (long, short) = (long / largest, short / largest);
    }
    // A diagonal is shallow; its exchange would be (dy, dx) with dx not below dy.
    if short.abs() == long || random.one_in(2) {
        (long as i16, short as i16)
    } else {
        (short as i16, long as i16)
    }
}

/// L: small ones, ones around the longest line of the page, and the whole range.
fn segment_length(random: &mut Random, longest_side: u16) -> u16 {
    let n = i64::from(longest_side);
    let length = match random.below(12) {
        0 => 1,
        1..=5 => random.between(1, 6),
        6..=7 => n + random.between(-1, 1),
        8 => n / 2 + random.between(0, 1),
        9 => random.between(1, 2 * n + 1),
        10 => random.pick(&[4096, 8191, 8192]),
        _ => random.between(1, i64::from(LONGEST_SEGMENT)),
    };
    length.clamp(1, i64::from(LONGEST_SEGMENT)) as u16
}

fn origin(random: &mut Random, length: u16) -> u16 {
    match random.below(5) {
        0 => 0,
        1 => length - 1,
        2 => (length - 1) / 2,
        _ => random.below(u64::from(length)) as u16,
    }
}

pub fn phase(random: &mut Random, line: u8, dx: i16, dy: i16) -> u16 {
    if line == PERIODIC {
        return 0;
    }
    let phases = dx.unsigned_abs().max(dy.unsigned_abs());
    match random.below(4) {
        0 => 0,
        1 => phases - 1,
        _ => random.below(u64::from(phases)) as u16,
    }
}

fn boxes(random: &mut Random, width: u16, height: u16) -> Vec<HiddenBox> {
    let count = match random.below(16) {
        0..=6 => 0,
        7..=9 => 1,
        10..=12 => random.between(2, 4),
        13..=14 => random.between(5, 20),
        _ => random.pick(&[63, BOX_PLACES as i64]),
    };
    (0..count).map(|_| a_box(random, width, height)).collect()
}

/// A box on the page: a pixel, a rectangle, one that touches the far edges, rarely all.
pub fn a_box(random: &mut Random, width: u16, height: u16) -> HiddenBox {
    let left = random.below(u64::from(width)) as u16;
    let top = random.below(u64::from(height)) as u16;
    let (right, below) = (width - left, height - top);
    let within = |random: &mut Random, most: u16| 1 + random.below(u64::from(most)) as u16;
    let (left, top, width, height) = match random.below(24) {
        0..=11 => (left, top, 1, 1),
        12..=14 => (left, top, right.min(2), below.min(2)),
        15..=16 => (left, top, right, below),
        17 => (0, top, width, 1),
        18 => (left, 0, 1, height),
        19 => (0, 0, width, height),
        _ => (left, top, within(random, right), within(random, below)),
    };
    HiddenBox { left, top, width, height }
}
