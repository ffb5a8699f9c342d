//! Tickets with one value at its limit or one past it, all else valid.

use super::draft::{self, Draft};
use crate::random::Random;
use crate::ticket::{HiddenBox, BOX_PLACES, BOX_TAG, CONNECTED, PERIODIC};

/// Components about the limits; `i16::MIN` is 0x8000, whose absolute value is no i16.
const COMPONENTS: [i16; 11] = [i16::MIN, -256, -255, -2, -1, 0, 1, 2, 254, 255, 256];

pub fn ticket(random: &mut Random, mut draft: Draft, width: u16, height: u16) -> Vec<u8> {
    match random.below(9) {
        0 => draft.operation = random.pick(&[0, 1, 4, 5, 255]),
        1 => draft.line = random.pick(&[0, 3, 255]),
        2..=3 => vector(random, &mut draft),
        4 => segment_and_origin(random, &mut draft),
        5 => phase(random, &mut draft),
        6..=7 => box_values(random, &mut draft, width, height),
        _ => return box_counts(random, draft, width, height),
    }
    draft.bytes()
}

pub fn vector(random: &mut Random, draft: &mut Draft) {
    draft.line = random.pick(&[CONNECTED, PERIODIC]);
    let small = [(0, 0), (0, 1), (1, 0), (0, -1), (-1, 2), (2, -2), (2, 2), (-1, 1)];
    let large = [(255, 255), (256, 1), (1, 256), (255, -254), (-254, 255), (i16::MIN, 1)];
    let any = (random.pick(&COMPONENTS), random.pick(&COMPONENTS));
    (draft.dx, draft.dy) = random.pick(&[&small[..], &large, &[any; 6]].concat());
    // Phase 0 is allowed with every allowed vector, so only the vector can be refused.
    draft.phase = 0;
}

fn segment_and_origin(random: &mut Random, draft: &mut Draft) {
    draft.length = random.pick(&[0, 1, 2, 8191, 8192, 8193, 0x8000, 65535]);
    let (last, past) = (draft.length.saturating_sub(1), draft.length.saturating_add(1));
    draft.origin = random.pick(&[0, last, draft.length, past, 65535]);
}

pub fn phase(random: &mut Random, draft: &mut Draft) {
    let largest = draft.dx.unsigned_abs().max(draft.dy.unsigned_abs());
    let limit = if draft.line == CONNECTED { largest } else { 1 };
    draft.phase = random.pick(&[limit - 1, limit, limit + 1, 65535]);
}

/// One or two boxes with a zero side, at an edge or past one, anywhere in the list.
fn box_values(random: &mut Random, draft: &mut Draft, width: u16, height: u16) {
    for _ in 0..random.between(1, 2) {
        let (mut across, mut down) = ((0, 1), (0, 1));
        if random.one_in(2) {
            across = box_side(random, width);
        } else {
            down = box_side(random, height);
        }
        draft.boxes.truncate(BOX_PLACES - 1);
        let place = random.index(draft.boxes.len() + 1);
        let ((left, width), (top, height)) = (across, down);
        draft.boxes.insert(place, HiddenBox { left, top, width, height });
    }
}

/// Where a box begins on a page's side and how far it goes; 65535 + 2 looks small in 16 bits.
fn box_side(random: &mut Random, side: u16) -> (u16, u16) {
    let within = [(0, side), (side - 1, 1)];
    let past = [(0, side + 1), (side - 1, 2), (side, 1), (65535, 1), (65535, 2)];
    let zero = [(0, 0), (side, 0)];
    random.pick(&[&within[..], &past, &past, &zero].concat())
}

/// 64 boxes, and a 65th that is whole, of wrong length, of wrong tag, or cut short.
fn box_counts(random: &mut Random, mut draft: Draft, width: u16, height: u16) -> Vec<u8> {
    let one = draft::a_box(random, width, height);
    draft.boxes.resize(BOX_PLACES, one);
    let mut box_65 = vec![BOX_TAG, 0, 8];
    match random.below(6) {
        0 => box_65.clear(),
        1 => box_65[2] = random.pick(&[0, 7, 9]),
        2 => box_65[0] = random.pick(&[0, 1, 6, 8]),
        3 => box_65.truncate(random.index(2) + 1),
        4 => box_65.extend(random.bytes(3)),
        _ => box_65.extend(random.bytes(8)),
    }
    [draft.bytes(), box_65].concat()
}
