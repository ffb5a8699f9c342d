//! A line sample in 11 bytes, and what the number program must print for it.

use crate::generate::LineSample;
use crate::lines::{Lines, Sides};
use crate::ticket::{vector_allowed, CONNECTED, PERIODIC};

/// The number program takes no page of more pixels.
const MOST_PIXELS: i64 = 4096;

/// Kind, dx, dy, phase, width and height; nothing if the input is bad.
fn sample(input: &[u8]) -> Option<LineSample> {
    let input: &[u8; 11] = input.try_into().ok()?;
    let number = |at: usize| u16::from_be_bytes([input[at], input[at + 1]]);
    let (kind, dx, dy) = (input[0], i64::from(number(1) as i16), i64::from(number(3) as i16));
    let [phase, width, height] = [5, 7, 9].map(|at| i64::from(number(at)));
    // Both kinds of line are judged as periodic ones: a common divisor is allowed here.
    let vector = (CONNECTED..=PERIODIC).contains(&kind) && vector_allowed(PERIODIC, dx, dy);
    let phases = if kind == PERIODIC { 1 } else { dx.abs().max(dy.abs()) };
    let page = width > 0 && height > 0 && width * height <= MOST_PIXELS;
    let (lines, sides) = (Lines { kind, dx, dy, phase }, Sides { width, height });
    (vector && phase < phases && page).then_some(LineSample { lines, sides })
}

pub fn printed(input: &[u8]) -> String {
    let Some(LineSample { lines, sides }) = sample(input) else {
        return "bad input\n".to_string();
    };
    let place = |at| format!("{}/{}", lines.number(sides, at), lines.after(sides, at));
    let places: Vec<String> = sides.pixels().into_iter().map(place).collect();
    places.chunks(sides.width as usize).map(|row| row.join(" ") + "\n").collect()
}

/// The kind of answer, as a summary names it.
pub fn kind(input: &[u8]) -> &'static str {
    match sample(input) {
        None => "bad input",
        Some(sample) if sample.lines.kind == PERIODIC => "numbers, periodic",
        Some(_) => "numbers, connected",
    }
}
