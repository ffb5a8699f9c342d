//! Numbers of P5 files at their limits and past them, and pixels that do not go with them.

use super::file_draft::{FileDraft, HEIGHT, MAXIMUM, WIDTH};
use crate::random::Random;

/// 2^64 is no number of 64 bits, 2^64 + 3 looks like 3 in them, and so for 32 bits and 128.
const HUGE: [&str; 7] = [
    "1000000000000000000000000000000",
    "18446744073709551615",
    "18446744073709551616",
    "18446744073709551619",
    "4294967299",
    "9223372036854775808",
    "340282366920938463463374607431768211459",
];

pub fn maximum_0(random: &mut Random, draft: &mut FileDraft) {
    draft.set(MAXIMUM, random.pick(&["0", "0", "00", "000000000000000000000000"]));
}

/// Some of them look like 0 or 255 in so many bits.
pub fn maximum_above(random: &mut Random, draft: &mut FileDraft) {
    let near = ["256", "257", "300", "511", "512", "999", "0256", "2550"];
    let far = ["65535", "65536", "65791", "4294967296", "4294967551", "18446744073709551871"];
    draft.set(MAXIMUM, random.pick(&[&near[..], &far, &HUGE[..4]].concat()));
}

/// The first pixels could go on with the header: white space, as LF behind a CR, a comment, digits.
pub fn pixels_like_a_header(random: &mut Random, draft: &mut FileDraft) {
    draft.set(MAXIMUM, random.pick(&["255", "99", "57"]));
    draft.delimiter = random.pick(&[b"\r", b"\n", b" "]).to_vec();
    let beginning = random.pick(&[b"\n\n", b"\n ", b" \t", b"\r\n", b"#\n", b"09"]);
    draft.pixels.iter_mut().for_each(|grey| *grey = 57.min(*grey));
    draft.pixels.iter_mut().zip(beginning).for_each(|(grey, byte)| *grey = *byte);
}

/// One pixel is above the maximum, which is then below 255.
pub fn high_pixel(random: &mut Random, draft: &mut FileDraft) {
    let maximum = random.pick(&[1, 9, 100, 127, 128, 254]);
    draft.set(MAXIMUM, &maximum.to_string());
    draft.pixels.iter_mut().for_each(|grey| *grey = maximum.min(*grey));
    if !draft.pixels.is_empty() {
        let (any, last) = (random.index(draft.pixels.len()), draft.pixels.len() - 1);
        draft.pixels[random.pick(&[0, last, any, any])] = random.pick(&[maximum + 1, 255]);
    }
}

pub fn too_few(random: &mut Random, draft: &mut FileDraft) {
    let left = random.index(draft.pixels.len().max(1));
    draft.pixels.truncate(random.pick(&[0, left, draft.pixels.len().saturating_sub(1)]));
    draft.behind.clear();
}

pub fn side_0(random: &mut Random, draft: &mut FileDraft) {
    draft.set(random.pick(&[WIDTH, HEIGHT]), random.pick(&["0", "0", "000"]));
    if random.one_in(2) {
        draft.pixels.clear();
    }
}

/// All pixels are there, so that the sides are judged; some sides look small in 16 bits.
pub fn side_above(random: &mut Random, draft: &mut FileDraft) {
    let long = random.pick(&[8193, 8193, 8194, 9000, 65536, 65539]);
    draft.pixels = vec![random.pick(&[0, 1]); long];
    let (one, other) = random.pick(&[(WIDTH, HEIGHT), (HEIGHT, WIDTH)]);
    draft.set(one, &long.to_string());
    draft.set(other, "1");
}

/// Sides with a product above any file, which looks small in some number of bits.
pub fn huge_side(random: &mut Random, draft: &mut FileDraft) {
    let both = random.pick(&["8192", "8193", "4294967296", "2147483648", HUGE[0]]);
    if random.one_in(3) {
        draft.set(WIDTH, both);
        draft.set(HEIGHT, both);
    } else {
        draft.set(random.pick(&[WIDTH, HEIGHT]), random.pick(&HUGE));
    }
}

/// Sides that ask for as many pixels as there are, for one less or for one more.
pub fn sides_about(random: &mut Random, draft: &mut FileDraft) {
    let there = draft.pixels.len() as i64;
    let asked = (there + random.between(-1, 1)).max(1);
    let widths: Vec<i64> = (1..=asked).filter(|width| asked % width == 0).collect();
    let width = random.pick(&widths);
    draft.set(WIDTH, &width.to_string());
    draft.set(HEIGHT, &(asked / width).to_string());
}
