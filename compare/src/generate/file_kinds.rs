//! What makes a file odd, by name: harmless things, and flaws.

use super::file_draft::FileDraft;
use super::{file_headers as headers, file_numbers as numbers};
use crate::random::Random;

/// A name, the answers that a file may meet if nothing else is odd about it, and what is done.
pub type Kind = (&'static str, &'static [u8], fn(&mut Random, &mut FileDraft));

pub const HARMLESS: [Kind; 7] = [
    ("comments", &[0], headers::comments),
    ("comments", &[0], headers::comments),
    ("odd white space", &[0], headers::white_space),
    ("leading zeros", &[0], headers::leading_zeros),
    ("pixels like a header", &[0], numbers::pixels_like_a_header),
    ("bytes behind", &[0], headers::bytes_behind),
    ("another image behind", &[0], headers::image_behind),
];

pub const FLAWS: [Kind; 19] = [
    ("wrong magic", &[15], headers::magic),
    ("no white space", &[0, 10, 15, 16, 17], headers::no_white_space),
    ("damaged header", &[0, 10, 15, 16, 17], headers::damaged),
    ("damaged header", &[0, 10, 15, 16, 17], headers::damaged),
    ("comment anywhere", &[0, 10, 15, 16, 17], headers::comment_anywhere),
    ("cut", &[15, 17], headers::cut),
    ("broken delimiter", &[15], headers::broken_delimiter),
    ("maximum 0", &[15], numbers::maximum_0),
    ("maximum 0, broken delimiter", &[15], |r, d| {
        numbers::maximum_0(r, d);
        headers::broken_delimiter(r, d)
    }),
    ("maximum above 255", &[16], numbers::maximum_above),
    ("maximum above 255, broken delimiter", &[15], |r, d| {
        numbers::maximum_above(r, d);
        headers::broken_delimiter(r, d)
    }),
    (HIGH_PIXEL, &[17], numbers::high_pixel),
    ("too few pixels", &[17], numbers::too_few),
    ("high pixel, too few", &[17], |r, d| {
        numbers::too_few(r, d);
        numbers::high_pixel(r, d)
    }),
    ("side 0", &[10], numbers::side_0),
    ("side above 8192", &[10], numbers::side_above),
    ("huge side", &[17], numbers::huge_side),
    ("huge side and side 0", &[10], |r, d| {
        numbers::huge_side(r, d);
        numbers::side_0(r, d)
    }),
    ("sides about the pixels", &[0, 17], numbers::sides_about),
];

pub const HIGH_PIXEL: &str = "pixel above the maximum";
