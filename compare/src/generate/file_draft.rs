//! P5 files as drafts: the pieces of a header, the pixels, and what is behind them.

use super::inputs;
use crate::random::Random;

pub const WHITE_SPACE: [&[u8]; 6] = [b" ", b"\t", b"\n", b"\r", b"\x0B", b"\x0C"];

/// The numbers of a header, as places in `FileDraft::numbers`.
pub const WIDTH: usize = 0;
pub const HEIGHT: usize = 1;
pub const MAXIMUM: usize = 2;

/// A file before it is written out; nothing keeps its pieces good.
#[derive(Clone, Debug)]
pub struct FileDraft {
    pub magic: Vec<u8>,
    /// What stands before each number, and its digits.
    pub gaps: [Vec<u8>; 3],
    pub numbers: [Vec<u8>; 3],
    pub delimiter: Vec<u8>,
    pub pixels: Vec<u8>,
    pub behind: Vec<u8>,
}

impl FileDraft {
    /// A good file with a plain header.
    pub fn valid(random: &mut Random, width: u16, height: u16) -> FileDraft {
        let any = random.between(1, 255) as u8;
        let maximum = random.pick(&[255, 255, 254, 128, 60, 2, 1, any]);
        let sides = [width, height].map(|side| side.to_string().into_bytes());
        let [width_digits, height_digits] = sides;
        let numbers = [width_digits, height_digits, maximum.to_string().into_bytes()];
        let mut white = || random.pick(&[b" ", b"\n", b"\n"]).to_vec();
        let (gaps, delimiter) = ([white(), white(), white()], white());
        let pixels = greys(random, usize::from(width) * usize::from(height), maximum);
        FileDraft { magic: b"P5".to_vec(), gaps, numbers, delimiter, pixels, behind: Vec::new() }
    }

    /// A draft of bytes that no longer fall into pieces.
    pub fn loose(header: Vec<u8>, pixels: Vec<u8>, behind: Vec<u8>) -> FileDraft {
        let (gaps, numbers) = Default::default();
        FileDraft { magic: header, gaps, numbers, delimiter: Vec::new(), pixels, behind }
    }

    pub fn header(&self) -> Vec<u8> {
        let [first, second, third] = [0, 1, 2].map(|at| [&self.gaps[at][..], &self.numbers[at]]);
        let numbers = [first, second, third].concat().concat();
        [&self.magic[..], &numbers, &self.delimiter].concat()
    }

    pub fn bytes(&self) -> Vec<u8> {
        [&self.header()[..], &self.pixels, &self.behind].concat()
    }

    pub fn set(&mut self, number: usize, digits: &str) {
        self.numbers[number] = digits.as_bytes().to_vec();
    }
}

/// Greys up to a maximum, some of them bytes that a header could go on with.
pub fn greys(random: &mut Random, count: usize, maximum: u8) -> Vec<u8> {
    let like_a_header: Vec<u8> =
        b"\t\n\x0B\x0C\r #059P".iter().copied().filter(|&byte| byte <= maximum).collect();
    if !like_a_header.is_empty() && random.one_in(4) {
        return (0..count).map(|_| random.pick(&like_a_header)).collect();
    }
    let numbers = u16::from(maximum) + 1;
    let bounded = |grey: u8| (u16::from(grey) % numbers) as u8;
    inputs::pixels(random, count).into_iter().map(bounded).collect()
}

/// A comment with its end; without one the file goes on inside it.
pub fn comment(random: &mut Random, end: &[u8]) -> Vec<u8> {
    let texts =
        [&b""[..], b"x", b"#", b" # 3 3 255 #", b"P5 1 1 9 ", b"7", b"\t\x0B\x0C", b"\0\xFF"];
    [&b"#"[..], random.pick(&texts), end].concat()
}

/// Puts comments before the bytes of a piece, one in so many, and now and then several at a place.
pub fn comment_piece(random: &mut Random, piece: &mut Vec<u8>, one_in: u64) {
    let mut later = Vec::new();
    for &byte in piece.iter() {
        while random.one_in(one_in) {
            let end = random.pick(&[b"\n", b"\r"]);
            later.extend(comment(random, end));
        }
        later.push(byte);
    }
    *piece = later;
}
