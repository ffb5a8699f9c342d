//! Document 02, wish 1: raw Netpbm grey files (P5), read and written.

use crate::placement::LONGEST_SIDE;
use crate::refusal::{self, unless, Refusal};

/// "A maximum value of 1 to 255".
const LARGEST_MAXIMUM: u64 = 255;
/// A number of more digits than these is above the length of any file.
const MOST_DIGITS: usize = 18;

/// What a file's header says, and the byte where its pixels start.
#[derive(Clone, Copy, Debug, Default, PartialEq, Eq)]
pub struct Header {
    pub width: u64,
    pub height: u64,
    pub maximum: u8,
    pub start: u64,
}

/// What a caller who reads a file alone is shown: refusal number 0 and the header, or the refusal
/// and a header of zeros.
pub fn shown(file: &[u8]) -> (Refusal, Header) {
    match read(file) {
        Ok(header) => (Refusal { number: refusal::NONE, place: 0 }, header),
        Err(refusal) => (refusal, Header::default()),
    }
}

/// The first image of a file, or its refusal: 15, 16, 17, then 10 for its sides.
pub fn read(file: &[u8]) -> Result<Header, Refusal> {
    let mut reader = Reader { file, at: 0 };
    reader.magic()?;
    let [width, height] = [reader.number()?, reader.number()?];
    let maximum = reader.number()?;
    // A maximum of 0 stands before its delimiter, so it is at fault first; one above 255 is
    // another refusal, which waits until the header is good.
    unless(maximum.value() != Some(0), refusal::HEADER, maximum.place)?;
    reader.white()?;
    let start = reader.at;
    let small = maximum.value().filter(|&value| value <= LARGEST_MAXIMUM);
    let too_large = Refusal { number: refusal::MAXIMUM, place: maximum.place };
    let maximum = small.ok_or(too_large)? as u8;
    judge_pixels(file, start, count(&width, &height), maximum)?;
    let side = |number: &Number| number.value().filter(|side| (1..=LONGEST_SIDE).contains(side));
    let (Some(width), Some(height)) = (side(&width), side(&height)) else {
        return Err(Refusal { number: refusal::BEYOND_LIMITS, place: 0 });
    };
    Ok(Header { width, height, maximum, start: start as u64 })
}

/// A pixel above the maximum among those that are there, else too few of them.
fn judge_pixels(file: &[u8], start: usize, due: Option<u128>, max: u8) -> Result<(), Refusal> {
    let there = file.len() - start;
    let enough = due.filter(|&due| due <= there as u128);
    let looked_at = enough.map_or(there, |due| due as usize);
    for (place, &pixel) in (0..).zip(file).skip(start).take(looked_at) {
        unless(pixel <= max, refusal::PIXELS, place)?;
    }
    unless(enough.is_some(), refusal::PIXELS, file.len() as u64)
}

/// How many pixels two sides ask for; nothing if no file has so many.
fn count(width: &Number, height: &Number) -> Option<u128> {
    match (width.value(), height.value()) {
        (Some(0), _) | (_, Some(0)) => Some(0),
        (Some(width), Some(height)) => Some(u128::from(width) * u128::from(height)),
        _ => None,
    }
}

/// A number of the header: the place of its first digit, and its digits without leading zeros.
struct Number {
    place: u64,
    digits: String,
}

impl Number {
    /// Nothing if the number is above the length of any file.
    fn value(&self) -> Option<u64> {
        let sum = |sum, digit: char| sum * 10 + u64::from(digit) - u64::from('0');
        (self.digits.len() <= MOST_DIGITS).then(|| self.digits.chars().fold(0, sum))
    }
}

/// A header read byte by byte; all before `at` is read.
struct Reader<'a> {
    file: &'a [u8],
    at: usize,
}

impl Reader<'_> {
    /// `P5` stands at the file's very beginning, without a comment inside.
    fn magic(&mut self) -> Result<(), Refusal> {
        for due in *b"P5" {
            let holds = self.file.get(self.at) == Some(&due);
            unless(holds, refusal::HEADER, self.at as u64)?;
            self.at += 1;
        }
        Ok(())
    }

    /// White space, one byte at least, and then a number.
    fn number(&mut self) -> Result<Number, Refusal> {
        self.white()?;
        while self.next_if(is_white).is_some() {}
        self.pass_comments();
        let place = self.at as u64;
        let mut digits = String::new();
        while let Some(digit) = self.next_if(|byte| byte.is_ascii_digit()) {
            digits.push(char::from(digit));
        }
        unless(!digits.is_empty(), refusal::HEADER, place)?;
        Ok(Number { place, digits: digits.trim_start_matches('0').to_string() })
    }

    /// One white space byte.
    fn white(&mut self) -> Result<(), Refusal> {
        let found = self.next_if(is_white).is_some();
        unless(found, refusal::HEADER, self.at as u64)
    }

    /// The next byte that counts, if it is one of these; else only the comments before it, or the
    /// rest of a file that ends in one, are passed.
    fn next_if(&mut self, holds: impl Fn(u8) -> bool) -> Option<u8> {
        self.pass_comments();
        let byte = *self.file.get(self.at)?;
        self.at += usize::from(holds(byte));
        holds(byte).then_some(byte)
    }

    /// The CR or LF that ends a comment goes with it.
    fn pass_comments(&mut self) {
        while self.file.get(self.at) == Some(&b'#') {
            while self.file.get(self.at).is_some_and(|byte| !b"\r\n".contains(byte)) {
                self.at += 1;
            }
            self.at = (self.at + 1).min(self.file.len());
        }
    }
}

/// Blank, tab, LF, CR, VT and FF.
fn is_white(byte: u8) -> bool {
    b" \t\n\r\x0B\x0C".contains(&byte)
}

/// The header that is written: "each header field we write ends in one newline".
pub fn head(header: &Header) -> Vec<u8> {
    let Header { width, height, maximum, .. } = header;
    format!("P5\n{width}\n{height}\n{maximum}\n").into_bytes()
}
