//! Says of each pixel of a page why it comes out so: a line for each, row by row, or `refused N at P`; a
//! refusal's sentence goes to standard error. Standard input is the page program's.

use sotrugla::{Page, Pixel, Refused, TicketBytes};
use std::error::Error;
use std::io::{self, Read};

struct Job<'a> {
    ticket: TicketBytes,
    page: Page,
    pixels: &'a [u8],
}

/// Width, height and ticket length, two bytes each, big-endian, then the ticket, then the pixels.
fn read(input: &[u8]) -> Option<Job<'_>> {
    let number = |at| Some(usize::from(u16::from_be_bytes([*input.get(at)?, *input.get(at + 1)?])));
    let (page, end) = (Page::alone(number(0)?, number(2)?), 6 + number(4)?);
    let pixels = input.get(end..end + page.width * page.height)?;
    Some(Job { ticket: input.get(6..end)?.to_vec().into(), page, pixels })
}

fn tell(job: &Job) -> Result<(), Refused> {
    // A refused job is refused for its first pixel, even where it has none.
    for at in 0..(job.page.width * job.page.height).max(1) {
        let width = job.page.width.max(1);
        let pixel = Pixel { column: at % width, row: at / width };
        println!("{}", job.page.why(&job.ticket, job.pixels, pixel)?);
    }
    Ok(())
}

fn main() -> Result<(), Box<dyn Error>> {
    let mut input = Vec::new();
    io::stdin().read_to_end(&mut input)?;
    if let Err(refused) = tell(&read(&input).ok_or("bad input")?) {
        println!("refused {} at {}", refused.refusal.number(), refused.place);
        eprintln!("{}", refused.sentence);
    }
    Ok(())
}
