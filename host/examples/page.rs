//! Filters one page in the middle of a tray and prints what the page program prints for it: `done W`
//! and the rows, or `refused N at P`; a refusal's sentence goes to standard error. Standard input is
//! the page program's.

use sotrugla::{filter, Page, Refused, TicketBytes};
use std::error::Error;
use std::io::{self, Read};

/// Where the page stands in both trays: neither at their start nor without padding.
const OFFSET: usize = 100;
const PADDING: usize = 7;

/// Bytes that no page may depend on.
const NEIGHBOUR: u8 = 0xA5;

struct Job {
    ticket: TicketBytes,
    page: Page,
    tray: Vec<u8>,
}

/// Width, height and ticket length, two bytes each, big-endian, then the ticket, then the pixels.
fn read(input: &[u8]) -> Option<Job> {
    let number = |at| Some(usize::from(u16::from_be_bytes([*input.get(at)?, *input.get(at + 1)?])));
    let (width, height) = (number(0)?, number(2)?);
    let end = 6 + number(4)?;
    let page = Page { offset: OFFSET, width, height, stride: width + PADDING };
    let mut tray = vec![NEIGHBOUR; OFFSET + height * page.stride];
    for row in 0..height {
        let pixels = input.get(end + row * width..end + (row + 1) * width)?;
        tray[OFFSET + row * page.stride..][..width].copy_from_slice(pixels);
    }
    Some(Job { ticket: input.get(6..end)?.to_vec().into(), page, tray })
}

fn print(answer: Result<u64, Refused>, page: Page, output: &[u8]) {
    match answer {
        Err(refused) => {
            println!("refused {} at {}", refused.refusal.number(), refused.place);
            eprintln!("{}", refused.sentence);
        }
        Ok(work) => {
            println!("done {work}");
            for row in 0..page.height {
                let pixels = &output[page.offset + row * page.stride..][..page.width];
                println!("{}", pixels.iter().map(u8::to_string).collect::<Vec<_>>().join(" "));
            }
        }
    }
}

fn main() -> Result<(), Box<dyn Error>> {
    let mut input = Vec::new();
    io::stdin().read_to_end(&mut input)?;
    let Job { ticket, page, tray } = read(&input).ok_or("bad input")?;
    let mut output = vec![NEIGHBOUR; tray.len()];
    let mut scratch = vec![0; page.scratch_needed()];
    let answer = filter(&ticket, page, &tray, page.spot(), &mut output, &mut scratch);
    print(answer, page, &output);
    Ok(())
}
