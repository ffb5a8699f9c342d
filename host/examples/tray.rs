//! Filters the pages of a tray in one call and prints a line for each job of the list: `done W` and the pixels
//! row by row, or `refused N at P`; a refusal's sentence goes to standard error. A list that is refused has one
//! such line. Standard input is inputs of the page program, one behind the other: each is width, height and
//! ticket length, two bytes each, big-endian, then the ticket, then the pixels row by row.

use sotrugla::{filter_tray, Page, Refused, TicketBytes, TrayJob};
use std::error::Error;
use std::io::{self, Read};

/// The pages with their tickets, and the tray in which each stands behind those before.
#[derive(Default)]
struct Given {
    pages: Vec<(TicketBytes, Page)>,
    tray: Vec<u8>,
}

/// So many bytes, and what is left behind them.
fn cut(input: &[u8], count: usize) -> Option<(&[u8], &[u8])> {
    Some((input.get(..count)?, &input[count..]))
}

fn read(mut input: &[u8]) -> Option<Given> {
    let mut given = Given::default();
    while !input.is_empty() {
        let (head, rest) = cut(input, 6)?;
        let number = |at| usize::from(u16::from_be_bytes([head[at], head[at + 1]]));
        let (ticket, rest) = cut(rest, number(4))?;
        let (pixels, rest) = cut(rest, number(0) * number(2))?;
        let page = Page { offset: given.tray.len(), ..Page::alone(number(0), number(2)) };
        given.pages.push((ticket.to_vec().into(), page));
        given.tray.extend(pixels);
        input = rest;
    }
    Some(given)
}

/// A job on a page, which goes to the output as it stands in its tray.
fn job((ticket, page): &(TicketBytes, Page)) -> TrayJob<'_> {
    TrayJob { ticket, page: *page, spot: page.spot() }
}

fn print_refused(refused: Refused) {
    println!("refused {} at {}", refused.refusal.number(), refused.place);
    eprintln!("{}", refused.sentence);
}

fn print(answer: Result<u64, Refused>, pixels: &[u8]) {
    match answer {
        Err(refused) => print_refused(refused),
        Ok(work) => {
            print!("done {work}");
            pixels.iter().for_each(|pixel| print!(" {pixel}"));
            println!();
        }
    }
}

fn main() -> Result<(), Box<dyn Error>> {
    let mut input = Vec::new();
    io::stdin().read_to_end(&mut input)?;
    let Given { pages, tray } = read(&input).ok_or("bad input")?;
    let jobs: Vec<_> = pages.iter().map(job).collect();
    let needed = jobs.iter().map(|job| job.page.scratch_needed()).max();
    let (mut output, mut scratch) = (vec![0; tray.len()], vec![0; needed.unwrap_or(0)]);
    match filter_tray(&jobs, &tray, &mut output, &mut scratch) {
        Err(refused) => print_refused(refused),
        Ok(answers) => {
            for (answer, (_, page)) in answers.into_iter().zip(&pages) {
                print(answer, &output[page.offset..][..page.width * page.height]);
            }
        }
    }
    Ok(())
}
