//! Closes the page of a raw Netpbm grey file (P5) along its rows, one box of it hidden: the file is
//! standard input, the closed page as another such file standard output. A refusal goes to standard error
//! as its number, place and sentence, and the exit status is then 1.

use sotrugla::{filter_pgm, HiddenBox, Line, Refused, Ticket};
use std::io::{self, Read, Write};
use std::process::ExitCode;

fn main() -> io::Result<ExitCode> {
    let ticket = Ticket::closing(Line::connected(1, 0), 5)
        .hide(HiddenBox { left: 6, top: 3, width: 2, height: 1 })
        .encode();
    let mut file = Vec::new();
    io::stdin().read_to_end(&mut file)?;
    match filter_pgm(&ticket, &file) {
        Ok(written) => io::stdout().write_all(&written.file)?,
        Err(Refused { refusal, place, sentence }) => {
            eprintln!("refused {} at {place}: {sentence}", refusal.number());
            return Ok(ExitCode::FAILURE);
        }
    }
    Ok(ExitCode::SUCCESS)
}
