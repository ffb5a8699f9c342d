//! The command line of the second program; `USAGE` says what each word does.

use std::io::{self, Read, Write};
use std::process::ExitCode;

use compare::drivers::Driver;
use compare::page_program::reply;
use compare::{drivers, file_list, generate, job_list, number_list, question_list};
use compare::{ticket_list, tray_list};

const USAGE: &str = "usage:
  compare page                            read a page program's input, print what it must print
  compare ticket                          read a ticket, print its fields or its refusal
  compare ticket-list                     read a ticket program's input, print what it must print
  compare number-list                     read a number program's input, print what it must print
  compare job-list                        read a job program's input, print what it must print
  compare file-list                       read a file program's input, print what it must print
  compare tray-list                       read a tray program's input, print what it must print
  compare question-list                   read a question program's input, print what it must print
  compare make SEED INDEX                 write one generated input of a page program
  compare make-jobs SEED FIRST COUNT      write generated jobs, an input of a job program
  compare make-flips SEED FIRST COUNT     write other such jobs, each followed by its flipped job
  compare make-files SEED FIRST COUNT     write generated jobs on files, an input of a file program
  compare make-lists SEED FIRST COUNT     write generated lists of jobs, an input of a tray program
  compare make-questions SEED FIRST COUNT write generated questions, an input of a question program
PROGRAM may be several words, the program and its arguments:
  compare pages SEED COUNT PROGRAM..      run a page program over generated inputs and compare
  compare tickets SEED COUNT PROGRAM..    run a ticket program over generated tickets and compare
  compare numbers SEED COUNT PROGRAM..    run a number program over generated samples and compare
  compare jobs SEED COUNT PROGRAM..       run a job program over generated jobs and compare
  compare flips SEED COUNT PROGRAM..      run a job program over generated jobs and their flipped
                                          jobs, compare, and hold the two to one another
  compare files SEED COUNT PROGRAM..      run a file program over generated files and compare
  compare lists SEED COUNT PROGRAM..      run a tray program over generated lists and compare
  compare questions SEED COUNT PROGRAM..  run a question program over generated questions and compare";

fn main() -> ExitCode {
    let words: Vec<String> = std::env::args().skip(1).collect();
    let words: Vec<&str> = words.iter().map(String::as_str).collect();
    let done = did(&words).unwrap_or_else(|| {
        eprintln!("{USAGE}");
        Ok(ExitCode::from(2))
    });
    done.unwrap_or_else(|error| {
        eprintln!("compare: {error}");
        ExitCode::from(2)
    })
}

/// Does what the words say; nothing if they say nothing.
fn did(words: &[&str]) -> Option<io::Result<ExitCode>> {
    Some(match *words {
        ["page"] => answer(|input| reply(input).printed()),
        ["ticket"] => answer(ticket_list::line),
        ["ticket-list"] => answer(ticket_list::printed),
        ["number-list"] => answer(number_list::printed),
        ["make", seed, index] => print(&generate::page_input(number(seed)?, number(index)?)),
        ["job-list"] => answer(job_list::printed),
        ["file-list"] => answer(file_list::printed),
        ["tray-list"] => answer(tray_list::printed),
        ["question-list"] => answer(question_list::printed),
        [word, seed, first, count] if word.starts_with("make-") => {
            print_all(entry(word)?, number(seed)?, number(first)?, number(count)?)
        }
        [word, seed, count, ref program @ ..] if !program.is_empty() => {
            drive(driver(word)?, number(seed)?, number(count)?, program)
        }
        _ => return None,
    })
}

fn number(word: &str) -> Option<u64> {
    word.parse().ok()
}

/// Prints what is due for the whole standard input.
fn answer(due: impl Fn(&[u8]) -> String) -> io::Result<ExitCode> {
    let mut input = Vec::new();
    io::stdin().read_to_end(&mut input)?;
    print(due(&input).as_bytes())
}

fn print(bytes: &[u8]) -> io::Result<ExitCode> {
    let mut out = io::stdout();
    out.write_all(bytes)?;
    out.flush()?;
    Ok(ExitCode::SUCCESS)
}

/// What a list has for one seed and index.
type Entry = fn(u64, u64) -> Vec<u8>;

fn entry(word: &str) -> Option<Entry> {
    match word {
        "make-jobs" => Some(|seed, index| job_list::entry(&generate::job(seed, index))),
        "make-flips" => Some(|seed, index| {
            generate::flip_pair(seed, index).map(|job| job_list::entry(&job)).concat()
        }),
        "make-files" => Some(|seed, index| file_list::entry(&generate::file_job(seed, index).job)),
        "make-lists" => Some(|seed, index| tray_list::entry(&generate::tray_call(seed, index))),
        "make-questions" => {
            Some(|seed, index| question_list::entry(&generate::question(seed, index)))
        }
        _ => None,
    }
}

/// Prints the entries of a list from the first index on.
fn print_all(entry: Entry, seed: u64, first: u64, count: u64) -> io::Result<ExitCode> {
    let entries = (first..first.saturating_add(count)).flat_map(|index| entry(seed, index));
    print(&entries.collect::<Vec<u8>>())
}

fn driver(word: &str) -> Option<Driver> {
    match word {
        "pages" => Some(drivers::pages),
        "tickets" => Some(drivers::tickets),
        "numbers" => Some(drivers::numbers),
        "jobs" => Some(drivers::jobs),
        "flips" => Some(drivers::flips),
        "files" => Some(drivers::files),
        "lists" => Some(drivers::lists),
        "questions" => Some(drivers::questions),
        _ => None,
    }
}

fn drive(driver: Driver, seed: u64, count: u64, program: &[&str]) -> io::Result<ExitCode> {
    let trial = driver(seed, count, program)?;
    print(trial.summary().as_bytes())?;
    Ok(ExitCode::from(u8::from(trial.failed())))
}
