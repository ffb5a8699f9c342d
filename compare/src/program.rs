//! Another program, named with its arguments, run once over one input and held to a time limit.

use std::io::{self, Read, Write};
use std::os::unix::process::ExitStatusExt;
use std::process::{Child, Command, Stdio};
use std::sync::mpsc;
use std::thread;
use std::time::{Duration, Instant};

/// No generated input keeps a sound program busy for so long.
pub const TIME_LIMIT: Duration = Duration::from_secs(10);
/// More than any answer; past it the pipe breaks, so that endless printing ends.
const MOST_PRINTED: u64 = 1 << 26;
/// How long to wait for the last words of a stopped program.
const LAST_WORDS: Duration = Duration::from_millis(200);

pub struct Run {
    pub printed: Vec<u8>,
    /// How the program ended if not by itself: a difference even where its text is right.
    pub flaw: Option<String>,
}

/// Input and output have threads of their own: a program that prints before it has read all
/// would otherwise stand still together with us. No thread is waited for past the limit, as a
/// program's own children may keep a pipe open after its end.
pub fn run(program: &[&str], input: &[u8], limit: Duration) -> io::Result<Run> {
    let deadline = Instant::now() + limit;
    let mut command = Command::new(program[0]);
    command.args(&program[1..]).stdin(Stdio::piped()).stdout(Stdio::piped());
    let mut child = command.spawn()?;
    let mut stdin = child.stdin.take().expect("standard input is piped");
    let stdout = child.stdout.take().expect("standard output is piped");
    let bytes = input.to_vec();
    // A program may stop reading early; the broken pipe is no difference, its output decides.
    thread::spawn(move || stdin.write_all(&bytes).is_ok());
    let (sender, receiver) = mpsc::channel();
    thread::spawn(move || {
        let mut printed = Vec::new();
        let read = stdout.take(MOST_PRINTED).read_to_end(&mut printed);
        read.is_ok() && sender.send(printed).is_ok()
    });
    let in_time = receiver.recv_timeout(limit).ok();
    let stopped = !ends_by(&mut child, deadline)? || in_time.is_none();
    child.kill()?;
    let status = child.wait()?;
    let last_words = || receiver.recv_timeout(LAST_WORDS).unwrap_or_default();
    let printed = in_time.unwrap_or_else(last_words);
    let flaw = match status.signal() {
        _ if stopped => Some(format!("was stopped after {limit:?}")),
        Some(signal) => Some(format!("ended by signal {signal}")),
        None => None,
    };
    Ok(Run { printed, flaw })
}

/// Whether the program ends before the deadline.
fn ends_by(child: &mut Child, deadline: Instant) -> io::Result<bool> {
    while child.try_wait()?.is_none() {
        if Instant::now() >= deadline {
            return Ok(false);
        }
        thread::sleep(Duration::from_micros(50));
    }
    Ok(true)
}
