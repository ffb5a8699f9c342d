//! What another program printed, held against what was due.

use std::fmt::Write as _;
use std::io;

use crate::program::{self, Run, TIME_LIMIT};

/// Differences told in full; the rest are only counted.
const TOLD: u64 = 3;
/// Of a longer text only the beginning is told: its seed and index make it again.
const LONGEST_TOLD: usize = 1 << 14;
/// In a run of so many inputs every kind that is required must be due.
const ENOUGH: u64 = 5000;

/// One generated input, as it is told, and the text due for it.
pub struct Due {
    pub index: u64,
    pub input: String,
    pub text: String,
}

pub struct Trial {
    pub seed: u64,
    pub inputs: u64,
    /// What the inputs are, as the summary names them.
    pub what: &'static str,
    pub differences: u64,
    /// Runs among them that ended by a signal or at the time limit.
    pub bad_ends: u64,
    /// How often each kind of answer was due, also those that never were.
    pub tally: Vec<(String, u64)>,
    /// Kinds without which a long run fails: what makes the inputs has lost them.
    pub required: Vec<String>,
}

impl Trial {
    pub fn new(seed: u64, inputs: u64, what: &'static str) -> Trial {
        let (differences, bad_ends, tally, required) = (0, 0, Vec::new(), Vec::new());
        Trial { seed, inputs, what, differences, bad_ends, tally, required }
    }

    pub fn count(&mut self, kind: &str, times: u64) {
        match self.tally.iter_mut().find(|(known, _)| known == kind) {
            Some((_, sum)) => *sum += times,
            None => self.tally.push((kind.to_string(), times)),
        }
    }

    /// Counts the marks that hold, and names the others too.
    pub fn count_marks(&mut self, marks: &[(String, bool)]) {
        marks.iter().for_each(|(mark, holds)| self.count(mark, u64::from(*holds)));
    }

    /// Kinds that the summary shall name even if they never are due.
    pub fn expect(&mut self, kinds: &[&str]) {
        kinds.iter().for_each(|kind| self.count(kind, 0));
    }

    pub fn expect_refusals(&mut self, last: u8) {
        (1..=last).for_each(|number| self.count(&format!("refused {number}"), 0));
    }

    /// A kind that must be due once at least in a long run.
    pub fn require(&mut self, kind: &str) {
        self.count(kind, 0);
        self.required.push(kind.to_string());
    }

    /// The required kinds that a long run did not meet.
    pub fn missed(&self) -> Vec<&str> {
        let never =
            self.tally.iter().filter(|(kind, sum)| *sum == 0 && self.required.contains(kind));
        let enough = self.inputs >= ENOUGH;
        never.map(|(kind, _)| kind.as_str()).filter(|_| enough).collect()
    }

    pub fn failed(&self) -> bool {
        self.differences > 0 || !self.missed().is_empty()
    }

    /// Runs a program once, for all that is due in this run. Each text due is one line, but the
    /// last, which must be all the rest. A bad end is told at the first line that is not whole, or
    /// at the last; what would come later is left out. Gives back what was printed for each.
    pub fn ask(
        &mut self,
        program: &[&str],
        input: &[u8],
        dues: &[Due],
    ) -> io::Result<Vec<Vec<u8>>> {
        let Run { printed, flaw } = program::run(program, input, TIME_LIMIT)?;
        let parts = parts(&printed, dues.len());
        let end = parts.iter().position(|part| !part.ends_with(b"\n")).unwrap_or(dues.len() - 1);
        for (at, (due, part)) in dues.iter().zip(&parts).enumerate() {
            if flaw.is_some() && at == end {
                self.differ(due, part, flaw);
                break;
            }
            self.hold(due, part);
        }
        Ok(parts.into_iter().map(<[u8]>::to_vec).collect())
    }

    /// Holds what was printed to what is due.
    pub fn hold(&mut self, due: &Due, printed: &[u8]) {
        if due.text.as_bytes() != printed {
            self.differ(due, printed, None);
        }
    }

    /// Prints the first differences at once, not with the summary: more runs may take long.
    fn differ(&mut self, due: &Due, part: &[u8], flaw: Option<String>) {
        self.differences += 1;
        self.bad_ends += u64::from(flaw.is_some());
        // The first bad ends are told even if many texts differed before.
        if TOLD < if flaw.is_some() { self.bad_ends } else { self.differences } {
            return;
        }
        println!("difference at seed {} index {}", self.seed, due.index);
        let (input, text) = (due.input.as_bytes(), due.text.as_bytes());
        println!("input {}\ndue:\n{}", told(input), told(text));
        let alike = text.iter().zip(part).take_while(|(due, printed)| due == printed).count();
        println!("printed, right up to byte {alike}:\n{}", told(part));
        if let Some(flaw) = flaw {
            println!("the program {flaw}");
        }
    }

    /// One line for all inputs, one for each kind of answer, one for each kind that was missed, and
    /// one for runs that ended badly.
    pub fn summary(&self) -> String {
        let (inputs, what, differences) = (self.inputs, self.what, self.differences);
        let mut text = format!("{inputs} {what}, {differences} differences\n");
        for (kind, times) in &self.tally {
            text += &format!("{kind}: {times}\n");
        }
        for kind in self.missed() {
            text += &format!("never met: {kind}\n");
        }
        text + &format!("ended by a signal or at the time limit: {}\n", self.bad_ends)
    }
}

/// The first lines of a text, each with its newline, and as the last part all the rest.
fn parts(mut text: &[u8], count: usize) -> Vec<&[u8]> {
    let mut parts = Vec::new();
    while parts.len() + 1 < count {
        let end = text.iter().position(|&byte| byte == b'\n').map_or(text.len(), |at| at + 1);
        let (line, rest) = text.split_at(end);
        parts.push(line);
        text = rest;
    }
    parts.push(text);
    parts
}

fn told(text: &[u8]) -> String {
    let (beginning, rest) = text.split_at(text.len().min(LONGEST_TOLD));
    let more = if rest.is_empty() { String::new() } else { format!(" and {} more", rest.len()) };
    String::from_utf8_lossy(beginning).to_string() + &more
}

pub fn hex(bytes: &[u8]) -> String {
    let mut text = String::with_capacity(2 * bytes.len());
    bytes.iter().for_each(|byte| write!(text, "{byte:02x}").expect("a text takes all"));
    text
}
