//! Sotrugla's second program: document 01, and of document 02 what has landed, read once more, as
//! plainly and as slowly as possible.
//!
//! Nothing here is fast on purpose. Every pixel walks its own line, every line is listed and
//! counted step by step, so that each function can be held against its sentence in the document.
//!
//! - `refusal`: the numbers of the refusals, and a refusal with its place
//! - `ticket`: ticket bytes to fields or a refusal
//! - `placement`: limits, fitting, the byte of a pixel, the scratch a page needs
//! - `lines`: the pixel one step on, a pixel's number on its line, every line of a page
//! - `filter`: erosion, dilation, opening and closing with absent pixels
//! - `work`: the comparisons of a job, counted block by block
//! - `flip`: the flipped job of wish 2, and what was printed for both, side by side
//! - `job`: a whole job, its answer and the later contents of output tray and scratch
//! - `pgm`: a P5 file to its header or a refusal, and the header that is written
//! - `file_job`: a whole job on a P5 file
//! - `tray`: a whole list of jobs in one call
//! - `reason`: why a pixel came out so
//! - `page_program`: standard input of the page program to what it must print
//! - `ticket_list`, `number_list`, `job_list`, `file_list`, `tray_list`, `question_list`: the same
//!   for the programs that read tickets, number steps, run jobs, run jobs on files, run whole lists
//!   of jobs, and answer questions about pixels
//! - `marks`, `tray_marks`, `reason_marks`: what a summary counts of a job, of a list of jobs, and of
//!   a question
//! - `random`, `generate`: seeded inputs of every kind, for this and for other programs
//! - `program`: another program run once, held to a time limit
//! - `trial`: what was printed held against what was due
//! - `drivers`: each kind of program run over generated inputs
//!
//! The library's own job program is `host.c`, beside this source, its program for jobs on files is
//! `file_host.c`, its program for lists of jobs `tray_host.c`, and its program for questions
//! `why_host.c`.

pub mod drivers;
pub mod file_job;
pub mod file_list;
pub mod filter;
pub mod flip;
pub mod generate;
pub mod job;
pub mod job_list;
pub mod lines;
pub mod marks;
pub mod number_list;
pub mod page_program;
pub mod pgm;
pub mod placement;
pub mod program;
pub mod question_list;
pub mod random;
pub mod reason;
pub mod reason_marks;
pub mod refusal;
pub mod ticket;
pub mod ticket_list;
pub mod tray;
pub mod tray_list;
pub mod tray_marks;
pub mod trial;
pub mod work;
