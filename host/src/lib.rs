//! One grey page of a tray filtered along lines into another tray, as a job ticket orders.
//!
//! The filter itself is proved; see the repository. This crate makes it hard to call wrongly: buffers
//! are slices, so their lengths are right and they cannot overlap; every number of a placement is
//! named; the two pages of a job share one pair of sides; a ticket is no plain slice of bytes.
//!
//! ```
//! use sotrugla::{filter, Line, Operation, Page, Spot, Ticket};
//!
//! let ticket = Ticket::new(Operation::Open, Line::connected(1, 0), 2).encode();
//! let page = Page { offset: 1, width: 3, height: 1, stride: 3 };
//! let source = [77, 9, 1, 5, 77];
//! let mut output = [0; 3];
//! let mut scratch = vec![0; page.scratch_needed()];
//!
//! let work = filter(&ticket, page, &source, Spot { offset: 0, stride: 3 }, &mut output, &mut scratch)?;
//!
//! assert_eq!((work, output), (6, [1, 1, 5]));
//! # Ok::<(), sotrugla::Refused>(())
//! ```
//!
//! A whole tray is cleaned in one call: [`filter_tray`] takes a list of up to 256 such jobs, and answers each
//! of them. A page that arrives as a raw Netpbm grey file (P5) leaves as one: [`filter_pgm`] takes the
//! file's bytes and gives those of another.
//!
//! And of any pixel the crate names the reason why it comes out so: [`why`], [`Page::why`] and [`why_pgm`].
//!
//! # From another crate
//!
//! Sotrugla's `./build` comes first: it writes the library that this crate links. Then, in `Cargo.toml`,
//!
//! ```toml
//! [dependencies]
//! sotrugla = { path = "../sotrugla/host" }
//! ```
//!
//! A library that stands elsewhere, as by `./build --prefix DIR`, is named by the environment:
//! `SOTRUGLA_DIST=DIR`, a whole path from `/`. It must be of this crate's version.
//!
//! # Threads
//!
//! Threads may call at the same time. A call takes some 170,000 bytes of stack, so give a thread 256 KiB:
//! the 2 MiB that Rust gives one are enough.
//!
//! ```
//! use sotrugla::{filter_pgm, Line, Ticket};
//!
//! let small = std::thread::Builder::new().stack_size(256 * 1024);
//! let cleaned = small.spawn(|| {
//!     let ticket = Ticket::opening(Line::connected(1, 0), 2).encode();
//!     filter_pgm(&ticket, b"P5 3 1 9\n\x09\x01\x05")
//! })?;
//! assert_eq!(cleaned.join().unwrap().unwrap().file, b"P5\n3\n1\n9\n\x09\x01\x01");
//! # Ok::<(), std::io::Error>(())
//! ```

mod library;
mod page;
mod pgm;
mod reason;
mod refusal;
mod ticket;
mod tray;

pub use page::{filter, Page, Spot};
pub use pgm::{filter_pgm, read_pgm, Pgm, Written};
pub use reason::{why, why_pgm, Pixel, Reason};
pub use refusal::{Refusal, Refused};
pub use ticket::{HiddenBox, Line, Operation, Ticket, TicketBytes};
pub use tray::{filter_tray, TrayJob};

/// The version of this crate, which is that of the library it was built with.
pub const VERSION: &str = env!("CARGO_PKG_VERSION");

/// The version of the library that runs, as a number: 1000000 * major + 1000 * minor + patch.
///
/// ```
/// let numbers: Vec<u64> = sotrugla::VERSION.split('.').map(|word| word.parse().unwrap()).collect();
/// assert_eq!(sotrugla::version(), 1000000 * numbers[0] + 1000 * numbers[1] + numbers[2]);
/// ```
pub fn version() -> u64 {
    // SAFETY: the function takes nothing and touches no memory of ours.
    unsafe { library::sotrugla_version() }
}
