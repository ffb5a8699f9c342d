//! Job tickets: built field by field and encoded, or read.

use crate::library;
use crate::refusal::{judged, Refused};

/// What is done along the lines.
#[derive(Clone, Copy, Debug, PartialEq, Eq)]
pub enum Operation {
    Erode = 1,
    Dilate = 2,
    Open = 3,
    Close = 4,
}

const OPERATIONS: [Operation; 4] =
    [Operation::Erode, Operation::Dilate, Operation::Open, Operation::Close];

/// The lines along which a page is filtered.
///
/// The vector is shallow (dx at least 1, dy from -dx to dx) or steep (dy at least 1, dx between -dy and
/// dy), each component within -255 to 255. Rising and falling lines are mirror images: for a page and boxes
/// flipped top to bottom with dy negated (left to right with dx negated where the vector is steep), the
/// result is the flipped result, and the work is the same.
#[derive(Clone, Copy, Debug, PartialEq, Eq)]
pub enum Line {
    /// Bresenham's line; dx and dy have no common divisor above 1. The phase is below the larger of
    /// the two components' sizes.
    Connected { dx: i16, dy: i16, phase: u16 },
    /// One step adds the vector.
    Periodic { dx: i16, dy: i16 },
}

impl Line {
    /// A connected line of phase 0.
    pub fn connected(dx: i16, dy: i16) -> Line {
        Line::Connected { dx, dy, phase: 0 }
    }

    pub fn periodic(dx: i16, dy: i16) -> Line {
        Line::Periodic { dx, dy }
    }

    /// As the ticket has it: the line's number, dx, dy and the phase.
    fn numbers(self) -> (u8, i16, i16, u16) {
        match self {
            Line::Connected { dx, dy, phase } => (1, dx, dy, phase),
            Line::Periodic { dx, dy } => (2, dx, dy, 0),
        }
    }
}

/// A box whose pixels are hidden: no result depends on them, and they come out white.
#[derive(Clone, Copy, Debug, PartialEq, Eq)]
pub struct HiddenBox {
    pub left: u16,
    pub top: u16,
    pub width: u16,
    pub height: u16,
}

/// A ticket to be encoded, or as read. The middle of a segment is its step `length / 2`.
///
/// ```
/// use sotrugla::{HiddenBox, Line, Operation, Ticket};
///
/// let ticket = Ticket::closing(Line::connected(1, 0), 5)
///     .hide(HiddenBox { left: 6, top: 3, width: 2, height: 1 });
/// assert_eq!((ticket.operation(), ticket.origin()), (Operation::Close, 2));
/// assert_eq!(ticket.encode().as_bytes().len(), 30 + 11);
/// ```
#[derive(Clone, Debug, PartialEq, Eq)]
pub struct Ticket {
    operation: Operation,
    line: Line,
    length: u16,
    origin: u16,
    boxes: Vec<HiddenBox>,
}

impl Ticket {
    /// A segment of so many steps, 1 to 8192, with its origin at its first step.
    pub fn new(operation: Operation, line: Line, length: u16) -> Ticket {
        Ticket { operation, line, length, origin: 0, boxes: Vec::new() }
    }

    /// An erosion with the origin in the middle of its segment.
    pub fn erosion(line: Line, length: u16) -> Ticket {
        Ticket::centred(Operation::Erode, line, length)
    }

    /// A dilation with the origin in the middle of its segment.
    pub fn dilation(line: Line, length: u16) -> Ticket {
        Ticket::centred(Operation::Dilate, line, length)
    }

    /// An opening with the origin in the middle of its segment.
    pub fn opening(line: Line, length: u16) -> Ticket {
        Ticket::centred(Operation::Open, line, length)
    }

    /// A closing with the origin in the middle of its segment.
    pub fn closing(line: Line, length: u16) -> Ticket {
        Ticket::centred(Operation::Close, line, length)
    }

    fn centred(operation: Operation, line: Line, length: u16) -> Ticket {
        Ticket::new(operation, line, length).with_origin(length / 2)
    }

    /// With the origin at another step of the segment, below its length.
    pub fn with_origin(mut self, origin: u16) -> Ticket {
        self.origin = origin;
        self
    }

    /// Hides one more box, of at most 64.
    pub fn hide(mut self, hidden: HiddenBox) -> Ticket {
        self.boxes.push(hidden);
        self
    }

    pub fn operation(&self) -> Operation {
        self.operation
    }

    pub fn line(&self) -> Line {
        self.line
    }

    /// The steps of the segment.
    pub fn length(&self) -> u16 {
        self.length
    }

    /// The origin's step in the segment.
    pub fn origin(&self) -> u16 {
        self.origin
    }

    /// The hidden boxes, in the ticket's order.
    pub fn boxes(&self) -> &[HiddenBox] {
        &self.boxes
    }

    /// The ticket's bytes. Whether its values are allowed is for the proved reader to say.
    pub fn encode(&self) -> TicketBytes {
        let (line, dx, dy, phase) = self.line.numbers();
        let mut bytes = Vec::new();
        put(&mut bytes, 1, &[self.operation as u8]);
        put(&mut bytes, 2, &[line]);
        put(&mut bytes, 3, &[dx.to_be_bytes(), dy.to_be_bytes()].concat());
        put(&mut bytes, 4, &self.length.to_be_bytes());
        put(&mut bytes, 5, &self.origin.to_be_bytes());
        put(&mut bytes, 6, &phase.to_be_bytes());
        for hidden in &self.boxes {
            let HiddenBox { left, top, width, height } = *hidden;
            put(&mut bytes, 7, &[left, top, width, height].map(u16::to_be_bytes).concat());
        }
        TicketBytes(bytes)
    }
}

/// A field: its tag, its length and its value.
fn put(bytes: &mut Vec<u8>, tag: u8, value: &[u8]) {
    bytes.push(tag);
    bytes.extend((value.len() as u16).to_be_bytes());
    bytes.extend(value);
}

/// An encoded ticket, built here or received from elsewhere: any bytes will do, as every string of
/// bytes gets an answer. It is a type of its own so that no page is passed as a ticket.
#[derive(Clone, Debug, PartialEq, Eq)]
pub struct TicketBytes(Vec<u8>);

impl TicketBytes {
    pub fn as_bytes(&self) -> &[u8] {
        &self.0
    }

    /// Reads the ticket alone, with refusals 1 to 9. Its boxes are not held to a page: that is for the
    /// job to do.
    ///
    /// ```
    /// use sotrugla::{Line, Operation, Refusal, Ticket, TicketBytes};
    ///
    /// let ticket = Ticket::new(Operation::Erode, Line::connected(3, -2), 7).with_origin(3);
    /// assert_eq!(ticket.encode().read(), Ok(ticket));
    /// assert_eq!(TicketBytes::from(vec![1, 0]).read().unwrap_err().refusal, Refusal::TicketEnds);
    /// ```
    pub fn read(&self) -> Result<Ticket, Refused> {
        let mut numbers = [0; library::NUMBERS];
        // SAFETY: each pointer and length is one slice's, and nothing overlaps the array lent here.
        let outcome = unsafe {
            let (ticket, length) = (self.0.as_ptr(), self.0.len());
            library::sotrugla_read_ticket(ticket, length, numbers.as_mut_ptr(), numbers.len())
        };
        judged(outcome.refusal, outcome.place).map_err(|refused| refused.of_ticket(&self.0))?;
        Ok(shown(&numbers))
    }

    /// Whether a box of the ticket holds the pixel: such a pixel comes out white in every finished
    /// page. A refused ticket hides nothing, and boxes are not held to a page. Each call reads the
    /// whole ticket.
    ///
    /// ```
    /// use sotrugla::{HiddenBox, Line, Operation, Ticket, TicketBytes};
    ///
    /// let ticket = Ticket::new(Operation::Close, Line::connected(1, 0), 5)
    ///     .hide(HiddenBox { left: 6, top: 3, width: 2, height: 1 })
    ///     .encode();
    /// assert!(ticket.hides(7, 3));
    /// assert!(!ticket.hides(3, 7) && !ticket.hides(8, 3));
    /// assert!(!TicketBytes::from(vec![1, 0]).hides(7, 3));
    /// ```
    pub fn hides(&self, column: usize, row: usize) -> bool {
        let (ticket, length) = (self.0.as_ptr(), self.0.len());
        // SAFETY: pointer and length are one slice's, which is only read.
        unsafe { library::sotrugla_is_hidden(ticket, length, column, row) != 0 }
    }
}

/// The numbers of a ticket that was not refused: each is within its field's limits.
fn shown(numbers: &[i64; library::NUMBERS]) -> Ticket {
    let [operation, line, dx, dy, length, origin, phase, count, places @ ..] = *numbers;
    let (dx, dy) = (dx as i16, dy as i16);
    let line = match line {
        1 => Line::Connected { dx, dy, phase: phase as u16 },
        _ => Line::Periodic { dx, dy },
    };
    let hidden = |place: &[i64]| HiddenBox {
        left: place[0] as u16,
        top: place[1] as u16,
        width: place[2] as u16,
        height: place[3] as u16,
    };
    Ticket {
        operation: OPERATIONS[operation as usize - 1],
        line,
        length: length as u16,
        origin: origin as u16,
        boxes: places.chunks_exact(4).take(count as usize).map(hidden).collect(),
    }
}

impl From<Vec<u8>> for TicketBytes {
    fn from(bytes: Vec<u8>) -> TicketBytes {
        TicketBytes(bytes)
    }
}
