//! The ticket of document 01: ticket bytes to fields, or the refusal (1 to 9) with its place.

use crate::refusal::{self, Refusal};

pub const ERODE: u8 = 1;
pub const DILATE: u8 = 2;
pub const OPEN: u8 = 3;
pub const CLOSE: u8 = 4;

pub const CONNECTED: u8 = 1;
pub const PERIODIC: u8 = 2;

/// "0 to 64 fields of tag 7".
pub const BOX_PLACES: usize = 64;
/// "segment length L, 1 to 8192".
pub const LONGEST_SEGMENT: u16 = 8192;
/// "each component within -255 to 255".
pub const LARGEST_COMPONENT: i64 = 255;

/// A head is "a one-byte tag, a two-byte length".
const HEAD: usize = 3;
pub const BOX_TAG: u8 = 7;
/// The length due for each tag; tag 0 does not exist.
const VALUE_LENGTH: [usize; 8] = [0, 1, 1, 4, 2, 2, 2, 8];

#[derive(Clone, Copy, Debug, Default, PartialEq, Eq)]
pub struct HiddenBox {
    pub left: u16,
    pub top: u16,
    pub width: u16,
    pub height: u16,
}

/// The fields of a ticket. Box places past `count` hold zero.
#[derive(Clone, Copy, Debug, PartialEq, Eq)]
pub struct Ticket {
    pub operation: u8,
    pub line: u8,
    pub dx: i16,
    pub dy: i16,
    pub length: u16,
    pub origin: u16,
    pub phase: u16,
    pub count: u8,
    pub boxes: [HiddenBox; BOX_PLACES],
}

impl Ticket {
    /// What a refused ticket shows: "at a refusal all fields and boxes are zero".
    pub fn zero() -> Ticket {
        let boxes = [HiddenBox::default(); BOX_PLACES];
        let (dx, dy, length, origin, phase) = (0, 0, 0, 0, 0);
        Ticket { operation: 0, line: 0, dx, dy, length, origin, phase, count: 0, boxes }
    }

    pub fn hidden_boxes(&self) -> &[HiddenBox] {
        &self.boxes[..usize::from(self.count)]
    }
}

/// What a caller who reads a ticket alone is shown, for any bytes at all: refusal number 0 and
/// the fields, or the refusal and zero fields.
pub fn shown(bytes: &[u8]) -> (Refusal, Ticket) {
    match read(bytes) {
        Ok(ticket) => (Refusal { number: refusal::NONE, place: 0 }, ticket),
        Err(refusal) => (refusal, Ticket::zero()),
    }
}

/// Reads the fields one by one; the first that fails decides the refusal. Later values lean on
/// earlier ones: the vector on the line, o on L, the phase on line and vector.
pub fn read(bytes: &[u8]) -> Result<Ticket, Refusal> {
    let mut ticket = Ticket::zero();
    let mut reader = Reader { bytes, head: 0, next: 0 };
    ticket.operation = reader.field(1, false)?[0];
    reader.judge((ERODE..=CLOSE).contains(&ticket.operation), refusal::UNKNOWN_WORD)?;
    ticket.line = reader.field(2, false)?[0];
    reader.judge((CONNECTED..=PERIODIC).contains(&ticket.line), refusal::UNKNOWN_WORD)?;
    let vector = reader.field(3, false)?;
    (ticket.dx, ticket.dy) = (number(vector) as i16, number(&vector[2..]) as i16);
    let allowed = vector_allowed(ticket.line, i64::from(ticket.dx), i64::from(ticket.dy));
    reader.judge(allowed, refusal::VECTOR)?;
    ticket.length = number(reader.field(4, false)?);
    reader.judge((1..=LONGEST_SEGMENT).contains(&ticket.length), refusal::SEGMENT_LENGTH)?;
    ticket.origin = number(reader.field(5, false)?);
    reader.judge(ticket.origin < ticket.length, refusal::ORIGIN)?;
    ticket.phase = number(reader.field(6, false)?);
    reader.judge(phase_allowed(&ticket), refusal::PHASE)?;
    while reader.next < bytes.len() {
        let count = usize::from(ticket.count);
        let value = reader.field(BOX_TAG, count == BOX_PLACES)?;
        let [left, top, width, height] = [0, 2, 4, 6].map(|at| number(&value[at..]));
        ticket.boxes[count] = HiddenBox { left, top, width, height };
        ticket.count += 1;
    }
    Ok(ticket)
}

/// The field being judged starts at `head`, the one after it at `next`.
struct Reader<'a> {
    bytes: &'a [u8],
    head: usize,
    next: usize,
}

impl<'a> Reader<'a> {
    /// "Head complete (1), tag (2), 65th box (5), length (3), value complete (1)", in this order;
    /// gives the value, which the caller judges.
    fn field(&mut self, due: u8, places_full: bool) -> Result<&'a [u8], Refusal> {
        self.head = self.next;
        let rest = &self.bytes[self.head..];
        let length = VALUE_LENGTH[usize::from(due)];
        self.judge(rest.len() >= HEAD, refusal::TICKET_ENDS)?;
        self.judge(rest[0] == due, refusal::WRONG_TAG)?;
        self.judge(!places_full, refusal::BOX_65)?;
        self.judge(usize::from(number(&rest[1..])) == length, refusal::WRONG_LENGTH)?;
        self.judge(rest.len() >= HEAD + length, refusal::TICKET_ENDS)?;
        self.next += HEAD + length;
        Ok(&rest[HEAD..HEAD + length])
    }

    fn judge(&self, passes: bool, number: u8) -> Result<(), Refusal> {
        refusal::unless(passes, number, self.head as u64)
    }
}

/// Shallow or steep, within limits, and for a connected line without a common divisor above 1.
pub fn vector_allowed(line: u8, dx: i64, dy: i64) -> bool {
    let within = dx.abs() <= LARGEST_COMPONENT && dy.abs() <= LARGEST_COMPONENT;
    let shallow = dx >= 1 && dy.abs() <= dx;
    let steep = dy >= 1 && dx.abs() < dy;
    // Every divisor is tried; 0 is divided by all, so (5, 0) falls and (1, 0) stands.
    let common_divisor = (2..=LARGEST_COMPONENT).any(|d| dx % d == 0 && dy % d == 0);
    within && (shallow || steep) && (line == PERIODIC || !common_divisor)
}

/// "Connected, below max(abs dx, abs dy); periodic, 0".
fn phase_allowed(ticket: &Ticket) -> bool {
    if ticket.line == PERIODIC {
        return ticket.phase == 0;
    }
    ticket.phase < ticket.dx.unsigned_abs().max(ticket.dy.unsigned_abs())
}

/// The big-endian number in the first two bytes.
fn number(bytes: &[u8]) -> u16 {
    u16::from_be_bytes([bytes[0], bytes[1]])
}
