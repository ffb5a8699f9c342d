//! Document 01, "The four filters", pixel by pixel.

use crate::lines::{Lines, Pixel, Sides, Way};
use crate::ticket::{HiddenBox, Ticket, CLOSE, DILATE, ERODE, OPEN};

/// A page between passes, row by row. A hidden pixel has no value at all, so that no pass can
/// take the white it comes out with for a grey.
pub struct Page {
    pub sides: Sides,
    greys: Vec<Option<u8>>,
}

impl Page {
    /// The page that a first pass finds, out of its greys row by row.
    pub fn unhidden(sides: Sides, greys: &[u8], boxes: &[HiddenBox]) -> Page {
        let unhidden = |(at, &grey): (Pixel, &u8)| (!hidden(boxes, at)).then_some(grey);
        Page { sides, greys: sides.pixels().into_iter().zip(greys).map(unhidden).collect() }
    }

    /// The page that a pass makes of this one.
    pub fn after(&self, ticket: &Ticket, pass: Pass) -> Page {
        let results = self.sides.pixels().into_iter().map(|at| self.result(ticket, pass, at));
        Page { sides: self.sides, greys: results.collect() }
    }

    pub fn grey(&self, at: Pixel) -> Option<u8> {
        self.greys[(at.row * self.sides.width + at.column) as usize]
    }

    /// The extreme over the present steps of one pixel's window; nothing if the pixel is hidden.
    pub fn result(&self, ticket: &Ticket, pass: Pass, pixel: Pixel) -> Option<u8> {
        let (lines, window) = (Lines::of(ticket), pass.window(ticket));
        let mut extreme = self.grey(pixel)?;
        for (way, reach) in [(Way::Behind, window.behind), (Way::Ahead, window.ahead)] {
            // A step over a hidden pixel counts towards the reach, and its grey is skipped.
            let steps = lines.walk(self.sides, pixel, way).take(reach);
            for grey in steps.filter_map(|at| self.grey(at)) {
                extreme = pass.extreme(extreme, grey);
            }
        }
        Some(extreme)
    }
}

/// Whether a pixel lies in this box.
pub fn holds(hidden_box: &HiddenBox, at: Pixel) -> bool {
    let (left, top) = (i64::from(hidden_box.left), i64::from(hidden_box.top));
    let (width, height) = (i64::from(hidden_box.width), i64::from(hidden_box.height));
    (left..left + width).contains(&at.column) && (top..top + height).contains(&at.row)
}

/// Whether a pixel lies in one of the boxes.
pub fn hidden(boxes: &[HiddenBox], at: Pixel) -> bool {
    boxes.iter().any(|hidden_box| holds(hidden_box, at))
}

/// One pass of an operation.
#[derive(Clone, Copy, Debug, PartialEq, Eq)]
pub enum Pass {
    Erosion,
    Dilation,
}

/// A window reaches this many steps behind its pixel and this many ahead.
#[derive(Clone, Copy, Debug, PartialEq, Eq)]
pub struct Window {
    pub behind: usize,
    pub ahead: usize,
}

impl Pass {
    pub fn of(operation: u8) -> &'static [Pass] {
        match operation {
            ERODE => &[Pass::Erosion],
            DILATE => &[Pass::Dilation],
            OPEN => &[Pass::Erosion, Pass::Dilation],
            CLOSE => &[Pass::Dilation, Pass::Erosion],
            _ => panic!("a ticket that was read has one of the four operations"),
        }
    }

    /// Erosion: steps x-o to x-o+L-1. Dilation: steps x-(L-1-o) to x+o.
    pub fn window(self, ticket: &Ticket) -> Window {
        let (length, origin) = (usize::from(ticket.length), usize::from(ticket.origin));
        match self {
            Pass::Erosion => Window { behind: origin, ahead: length - 1 - origin },
            Pass::Dilation => Window { behind: length - 1 - origin, ahead: origin },
        }
    }

    pub fn extreme(self, one: u8, other: u8) -> u8 {
        match self {
            Pass::Erosion => one.min(other),
            Pass::Dilation => one.max(other),
        }
    }
}

/// The finished page, row by row, for a ticket that was read and whose boxes lie on the page. A
/// hidden pixel comes out as white, whatever number that is.
pub fn filtered(sides: Sides, greys: &[u8], ticket: &Ticket, white: u8) -> Vec<u8> {
    let mut page = Page::unhidden(sides, greys, ticket.hidden_boxes());
    for &pass in Pass::of(ticket.operation) {
        page = page.after(ticket, pass);
    }
    page.greys.iter().map(|grey| grey.unwrap_or(white)).collect()
}
