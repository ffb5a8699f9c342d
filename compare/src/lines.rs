//! Document 01, "Lines", with the D of wish 2: one step on a line, and what follows from walking
//! step by step.

use crate::ticket::{Ticket, PERIODIC};

#[derive(Clone, Copy, Debug, Default, PartialEq, Eq, PartialOrd, Ord)]
pub struct Pixel {
    pub column: i64,
    pub row: i64,
}

#[derive(Clone, Copy, Debug, PartialEq, Eq)]
pub struct Sides {
    pub width: i64,
    pub height: i64,
}

impl Sides {
    pub fn on_page(&self, at: Pixel) -> bool {
        (0..self.width).contains(&at.column) && (0..self.height).contains(&at.row)
    }

    /// All pixels, row by row.
    pub fn pixels(&self) -> Vec<Pixel> {
        let columns = |row| (0..self.width).map(move |column| Pixel { column, row });
        (0..self.height).flat_map(columns).collect()
    }
}

/// All lines that one ticket lays over a page.
#[derive(Clone, Copy, Debug, PartialEq, Eq)]
pub struct Lines {
    pub kind: u8,
    pub dx: i64,
    pub dy: i64,
    pub phase: i64,
}

/// The way along a line: with its vector, or against it.
#[derive(Clone, Copy, Debug, PartialEq, Eq)]
pub enum Way {
    Ahead,
    Behind,
}

/// D(c) for a shallow vector, as wish 2 has it: "D takes the sign of dy and rounds the size with
/// ties away from zero, so (2, -1) gives 0 -1 -1 -2". This replaces 01's floor, which sent a tie to
/// the larger row; they differ only at a tie where dy is below 0.
///
/// The size is c·abs dy / dx. Document 01 asks for D at a page's columns and at phases, never below
/// 0, and there adding one half and dropping the fraction sends a tie away from zero. A walk behind
/// also asks left of column 0, to learn that it left the page, which it did whatever the row. There
/// the same sum is rounded towards minus infinity (Euclid's division, as dx is at least 1), so that
/// D(c + dx) = D(c) + dy, lines do not turn round, and -dy gives -D(c), for every c.
pub fn nearest_row(c: i64, dx: i64, dy: i64) -> i64 {
    dy.signum() * (2 * c * dy.abs() + dx).div_euclid(2 * dx)
}

impl Lines {
    pub fn of(ticket: &Ticket) -> Lines {
        let (dx, dy) = (i64::from(ticket.dx), i64::from(ticket.dy));
        Lines { kind: ticket.line, dx, dy, phase: i64::from(ticket.phase) }
    }

    pub fn shallow(&self) -> bool {
        self.dx >= 1 && self.dy.abs() <= self.dx
    }

    /// The major component, along which a connected line steps pixel by pixel, and the minor one.
    pub fn major_and_minor(&self) -> (i64, i64) {
        if self.shallow() {
            (self.dx, self.dy)
        } else {
            (self.dy, self.dx)
        }
    }

    /// The shift D(c+i) - D(i) at column c; at row c, with dx and dy exchanged, when steep.
    fn shift(&self, c: i64) -> i64 {
        let (major, minor) = self.major_and_minor();
        nearest_row(c + self.phase, major, minor) - nearest_row(self.phase, major, minor)
    }

    /// The pixel one step along the way, on the page or off it.
    pub fn step(&self, way: Way, at: Pixel) -> Pixel {
        let Pixel { column, row } = at;
        let one = if way == Way::Ahead { 1 } else { -1 };
        if self.kind == PERIODIC {
            Pixel { column: column + one * self.dx, row: row + one * self.dy }
        } else if self.shallow() {
            let moved = self.shift(column + one) - self.shift(column);
            Pixel { column: column + one, row: row + moved }
        } else {
            let moved = self.shift(row + one) - self.shift(row);
            Pixel { column: column + moved, row: row + one }
        }
    }

    /// The in-page pixels from the next one along the way to the page's edge, nearest first. A
    /// line that left the page never comes back, as neither its columns nor its rows turn round.
    pub fn walk(&self, sides: Sides, from: Pixel, way: Way) -> impl Iterator<Item = Pixel> {
        let lines = *self;
        let step = move |at: &Pixel| Some(lines.step(way, *at));
        std::iter::successors(Some(from), step).skip(1).take_while(move |at| sides.on_page(*at))
    }

    /// A pixel's number on its line: how many in-page steps lie behind it.
    pub fn number(&self, sides: Sides, pixel: Pixel) -> usize {
        self.walk(sides, pixel, Way::Behind).count()
    }

    /// How many in-page steps come after a pixel on its line.
    pub fn after(&self, sides: Sides, pixel: Pixel) -> usize {
        self.walk(sides, pixel, Way::Ahead).count()
    }

    /// Every line of the page, each as its in-page pixels from step 0 to step n-1.
    pub fn every_line(&self, sides: Sides) -> Vec<Vec<Pixel>> {
        let mut lines = Vec::new();
        for first in sides.pixels() {
            if !sides.on_page(self.step(Way::Behind, first)) {
                let mut line = vec![first];
                line.extend(self.walk(sides, first, Way::Ahead));
                lines.push(line);
            }
        }
        lines
    }
}
