//! Document 01, "Placing a page". All sums are over whole numbers: u128 holds an offset near the
//! end of 64 bits and what is added to it, so the sum cannot look small.

use crate::lines::{Pixel, Sides};

/// "w and h 1 to 8192".
pub const LONGEST_SIDE: u64 = 8192;
/// "stride from w to 16384".
pub const LONGEST_STRIDE: u64 = 16384;

#[derive(Clone, Copy, Debug, PartialEq, Eq)]
pub struct Placement {
    pub offset: u64,
    pub width: u64,
    pub height: u64,
    pub stride: u64,
}

impl Placement {
    pub fn within_limits(&self) -> bool {
        let side = 1..=LONGEST_SIDE;
        let stride = self.width..=LONGEST_STRIDE;
        side.contains(&self.width) && side.contains(&self.height) && stride.contains(&self.stride)
    }

    /// One past the page's last byte. Asked only within limits, so h-1 is not below 0.
    pub fn end(&self) -> u128 {
        let rows_before = u128::from(self.height - 1) * u128::from(self.stride);
        u128::from(self.offset) + rows_before + u128::from(self.width)
    }

    /// Asked only of sides within the limits.
    pub fn sides(&self) -> Sides {
        Sides { width: self.width as i64, height: self.height as i64 }
    }

    pub fn fits(&self, tray_length: u64) -> bool {
        self.end() <= u128::from(tray_length)
    }

    /// The byte of a pixel; asked only of a page that fits.
    pub fn byte(&self, pixel: Pixel) -> usize {
        (self.offset + pixel.row as u64 * self.stride + pixel.column as u64) as usize
    }

    /// The page's greys, row by row; asked only of a page that fits this tray.
    pub fn greys(&self, tray: &[u8]) -> Vec<u8> {
        self.sides().pixels().into_iter().map(|pixel| tray[self.byte(pixel)]).collect()
    }
}

/// "2·w·h + 3·max(w, h) bytes"; asked only of sides within 32 bits.
pub fn scratch_needed(width: u64, height: u64) -> u128 {
    let (width, height) = (u128::from(width), u128::from(height));
    2 * width * height + 3 * width.max(height)
}
