//! A panel for the tests of what no sequence leads to.

use legs_bench::panel::Panel;
use legs_bench::place::{Cursor, Place, Size};

/// A panel whose only motion is to the left, and whose cursor stays in the last column.
#[derive(Clone, Copy)]
pub struct Leftward {
    pub size: Size,
}

impl Panel for Leftward {
    fn size(&self) -> Size {
        self.size
    }

    fn motions(&self) -> u16 {
        1
    }

    fn landing(&self, _: u16, from: Cursor) -> Option<Place> {
        from.place.left_of(1)
    }

    fn spell(&self, _: u16, bytes: &mut Vec<u8>) {
        bytes.push(0x08);
    }

    fn milliseconds(&self, _: u16) -> u16 {
        0
    }

    fn after_print(&self, place: Place) -> Cursor {
        self.size.right_of(place, 1).unwrap_or(place).resting()
    }

    fn pen_bytes(&self, _: u8) -> Vec<u8> {
        Vec::new()
    }

    fn wipe_bytes(&self) -> Vec<u8> {
        Vec::new()
    }
}
