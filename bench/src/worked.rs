//! Legs whose bytes were worked out by hand, on a blank glass with pen 0 set.

use crate::cost::Kind;
use crate::dec::DecPanel;
use crate::place::{Cursor, Place};
use crate::questions::{SIZE, blank_glass};
use crate::searcher::{Scene, Searcher};
use crate::sending::send;

#[derive(Debug)]
pub struct Worked {
    pub kind: Kind,
    pub start: Cursor,
    pub goal: Place,
    pub bytes: &'static [u8],
}

/// Held in the last column of the first row.
const HELD: Cursor = Cursor {
    place: Place::new(0, 79),
    held: true,
};
const FIRST: Cursor = Cursor {
    place: Place::new(0, 0),
    held: false,
};

pub const WORKED: [Worked; 4] = [
    Worked {
        kind: Kind::Byte,
        start: FIRST,
        goal: Place::new(0, 4),
        bytes: b"\x1B[4C",
    },
    Worked {
        kind: Kind::Line,
        start: FIRST,
        goal: Place::new(0, 5),
        bytes: b"     ",
    },
    Worked {
        kind: Kind::Byte,
        start: HELD,
        goal: Place::new(0, 79),
        bytes: b"\r\x1B[79C",
    },
    Worked {
        kind: Kind::Byte,
        start: HELD,
        goal: Place::new(1, 0),
        bytes: b"\r\n",
    },
];

impl Worked {
    /// Whether a searcher of this kind finds it.
    pub fn is_found_by(&self, searcher: &mut dyn Searcher) -> bool {
        let glass = blank_glass();
        let scene = Scene {
            glass: &glass,
            pen: 0,
        };
        let panel = DecPanel { size: SIZE };
        let found = searcher.leg(scene, self.start, self.goal);
        found.is_some_and(|found| {
            let mut bytes = Vec::new();
            let end = send(&panel, scene, self.start, &found.motions, &mut bytes);
            end == Some(self.goal.resting()) && bytes == self.bytes
        })
    }
}
