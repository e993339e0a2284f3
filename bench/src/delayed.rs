//! Panels with many costs.

use crate::dec::DecPanel;
use crate::panel::Panel;
use crate::place::{Cursor, Place, Size};

/// The deferred-wrap panel, with other delays.
#[derive(Clone, Copy)]
pub struct Delayed {
    pub panel: DecPanel,
    /// The milliseconds of each motion: at most 1,000.
    pub delay: fn(u16) -> u16,
}

/// A delay of its own for each motion.
pub fn spread(motion: u16) -> u16 {
    (u32::from(motion) * 577 % 1001) as u16
}

/// The same, but that all motions other than addresses are dear: so hardly anything costs less than an address, and yet
/// there is much to ask before that is known.
pub fn short_ones_dear(motion: u16) -> u16 {
    if motion < 207 { 900 } else { spread(motion) }
}

impl Panel for Delayed {
    fn size(&self) -> Size {
        self.panel.size()
    }

    fn motions(&self) -> u16 {
        self.panel.motions()
    }

    #[inline]
    fn landing(&self, motion: u16, from: Cursor) -> Option<Place> {
        self.panel.landing(motion, from)
    }

    fn spell(&self, motion: u16, bytes: &mut Vec<u8>) {
        self.panel.spell(motion, bytes);
    }

    fn milliseconds(&self, motion: u16) -> u16 {
        (self.delay)(motion)
    }

    fn after_print(&self, place: Place) -> Cursor {
        self.panel.after_print(place)
    }

    fn pen_bytes(&self, pen: u8) -> Vec<u8> {
        self.panel.pen_bytes(pen)
    }

    fn wipe_bytes(&self) -> Vec<u8> {
        self.panel.wipe_bytes()
    }
}
