//! Where motions land, the retype too, for the unproved searches. Each wants these written into its loop.

use crate::panel::Panel;
use crate::place::{Cursor, Place, Size};
use crate::searcher::Scene;

/// The number of a cursor: its place's, and for a held one the number of places.
#[inline]
pub fn numbered(size: Size, cursor: Cursor) -> usize {
    if cursor.held {
        size.places()
    } else {
        size.number(cursor.place)
    }
}

#[inline(always)]
pub fn landing(panel: &impl Panel, scene: Scene, motion: u16, from: Cursor) -> Option<Place> {
    if motion == panel.motions() {
        retype(panel.size(), scene, from)
    } else {
        panel.landing(motion, from)
    }
}

/// Where the retype lands: a column on, if the cell on the glass here has the pen now set.
#[inline]
fn retype(size: Size, scene: Scene, from: Cursor) -> Option<Place> {
    if from.held || scene.glass[size.number(from.place)].pen != scene.pen {
        return None;
    }
    size.right_of(from.place, 1)
}
