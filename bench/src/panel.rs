//! What searches and plans ask of a panel.

use crate::place::{Cursor, Place, Size};

pub trait Panel {
    fn size(&self) -> Size;

    /// How many motions there are. They are numbered from 0.
    fn motions(&self) -> u16;

    /// Where a motion lands from a cursor, if it is offered there.
    fn landing(&self, motion: u16, from: Cursor) -> Option<Place>;

    /// Appends the bytes of a motion: 1 to 16 of them.
    fn spell(&self, motion: u16, bytes: &mut Vec<u8>);

    fn milliseconds(&self, motion: u16) -> u16;

    /// The cursor after a code was printed at a place.
    fn after_print(&self, place: Place) -> Cursor;

    fn pen_bytes(&self, pen: u8) -> Vec<u8>;

    fn wipe_bytes(&self) -> Vec<u8>;
}
