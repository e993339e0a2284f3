//! The bytes of sequences of motions.

use crate::panel::Panel;
use crate::place::Cursor;
use crate::searcher::Scene;

/// Appends the bytes of a sequence from a cursor, as long as each motion is offered where the one before it landed.
/// Answers where the last one lands, if all are. The retype sends the code of the cell on the glass.
pub fn send(
    panel: &impl Panel,
    scene: Scene,
    start: Cursor,
    motions: &[u16],
    bytes: &mut Vec<u8>,
) -> Option<Cursor> {
    let size = panel.size();
    let mut here = start;
    for &motion in motions {
        let to = if motion == panel.motions() {
            let place = here.place;
            bytes.push(scene.glass[size.number(place)].code);
            size.right_of(place, 1)
        } else {
            panel.spell(motion, bytes);
            panel.landing(motion, here)
        };
        here = to?.resting();
    }
    Some(here)
}
