//! Legs whose answers are known.

mod leftward;

use leftward::Leftward;
use legs_bench::cost::{ByteCost, Kind};
use legs_bench::dec::DecPanel;
use legs_bench::described;
use legs_bench::place::{Place, Size};
use legs_bench::questions::{SIZE, blank_glass, filled_glass};
use legs_bench::reference;
use legs_bench::searcher::{Cell, Found, Price, Scene, Searcher};
use legs_bench::ways::Way;
use legs_bench::worked::WORKED;

const WAYS: [Way; 3] = [Way::Twin, Way::ByRows, Way::Lazily];

/// All unproved searches.
fn unproved(kind: Kind) -> [Box<dyn Searcher>; 3] {
    WAYS.map(|way| way.by(kind, DecPanel { size: SIZE }))
}

#[test]
fn worked_legs() {
    for worked in &WORKED {
        for mut searcher in unproved(worked.kind) {
            assert!(worked.is_found_by(searcher.as_mut()), "{worked:?}");
        }
        let mut reference = reference::by(worked.kind, described::dec(SIZE));
        assert!(worked.is_found_by(reference.as_mut()), "{worked:?}");
    }
}

#[test]
fn nothing_leads_from_a_place_to_itself() {
    let glass = filled_glass();
    let place = Place::new(7, 30);
    let scene = Scene {
        glass: &glass,
        pen: 0,
    };
    for mut searcher in unproved(Kind::Byte) {
        let found = searcher.leg(scene, place.resting(), place);
        assert_eq!(found, bytes(&[], 0));
    }
}

/// From the second row to the third, with the cursor in column 0: a feed and a return cost the same in either order.
/// The return is the last motion, as its number is smaller.
#[test]
fn among_equals_the_last_motion_has_the_smallest_number() {
    let glass = blank_glass();
    let scene = Scene {
        glass: &glass,
        pen: 0,
    };
    for mut searcher in unproved(Kind::Byte) {
        let found = searcher.leg(scene, Place::new(1, 9).resting(), Place::new(2, 0));
        assert_eq!(found, bytes(&[2, 0], 2));
    }
}

/// To the right there is only the retype, and only where the cell has the pen now set.
#[test]
fn no_sequence_leads_there() {
    let glass = [0, 1, 0].map(|pen| Cell { code: b'A', pen });
    let scene = Scene {
        glass: &glass,
        pen: 0,
    };
    let first = Place::new(0, 0).resting();
    let panel = Leftward {
        size: Size { rows: 1, columns: 3 },
    };
    for way in WAYS {
        let mut searcher = way.on::<ByteCost>(panel);
        assert_eq!(searcher.leg(scene, first, Place::new(0, 1)), bytes(&[1], 1));
        assert_eq!(searcher.leg(scene, first, Place::new(0, 2)), None);
    }
}

/// A leg by the byte cost.
fn bytes(motions: &[u16], bytes: u16) -> Option<Found> {
    Some(Found {
        price: Price {
            milliseconds: 0,
            bytes,
        },
        motions: motions.to_vec(),
    })
}
