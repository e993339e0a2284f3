//! Plans: the bytes that bring a panel from the picture that it shows to a wanted one.

use std::ops::Range;

use crate::panel::Panel;
use crate::place::{Cursor, Place, Size};
use crate::searcher::{Cell, Scene, Searcher};
use crate::sending::send;

/// Where a panel stands between two plans: the place of its cursor, which is not held, and the pen now set.
#[derive(Clone, Copy, Debug, PartialEq, Eq)]
pub struct Stand {
    pub place: Place,
    pub pen: u8,
}

impl Stand {
    pub const WIPED: Stand = Stand {
        place: Place::new(0, 0),
        pen: 0,
    };
}

#[derive(Clone, Debug, PartialEq, Eq)]
pub struct Plan {
    pub bytes: Vec<u8>,
    /// The pen that is set after them.
    pub pen: u8,
}

/// How far a plan has come: what the glass has by now, the cursor, the pen now set, and the bytes.
struct Progress<'a, P> {
    panel: &'a P,
    legs: &'a mut dyn Searcher,
    glass: Vec<Cell>,
    cursor: Cursor,
    pen: u8,
    bytes: Vec<u8>,
}

/// The plan from one picture to another, or the first goal that no sequence leads to.
pub fn plan<P: Panel>(
    panel: &P,
    legs: &mut dyn Searcher,
    shown: &[Cell],
    wanted: &[Cell],
    start: Stand,
    rest: Place,
) -> Result<Plan, Place> {
    let size = panel.size();
    let mut progress = Progress {
        panel,
        legs,
        glass: shown.to_vec(),
        cursor: start.place.resting(),
        pen: start.pen,
        bytes: Vec::new(),
    };
    for run in runs(size, shown, wanted) {
        let first = size.place_at(run.start as u16).expect("a run is on the panel");
        progress.go(first)?;
        progress.draw(run, wanted);
    }
    progress.go(rest)?;
    Ok(Plan {
        bytes: progress.bytes,
        pen: progress.pen,
    })
}

/// The longest stretches of neighbouring cells in one row in which two pictures differ, by the numbers of their places.
pub fn runs(size: Size, shown: &[Cell], wanted: &[Cell]) -> Vec<Range<usize>> {
    let mut runs: Vec<Range<usize>> = Vec::new();
    for number in 0..size.places() {
        if shown[number] == wanted[number] {
            continue;
        }
        match runs.last_mut() {
            Some(run) if run.end == number && number % usize::from(size.columns) != 0 => run.end += 1,
            _ => runs.push(number..number + 1),
        }
    }
    runs
}

impl<P: Panel> Progress<'_, P> {
    /// Takes the leg to a place, or answers the place where no sequence leads there.
    fn go(&mut self, goal: Place) -> Result<(), Place> {
        let scene = Scene {
            glass: &self.glass,
            pen: self.pen,
        };
        self.legs.find(scene, self.cursor, goal).ok_or(goal)?;
        let motions = self.legs.motions();
        send(self.panel, scene, self.cursor, motions, &mut self.bytes)
            .expect("the motions of a leg are offered");
        self.cursor = goal.resting();
        Ok(())
    }

    /// Draws a run from its first cell on, where the cursor is.
    fn draw(&mut self, run: Range<usize>, wanted: &[Cell]) {
        for number in run {
            let cell = wanted[number];
            if cell.pen != self.pen {
                self.bytes.extend(self.panel.pen_bytes(cell.pen));
                self.pen = cell.pen;
            }
            self.bytes.push(cell.code);
            self.glass[number] = cell;
            self.cursor = self.panel.after_print(self.cursor.place);
        }
    }
}
