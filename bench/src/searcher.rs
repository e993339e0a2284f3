//! The interface of everything that finds legs.

use std::hint::black_box;
use std::time::{Duration, Instant};

use crate::place::{Cursor, Place};

/// A code, 20h to 7Eh, and a pen.
#[derive(Clone, Copy, Debug, PartialEq, Eq)]
#[repr(C)]
pub struct Cell {
    pub code: u8,
    pub pen: u8,
}

impl Cell {
    pub const BLANK: Cell = Cell { code: b' ', pen: 0 };
}

/// What legs depend on besides the panel: the cell at each place, and the pen now set.
#[derive(Clone, Copy)]
pub struct Scene<'a> {
    pub glass: &'a [Cell],
    pub pen: u8,
}

/// What a leg costs: the milliseconds, 0 where they do not count, and the bytes.
#[derive(Clone, Copy, Debug, PartialEq, Eq)]
pub struct Price {
    pub milliseconds: u32,
    pub bytes: u16,
}

#[derive(Clone, Debug, PartialEq, Eq)]
pub struct Found {
    pub price: Price,
    /// The numbers of the motions, the first one first. The retype has the number after the panel's own.
    pub motions: Vec<u16>,
}

pub trait Searcher {
    fn name(&self) -> &'static str;

    /// Finds the leg from a cursor to a place, or that no sequence leads there.
    fn find(&mut self, scene: Scene, start: Cursor, goal: Place) -> Option<Price>;

    /// The motions of the leg that was found last.
    fn motions(&self) -> &[u16];

    fn leg(&mut self, scene: Scene, start: Cursor, goal: Place) -> Option<Found> {
        let price = self.find(scene, start, goal)?;
        Some(Found {
            price,
            motions: self.motions().to_vec(),
        })
    }

    /// The time that it takes to find the leg so many times in a row, for one time.
    fn time(&mut self, scene: Scene, start: Cursor, goal: Place, copies: u32) -> Duration {
        let begin = Instant::now();
        for _ in 0..copies {
            black_box(self.find(black_box(scene), black_box(start), black_box(goal)));
        }
        begin.elapsed() / copies
    }
}
