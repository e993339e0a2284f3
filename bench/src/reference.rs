//! The same legs, found from their definition and without the searches' code: costs fall until no motion at the end of
//! a sequence lowers one any more, and then the leg is read back from the goal, by the order rule among all motions
//! that end a least sequence.
//!
//! The part before the last motion is the leg to where that departs. For raising that part never lowers the whole: so a
//! motion that ends some least sequence also ends one that begins with a leg.

use crate::cost::{ByteCost, Cost, Kind, LineCost};
use crate::described::Described;
use crate::place::{Cursor, Place};
use crate::searcher::{Price, Scene, Searcher};

pub struct Reference<C> {
    panel: Described,
    /// What each motion costs, and last the retype.
    costs: Vec<C>,
    motions: Vec<u16>,
}

pub fn by(kind: Kind, panel: Described) -> Box<dyn Searcher> {
    match kind {
        Kind::Byte => Box::new(Reference::<ByteCost>::new(panel)),
        Kind::Line => Box::new(Reference::<LineCost>::new(panel)),
    }
}

impl<C: Cost> Reference<C> {
    pub fn new(panel: Described) -> Reference<C> {
        let costs = panel
            .motions
            .iter()
            .map(|motion| C::of_motion(motion.bytes, motion.milliseconds));
        Reference {
            costs: costs.chain([C::of_motion(1, 0)]).collect(),
            panel,
            motions: Vec::new(),
        }
    }

    /// What the cheapest sequence to each place costs, and that the empty one to the start costs nothing. The last
    /// entry is a held start's.
    fn least(&self, scene: Scene, start: Cursor) -> Vec<Option<C>> {
        let places = self.panel.size.places();
        let mut least: Vec<Option<C>> = vec![None; places + 1];
        let mut fell = vec![self.number(start)];
        least[self.number(start)] = Some(C::ZERO);
        while !fell.is_empty() {
            let mut falls_now = vec![false; places];
            for from in fell {
                let before = least[from].expect("a place whose cost fell has one");
                for (motion, &cost) in self.costs.iter().enumerate() {
                    if let Some(to) = self.lands(scene, motion, self.cursor(from, start)) {
                        let cost = before.plus(cost);
                        if least[to].is_none_or(|known| cost < known) {
                            least[to] = Some(cost);
                            falls_now[to] = true;
                        }
                    }
                }
            }
            fell = (0..places).filter(|&to| falls_now[to]).collect();
        }
        least
    }

    /// The earliest motion that ends a least sequence, and where it departs.
    fn last(&self, scene: Scene, start: Cursor, least: &[Option<C>], goal: usize) -> (usize, usize) {
        for (motion, &cost) in self.costs.iter().enumerate() {
            for (from, before) in least.iter().enumerate() {
                if before.map(|before| before.plus(cost)) == least[goal]
                    && self.lands(scene, motion, self.cursor(from, start)) == Some(goal)
                {
                    return (motion, from);
                }
            }
        }
        unreachable!("a least sequence has a last motion")
    }

    fn number(&self, cursor: Cursor) -> usize {
        let size = self.panel.size;
        if cursor.held {
            size.places()
        } else {
            usize::from(cursor.place.row) * usize::from(size.columns) + usize::from(cursor.place.column)
        }
    }

    /// The only cursor that can be held is the start.
    fn cursor(&self, number: usize, start: Cursor) -> Cursor {
        let size = self.panel.size;
        let columns = usize::from(size.columns);
        if number == size.places() {
            start
        } else {
            Place::new((number / columns) as u8, (number % columns) as u8).resting()
        }
    }

    fn lands(&self, scene: Scene, motion: usize, from: Cursor) -> Option<usize> {
        let size = self.panel.size;
        let to = if let Some(motion) = self.panel.motions.get(motion) {
            motion.effect.leads(size, from)?
        } else {
            let next = from.place.column + 1;
            let retypes =
                !from.held && next < size.columns && scene.glass[self.number(from)].pen == scene.pen;
            retypes.then(|| Place::new(from.place.row, next))?
        };
        Some(self.number(to.resting()))
    }
}

impl<C: Cost> Searcher for Reference<C> {
    fn name(&self) -> &'static str {
        "reference"
    }

    fn find(&mut self, scene: Scene, start: Cursor, goal: Place) -> Option<Price> {
        self.motions.clear();
        let least = self.least(scene, start);
        let goal = self.number(goal.resting());
        let cost = least[goal]?;
        let mut to = goal;
        while to != self.number(start) {
            let (motion, from) = self.last(scene, start, &least, to);
            self.motions.push(motion as u16);
            to = from;
        }
        self.motions.reverse();
        Some(cost.price())
    }

    fn motions(&self) -> &[u16] {
        &self.motions
    }
}
