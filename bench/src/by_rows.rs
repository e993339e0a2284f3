//! A peer: it settles the cheapest place, looks where all the motions lead from there, and ends when the goal is
//! settled. The cheapest place of each row is kept, and looked for again when a place of that row is settled.
//!
//! Every motion adds to the cost, so a place's predecessors in least sequences are all settled before it, and the
//! order rule can be kept as a running minimum: among the ways that cost the same, the last motion with the smallest
//! number, and then the one from the place with the smallest number. Motions are taken in the order of their costs,
//! so a scan can stop where the goal has been reached for less.

use crate::cost::Cost;
use crate::landing::{landing, numbered};
use crate::order::{self, Offer};
use crate::panel::Panel;
use crate::place::{Cursor, MOST_ROWS, Place};
use crate::searcher::{Price, Scene, Searcher};
use crate::ways::Way;

pub struct ByRows<P, C> {
    panel: P,
    order: Vec<Offer>,
    /// One for each place, and after them one for a held start.
    labels: Vec<Label<C>>,
    motions: Vec<u16>,
}

/// The best way to a place that is known so far.
#[derive(Clone, Copy)]
struct Label<C> {
    cost: C,
    motion: u16,
    from: u16,
    state: State,
}

#[derive(Clone, Copy, PartialEq, Eq)]
#[repr(u8)]
enum State {
    Unreached,
    Reached,
    /// The way is the leg.
    Settled,
}

/// The cheapest of each row's places that are reached and not settled, by its cost and column.
struct Frontier<C> {
    rows: [Option<(C, u8)>; MOST_ROWS],
}

impl<C: Cost> Label<C> {
    const UNREACHED: Label<C> = Label {
        cost: C::ZERO,
        motion: 0,
        from: 0,
        state: State::Unreached,
    };

    /// Whether a way comes before the one known: by its cost, and then by the order rule.
    fn yields_to(&self, cost: C, motion: u16, from: u16) -> bool {
        self.state == State::Unreached
            || cost < self.cost
            || cost == self.cost && (motion, from) < (self.motion, self.from)
    }
}

impl<C: Cost> Frontier<C> {
    const EMPTY: Frontier<C> = Frontier {
        rows: [None; MOST_ROWS],
    };

    fn add(&mut self, place: Place, cost: C) {
        let row = &mut self.rows[usize::from(place.row)];
        if row.is_none_or(|(least, _)| cost < least) {
            *row = Some((cost, place.column));
        }
    }

    fn cheapest(&self) -> Option<Place> {
        let mut best: Option<(C, Place)> = None;
        for (row, cheapest) in self.rows.iter().enumerate() {
            if let Some((cost, column)) = *cheapest
                && best.is_none_or(|(least, _)| cost < least)
            {
                best = Some((cost, Place::new(row as u8, column)));
            }
        }
        best.map(|(_, place)| place)
    }

    /// Looks through a row again, after one of its places was settled.
    fn rescan(&mut self, row: u8, labels: &[Label<C>]) {
        let mut best: Option<(C, u8)> = None;
        for (column, label) in labels.iter().enumerate() {
            if label.state == State::Reached && best.is_none_or(|(least, _)| label.cost < least) {
                best = Some((label.cost, column as u8));
            }
        }
        self.rows[usize::from(row)] = best;
    }
}

impl<P: Panel, C: Cost> ByRows<P, C> {
    const FITS: () = assert!(size_of::<Label<C>>() <= 16);

    pub fn new(panel: P) -> ByRows<P, C> {
        let () = Self::FITS;
        let places = panel.size().places();
        ByRows {
            order: order::in_order::<C>(&panel),
            labels: vec![Label::UNREACHED; places + 1],
            motions: Vec::with_capacity(places),
            panel,
        }
    }

    /// Settles the leg from the start to the goal, if there is one, and every part of it.
    fn settle(&mut self, scene: Scene, start: Cursor, goal: Place) -> Option<C> {
        let size = self.panel.size();
        let goal = size.number(goal);
        self.labels.fill(Label::UNREACHED);
        let mut frontier = Frontier::EMPTY;
        let mut here = start;
        let mut number = numbered(size, start);
        self.labels[number].state = State::Settled;
        while number != goal {
            self.scan(scene, here, number, goal, &mut frontier);
            here = frontier.cheapest()?.resting();
            number = numbered(size, here);
            self.labels[number].state = State::Settled;
            let row = number - usize::from(here.place.column);
            frontier.rescan(here.place.row, &self.labels[row..row + usize::from(size.columns)]);
        }
        Some(self.labels[goal].cost)
    }

    /// Takes the motions from a settled place, as long as they can belong to the leg.
    fn scan(&mut self, scene: Scene, here: Cursor, number: usize, goal: usize, frontier: &mut Frontier<C>) {
        let size = self.panel.size();
        let so_far = self.labels[number].cost;
        let from = number as u16;
        let mut best = (self.labels[goal].state == State::Reached).then_some(self.labels[goal].cost);
        for offer in &self.order {
            let cost = so_far.plus(offer.cost());
            if best.is_some_and(|best| cost > best) {
                break;
            }
            let motion = offer.motion;
            let Some(to) = landing(&self.panel, scene, motion, here) else {
                continue;
            };
            let label = &mut self.labels[size.number(to)];
            if label.yields_to(cost, motion, from) {
                *label = Label {
                    cost,
                    motion,
                    from,
                    state: State::Reached,
                };
                frontier.add(to, cost);
                if size.number(to) == goal {
                    best = Some(cost);
                }
            }
        }
    }

    /// Keeps the motions of a leg that is settled.
    fn trace(&mut self, start: Cursor, goal: Place) {
        let size = self.panel.size();
        let mut number = size.number(goal);
        while number != numbered(size, start) {
            self.motions.push(self.labels[number].motion);
            number = usize::from(self.labels[number].from);
        }
        self.motions.reverse();
    }
}

impl<P: Panel, C: Cost> Searcher for ByRows<P, C> {
    fn name(&self) -> &'static str {
        Way::ByRows.name()
    }

    fn find(&mut self, scene: Scene, start: Cursor, goal: Place) -> Option<Price> {
        self.motions.clear();
        let cost = self.settle(scene, start, goal)?;
        self.trace(start, goal);
        Some(cost.price())
    }

    fn motions(&self) -> &[u16] {
        &self.motions
    }
}
