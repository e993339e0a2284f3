//! The unproved twin of the proved search: the same way to the same legs, in the same memory.
//!
//! The states that are reached stand in a line in the order of their costs. Of each class of motions of one cost, a
//! number says from which place of the line on it is due. Each turn takes the class that is due at the least cost, from
//! all states of one cost: so states are reached in the order of their costs, and the first way to one is a least one.
//!
//! A motion adds to the cost. So when the goal is reached, nothing else that is reached at that cost counts, and the
//! goal itself is improved by such motions alone as do not come later by their numbers.
//!
//! Where nearly each pair of a state and a class is a turn of its own, turns are dear. So a search that has taken as
//! many as it may, or too many for the few states that it has reached, begins anew and takes all motions of a state at
//! once.

use crate::agenda::{Agenda, Due};
use crate::at_once;
use crate::cost::Cost;
use crate::landing::{landing, numbered};
use crate::line::{Departure, Line};
use crate::order::Classes;
use crate::panel::Panel;
use crate::place::{Cursor, Place};
use crate::searcher::{Price, Scene, Searcher};
use crate::ways::Way;

/// So many turns may a search take: far more than it needs on a deferred-wrap panel.
const MOST_TURNS: u16 = 49152;
/// So many it may take however few states are reached.
const FEW_TURNS: u16 = 1024;
/// A turn takes as long as so many landings of motions that are taken at once.
const TURN: usize = 32;

pub struct Search<P, C> {
    panel: P,
    classes: Classes<C>,
    line: Line<C>,
    /// For each class, from which place of the line on it is due.
    next: Vec<u16>,
    agenda: Agenda<C>,
    most_turns: u16,
    motions: Vec<u16>,
}

impl<P: Panel, C: Cost> Search<P, C> {
    pub fn new(panel: P) -> Search<P, C> {
        let places = panel.size().places();
        let classes = Classes::new(&panel);
        Search {
            line: Line::new(places),
            next: vec![0; classes.classes.len()],
            agenda: Agenda::new(&classes.classes),
            most_turns: MOST_TURNS,
            motions: Vec::with_capacity(places),
            panel,
            classes,
        }
    }

    /// It may take so many turns in place of the usual number.
    pub fn with_most_turns(self, most_turns: u16) -> Search<P, C> {
        Search { most_turns, ..self }
    }

    /// Finds the least way to the goal, if there is one.
    fn run(&mut self, scene: Scene, start: Cursor, goal: usize) {
        if !self.run_in_turns(scene, start, goal) {
            at_once::run(&self.panel, &self.classes, &mut self.line, scene, start, goal);
        }
    }

    /// Takes classes in turns until the least way is found, or none. Tells whether there were enough turns for that.
    fn run_in_turns(&mut self, scene: Scene, start: Cursor, goal: usize) -> bool {
        self.line.begin(numbered(self.panel.size(), start));
        self.next.fill(0);
        self.agenda.begin(&self.classes.classes);
        let mut turns: u16 = 0;
        while let Some(due) = self.agenda.soonest() {
            let known = self.line.label(goal);
            if known.is_reached() && known.cost < due.cost {
                break;
            }
            if turns == self.most_turns || are_too_many(turns, self.line.count(), self.classes.classes.len())
            {
                return false;
            }
            self.turn(scene, start, goal, due);
            turns += 1;
        }
        true
    }

    /// Takes a class from the first state from which it is due and from all that cost the same.
    fn turn(&mut self, scene: Scene, start: Cursor, goal: usize, due: Due<C>) {
        let class = usize::from(due.class);
        let known = self.line.count();
        let first = usize::from(self.next[class]);
        let level = self.line.cost(first);
        let mut place = first;
        while place < self.line.count() && self.line.cost(place) == level {
            let state = self.line.state(place);
            let cursor = self.cursor(start, place, state);
            let departure = Departure {
                state,
                cost: due.cost,
            };
            if self.line.label(goal).is_reached() {
                self.take_last(scene, class, cursor, departure, goal);
            } else {
                self.take(scene, class, cursor, departure, goal);
            }
            place += 1;
        }
        self.next[class] = place as u16;
        if place < self.line.count() {
            let cost = self.line.cost(place).plus(self.classes.classes[class].cost);
            self.agenda.put_off(cost);
        } else {
            self.agenda.doze();
        }
        if known < self.line.count() {
            self.agenda.wake(self.line.cost(known), &self.classes.classes);
        }
    }

    /// The cursor of a state: the beginning comes first in the line.
    #[inline]
    fn cursor(&self, start: Cursor, place: usize, state: u16) -> Cursor {
        match self.panel.size().place_at(state) {
            Some(there) if place > 0 => there.resting(),
            _ => start,
        }
    }

    /// Takes a class from a state, up to a motion that lands on the goal.
    #[inline]
    fn take(&mut self, scene: Scene, class: usize, cursor: Cursor, departure: Departure<C>, goal: usize) {
        let panel = &self.panel;
        let line = &mut self.line;
        for &motion in self.classes.motions(class) {
            let Some(to) = landing(panel, scene, motion, cursor) else {
                continue;
            };
            let state = panel.size().number(to);
            if state == goal {
                line.label_mut(goal).improve(departure, motion);
                return;
            }
            line.note(state, departure, motion);
        }
    }

    /// Takes a class from a state where the goal is reached at this cost, up to the motion by which it is.
    #[inline]
    fn take_last(
        &mut self,
        scene: Scene,
        class: usize,
        cursor: Cursor,
        departure: Departure<C>,
        goal: usize,
    ) {
        let panel = &self.panel;
        let known = self.line.label_mut(goal);
        for &motion in self.classes.motions(class) {
            if known.motion < motion {
                return;
            }
            if landing(panel, scene, motion, cursor).is_some_and(|to| panel.size().number(to) == goal) {
                known.improve(departure, motion);
            }
        }
    }
}

/// Whether turns take longer than it would to take all classes at once from each of so many states.
fn are_too_many(turns: u16, states: usize, classes: usize) -> bool {
    turns > FEW_TURNS && usize::from(turns - FEW_TURNS) / states.max(1) > classes / TURN
}

impl<P: Panel, C: Cost> Searcher for Search<P, C> {
    fn name(&self) -> &'static str {
        Way::Twin.name()
    }

    fn find(&mut self, scene: Scene, start: Cursor, goal: Place) -> Option<Price> {
        self.motions.clear();
        let size = self.panel.size();
        let beginning = numbered(size, start);
        let goal = size.number(goal);
        if beginning == goal {
            return Some(C::ZERO.price());
        }
        self.run(scene, start, goal);
        let label = *self.line.label(goal);
        if !label.is_reached() {
            return None;
        }
        let first = self.line.trace(beginning, goal);
        self.motions.extend(self.line.motions(first));
        Some(label.cost.price())
    }

    fn motions(&self) -> &[u16] {
        &self.motions
    }
}
