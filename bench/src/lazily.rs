//! A peer: each state that is reached stands in a queue by what its next class of motions comes to. The first of the
//! queue takes that class, and waits for the one after it.

use std::cmp::Reverse;
use std::collections::BinaryHeap;
use std::collections::binary_heap::PeekMut;

use crate::cost::Cost;
use crate::landing::{landing, numbered};
use crate::order::Classes;
use crate::panel::Panel;
use crate::place::{Cursor, Place};
use crate::searcher::{Price, Scene, Searcher};
use crate::ways::Way;

pub struct Lazily<P, C> {
    panel: P,
    classes: Classes<C>,
    notes: Notes<C>,
    queue: BinaryHeap<Reverse<Waiting<C>>>,
    motions: Vec<u16>,
}

/// What is known of the states. None is prepared for a search: a note of another search says nothing.
struct Notes<C> {
    /// One for each place, and after them one for a held start.
    notes: Vec<Note<C>>,
    /// The number of the present search.
    search: u32,
}

/// The best way to a state that is known to a search.
#[derive(Clone, Copy)]
struct Note<C> {
    cost: C,
    motion: u16,
    from: u16,
    search: u32,
}

/// A state, its next class, and what they come to.
#[derive(Clone, Copy, PartialEq, Eq, PartialOrd, Ord)]
struct Waiting<C> {
    cost: C,
    class: u16,
    state: u16,
}

impl<C: Cost> Notes<C> {
    fn new(states: usize) -> Notes<C> {
        let none = Note {
            cost: C::ZERO,
            motion: 0,
            from: 0,
            search: 0,
        };
        Notes {
            notes: vec![none; states],
            search: 0,
        }
    }

    #[inline]
    fn reached(&self, state: usize) -> Option<Note<C>> {
        let note = self.notes[state];
        (note.search == self.search).then_some(note)
    }

    /// Takes note of a way that costs as much as what is taken now, so that none that is known costs more. Tells
    /// whether it is the first.
    #[inline]
    fn reach(&mut self, state: usize, cost: C, motion: u16, from: u16) -> bool {
        let note = &mut self.notes[state];
        let first = note.search != self.search;
        if first || cost == note.cost && (motion, from) < (note.motion, note.from) {
            *note = Note {
                cost,
                motion,
                from,
                search: self.search,
            };
        }
        first
    }
}

impl<P: Panel, C: Cost> Lazily<P, C> {
    pub fn new(panel: P) -> Lazily<P, C> {
        let states = panel.size().places() + 1;
        Lazily {
            classes: Classes::new(&panel),
            notes: Notes::new(states),
            queue: BinaryHeap::with_capacity(states),
            motions: Vec::with_capacity(states),
            panel,
        }
    }

    /// Finds the least way to the goal, if there is one.
    fn run(&mut self, scene: Scene, start: Cursor, goal: usize) {
        let beginning = numbered(self.panel.size(), start);
        self.notes.search += 1;
        self.notes.reach(beginning, C::ZERO, 0, 0);
        self.queue.clear();
        self.queue.push(Reverse(Waiting {
            cost: self.classes.classes[0].cost,
            class: 0,
            state: beginning as u16,
        }));
        while let Some(waiting) = self.next(goal) {
            let cursor = self.panel.size().place_at(waiting.state);
            self.take(scene, cursor.map_or(start, Place::resting), goal, waiting);
        }
    }

    /// What is next, unless the goal is known at less. The state goes on to wait for its next class.
    #[inline]
    fn next(&mut self, goal: usize) -> Option<Waiting<C>> {
        let mut first = self.queue.peek_mut()?;
        let Reverse(waiting) = *first;
        let known = self.notes.reached(goal);
        if known.is_some_and(|known| known.cost < waiting.cost) {
            return None;
        }
        let class = waiting.class + 1;
        if let Some(next) = self.classes.classes.get(usize::from(class)) {
            let cost = self.notes.notes[usize::from(waiting.state)].cost.plus(next.cost);
            *first = Reverse(Waiting {
                cost,
                class,
                ..waiting
            });
        } else {
            PeekMut::pop(first);
        }
        Some(waiting)
    }

    /// Takes a class from a state. Once the goal is reached, at this cost, it counts alone, and only up to the motion
    /// by which it is.
    fn take(&mut self, scene: Scene, cursor: Cursor, goal: usize, waiting: Waiting<C>) {
        let size = self.panel.size();
        let known = self.notes.reached(goal).map(|known| known.motion);
        let Waiting { cost, class, state } = waiting;
        for &motion in self.classes.motions(class.into()) {
            if known.is_some_and(|known| known < motion) {
                return;
            }
            let Some(to) = landing(&self.panel, scene, motion, cursor) else {
                continue;
            };
            let to = size.number(to);
            if to == goal {
                self.notes.reach(goal, cost, motion, state);
                return;
            }
            if known.is_none() && self.notes.reach(to, cost, motion, state) {
                self.queue.push(Reverse(Waiting {
                    cost: cost.plus(self.classes.classes[0].cost),
                    class: 0,
                    state: to as u16,
                }));
            }
        }
    }

    /// Keeps the motions of the leg to a state that is reached.
    fn trace(&mut self, beginning: usize, goal: usize) {
        let mut state = goal;
        while state != beginning {
            let note = self.notes.notes[state];
            self.motions.push(note.motion);
            state = note.from.into();
        }
        self.motions.reverse();
    }
}

impl<P: Panel, C: Cost> Searcher for Lazily<P, C> {
    fn name(&self) -> &'static str {
        Way::Lazily.name()
    }

    fn find(&mut self, scene: Scene, start: Cursor, goal: Place) -> Option<Price> {
        self.motions.clear();
        let size = self.panel.size();
        let beginning = numbered(size, start);
        let goal = size.number(goal);
        if beginning == goal {
            return Some(C::ZERO.price());
        }
        self.run(scene, start, goal);
        let known = self.notes.reached(goal)?;
        self.trace(beginning, goal);
        Some(known.cost.price())
    }

    fn motions(&self) -> &[u16] {
        &self.motions
    }
}
