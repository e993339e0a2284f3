//! The twin's second way, where the first one takes too many turns: it settles the cheapest state that is reached, and
//! takes all its motions at once.
//!
//! Every motion adds to the cost, so what leads to a state in a least sequence is settled before it. When the goal is
//! as cheap as the cheapest, all ways to it that cost as much are noted.

use crate::cost::Cost;
use crate::landing::{landing, numbered};
use crate::line::{Departure, Line, Stage};
use crate::order::Classes;
use crate::panel::Panel;
use crate::place::{Cursor, Place};
use crate::searcher::Scene;

/// Finds the least way to the goal, if there is one. No state but the beginning stands in the line.
pub fn run<P: Panel, C: Cost>(
    panel: &P,
    classes: &Classes<C>,
    line: &mut Line<C>,
    scene: Scene,
    start: Cursor,
    goal: usize,
) {
    line.begin(numbered(panel.size(), start));
    while let Some(state) = line.cheapest(goal) {
        if state == goal {
            break;
        }
        line.label_mut(state).stage = Stage::Settled;
        let cursor = panel.size().place_at(state as u16).map_or(start, Place::resting);
        take_all(panel, classes, line, scene, state, cursor, goal);
    }
}

/// Takes the motions from a settled state, the cheapest class first, up to a class that comes to more than the goal is
/// known at.
fn take_all<P: Panel, C: Cost>(
    panel: &P,
    classes: &Classes<C>,
    line: &mut Line<C>,
    scene: Scene,
    state: usize,
    cursor: Cursor,
    goal: usize,
) {
    let so_far = line.label(state).cost;
    for (class, offered) in classes.classes.iter().enumerate() {
        let cost = so_far.plus(offered.cost);
        let known = line.label(goal);
        if known.is_reached() && known.cost < cost {
            return;
        }
        let departure = Departure {
            state: state as u16,
            cost,
        };
        for &motion in classes.motions(class) {
            if let Some(to) = landing(panel, scene, motion, cursor) {
                let to = panel.size().number(to);
                line.label_mut(to).improve(departure, motion);
            }
        }
    }
}
