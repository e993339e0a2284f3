//! All searches find the same legs as the reference, on panels that are drawn by lot and by four lawful costs; and on
//! the smallest panels the reference finds what is found by going through all sequences.

mod odd;

use legs_bench::cost::{ByteCost, Cost, LineCost};
use legs_bench::landing::{landing, numbered};
use legs_bench::panel::Panel;
use legs_bench::place::{Cursor, Place};
use legs_bench::random::Random;
use legs_bench::reference::Reference;
use legs_bench::search::Search;
use legs_bench::searcher::{Cell, Found, Scene, Searcher};
use legs_bench::ways::Way;
use odd::{Drawn, Opening, Swallowing};

/// Each cell in pen 0 or 1.
fn any_glass(random: &mut Random, places: usize) -> Vec<Cell> {
    let mut cell = || Cell {
        code: b'A',
        pen: random.below(2) as u8,
    };
    (0..places).map(|_| cell()).collect()
}

/// All unproved searches, and the twin with so few turns that it takes motions at once for all legs, or for most.
fn unproved<C: Cost + 'static>(panel: &Drawn) -> Vec<Box<dyn Searcher>> {
    let mut searches: Vec<Box<dyn Searcher>> = Vec::new();
    for way in [Way::Twin, Way::ByRows, Way::Lazily] {
        searches.push(way.on::<C>(panel.clone()));
    }
    for turns in [0, 3] {
        let twin = Search::<_, C>::new(panel.clone()).with_most_turns(turns);
        searches.push(Box::new(twin));
    }
    searches
}

/// Asks all searches for all legs on a panel. Answers how many those are.
fn all_agree<C: Cost + 'static>(panel: &Drawn, scene: Scene) -> usize {
    let mut reference = Reference::<C>::new(panel.described());
    let mut searches = unproved::<C>(panel);
    let mut legs = 0;
    for start in panel.cursors() {
        for goal in panel.places() {
            let leg = reference.leg(scene, start, goal);
            for search in &mut searches {
                let found = search.leg(scene, start, goal);
                assert_eq!(
                    found,
                    leg,
                    "{}: {start:?} to {goal:?} on {panel:?} with {:?}",
                    search.name(),
                    scene.glass
                );
            }
            legs += 1;
        }
    }
    legs
}

#[test]
fn all_searches_find_the_legs_of_the_reference() {
    let mut random = Random::new(0x1D87_2B41_90AC_55E3);
    let mut legs = 0;
    for _ in 0..250 {
        let panel = Drawn::new(&mut random, 3, 4, 13);
        let glass = any_glass(&mut random, panel.size.places());
        let scene = Scene {
            glass: &glass,
            pen: 0,
        };
        legs += all_agree::<ByteCost>(&panel, scene);
        legs += all_agree::<LineCost>(&panel, scene);
        legs += all_agree::<Swallowing>(&panel, scene);
        legs += all_agree::<Opening>(&panel, scene);
    }
    assert!(legs > 50_000, "{legs}");
}

/// A sequence from a start: the states that it comes through, the start first, its motions and what it costs.
#[derive(Clone)]
struct Sequence<C> {
    states: Vec<usize>,
    motions: Vec<u16>,
    cost: C,
}

/// All sequences that come to no state twice: a motion adds to the cost, so legs are among them.
fn all_sequences<C: Cost>(panel: &Drawn, scene: Scene, start: Cursor) -> Vec<Sequence<C>> {
    let mut all = vec![Sequence {
        states: vec![numbered(panel.size, start)],
        motions: Vec::new(),
        cost: C::ZERO,
    }];
    let costs: Vec<C> = panel
        .described()
        .motions
        .iter()
        .map(|motion| C::of_motion(motion.bytes, motion.milliseconds))
        .chain([C::of_motion(1, 0)])
        .collect();
    let mut at = 0;
    while at < all.len() {
        let part = all[at].clone();
        let state = part.states[part.states.len() - 1];
        let here = panel.size.place_at(state as u16).map_or(start, Place::resting);
        for motion in 0..=panel.motions() {
            let to = landing(panel, scene, motion, here).map(|to| panel.size.number(to));
            if let Some(to) = to.filter(|to| !part.states.contains(to)) {
                let mut longer = part.clone();
                longer.states.push(to);
                longer.motions.push(motion);
                longer.cost = part.cost.plus(costs[usize::from(motion)]);
                all.push(longer);
            }
        }
        at += 1;
    }
    all
}

/// The leg, word for word: the least cost; then the last motion with the smallest number; then the smallest place from
/// which it departs; and the part before is the leg to there.
fn leg_by_definition<C: Cost>(all: &[Sequence<C>], goal: usize) -> Option<(C, Vec<u16>)> {
    let ends = |sequence: &&Sequence<C>| sequence.states.last() == Some(&goal);
    let cost = all.iter().filter(ends).map(|sequence| sequence.cost).min()?;
    let least = all.iter().filter(ends).filter(|sequence| sequence.cost == cost);
    let last = least
        .filter_map(|sequence| {
            Some((
                *sequence.motions.last()?,
                sequence.states[sequence.states.len() - 2],
            ))
        })
        .min();
    let Some((motion, from)) = last else {
        return Some((cost, Vec::new()));
    };
    let (_, mut motions) = leg_by_definition(all, from)?;
    motions.push(motion);
    Some((cost, motions))
}

fn agrees_with_the_definition<C: Cost>(panel: &Drawn, scene: Scene) -> usize {
    let mut reference = Reference::<C>::new(panel.described());
    let mut legs = 0;
    for start in panel.cursors() {
        let all = all_sequences::<C>(panel, scene, start);
        for goal in panel.places() {
            let leg = leg_by_definition(&all, panel.size.number(goal)).map(|(cost, motions)| Found {
                price: cost.price(),
                motions,
            });
            assert_eq!(
                reference.leg(scene, start, goal),
                leg,
                "{start:?} to {goal:?} on {panel:?} with {:?}",
                scene.glass
            );
            legs += 1;
        }
    }
    legs
}

#[test]
fn the_reference_finds_the_legs_of_the_definition() {
    let mut random = Random::new(0x6A09_E667_F3BC_C909);
    let mut legs = 0;
    for _ in 0..300 {
        let panel = Drawn::new(&mut random, 2, 2, 4);
        let glass = any_glass(&mut random, panel.size.places());
        let scene = Scene {
            glass: &glass,
            pen: 0,
        };
        legs += agrees_with_the_definition::<ByteCost>(&panel, scene);
        legs += agrees_with_the_definition::<LineCost>(&panel, scene);
        legs += agrees_with_the_definition::<Swallowing>(&panel, scene);
        legs += agrees_with_the_definition::<Opening>(&panel, scene);
    }
    assert!(legs > 10_000, "{legs}");
}

/// The order is total by `Ord`; here are the other laws, at sums of up to two motions.
fn keeps_the_laws<C: Cost + std::fmt::Debug>() {
    let motions: Vec<C> = [1, 2, 16]
        .into_iter()
        .flat_map(|bytes| [0, 1, 2, 1000].map(|milliseconds| C::of_motion(bytes, milliseconds)))
        .collect();
    let mut costs = vec![C::ZERO];
    for _ in 0..2 {
        let longer: Vec<C> = costs
            .iter()
            .flat_map(|cost| motions.iter().map(|&motion| cost.plus(motion)))
            .collect();
        costs.extend(longer);
        costs.sort();
        costs.dedup();
    }
    for &a in &costs {
        assert_eq!(C::ZERO.plus(a), a);
        assert_eq!(a.plus(C::ZERO), a);
        for &motion in &motions {
            assert!(a < a.plus(motion), "{a:?} {motion:?}");
        }
        for &b in &costs {
            for &c in &costs {
                assert_eq!(a.plus(b).plus(c), a.plus(b.plus(c)), "{a:?} {b:?} {c:?}");
                if a <= b {
                    assert!(a.plus(c) <= b.plus(c), "{a:?} {b:?} {c:?}");
                    assert!(c.plus(a) <= c.plus(b), "{a:?} {b:?} {c:?}");
                }
            }
        }
    }
}

#[test]
fn all_costs_keep_the_laws() {
    keeps_the_laws::<ByteCost>();
    keeps_the_laws::<LineCost>();
    keeps_the_laws::<Swallowing>();
    keeps_the_laws::<Opening>();
}

/// Sums of two of them depend on the order, and a dearer motion may come to no more.
#[test]
fn odd_costs_are_odd() {
    let (slow, short) = (Swallowing::of_motion(2, 5), Swallowing::of_motion(1, 0));
    assert!(short.plus(slow) < slow.plus(short));
    assert_eq!(short.plus(slow), slow);
    let (long, short) = (Opening::of_motion(4, 0), Opening::of_motion(1, 0));
    assert!(short.plus(long) < long.plus(short));
    assert_eq!(short.plus(long), short.plus(short));
}
