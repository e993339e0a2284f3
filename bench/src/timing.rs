//! Timing what stands side by side, in turns.

use std::time::Duration;

/// The best time of each question for each of those who are asked. They take turns with all the questions, in either
/// order, so that the machine is as busy for each of them; the worse times tell what else it was doing.
pub fn best_times<A: ?Sized, Q>(
    asked: &mut [Box<A>],
    questions: &[Q],
    rounds: usize,
    mut time: impl FnMut(&mut A, &Q) -> Duration,
) -> Vec<Vec<Duration>> {
    let mut best = vec![vec![Duration::MAX; questions.len()]; asked.len()];
    for round in 0..rounds {
        let mut turns: Vec<_> = asked.iter_mut().zip(&mut best).collect();
        if round % 2 == 1 {
            turns.reverse();
        }
        for (asked, best) in turns {
            for (question, best) in questions.iter().zip(best) {
                *best = time(asked, question).min(*best);
            }
        }
    }
    best
}
