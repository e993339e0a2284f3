//! Times that stand for many.

use std::time::Duration;

/// There is one time at the least.
#[derive(Clone, Copy, Debug)]
pub struct Times {
    pub median: Duration,
    pub mean: Duration,
}

impl Times {
    pub fn of(mut times: Vec<Duration>) -> Times {
        times.sort();
        Times {
            median: times[times.len() / 2],
            mean: times.iter().sum::<Duration>() / times.len() as u32,
        }
    }

    /// How many times the median of others this one is.
    pub fn to(self, other: Times) -> f64 {
        self.median.as_secs_f64() / other.median.as_secs_f64()
    }
}
