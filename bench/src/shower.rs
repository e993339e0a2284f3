//! The interface of everything that shows pictures.

use std::hint::black_box;
use std::time::{Duration, Instant};

use crate::cost::Kind;
use crate::dec::DecPanel;
use crate::pairs::Pair;
use crate::questions::SIZE;
use crate::screen::Screen;
use crate::ways::Way;

/// More than any showing sends.
pub const ROOM: usize = 1 << 16;

pub trait Shower {
    fn name(&self) -> &'static str;

    /// Shows the first picture of a pair by a redraw on a new screen, and then in turns the second and the first one,
    /// each by a refresh. Answers the bytes of the last showing.
    fn show(&mut self, pair: &Pair, refreshes: usize) -> Vec<u8>;

    /// The time that this takes.
    fn time(&mut self, pair: &Pair, refreshes: usize) -> Duration {
        let begin = Instant::now();
        black_box(self.show(black_box(pair), refreshes));
        begin.elapsed()
    }
}

/// The unproved screen on a deferred-wrap panel, by one of the unproved searches.
pub struct Unproved {
    pub way: Way,
    pub kind: Kind,
}

impl Shower for Unproved {
    fn name(&self) -> &'static str {
        self.way.name()
    }

    fn show(&mut self, pair: &Pair, refreshes: usize) -> Vec<u8> {
        let panel = DecPanel { size: SIZE };
        let mut screen = Screen::new(panel, self.way.by(self.kind, panel));
        let mut output = vec![0; ROOM];
        let mut sent = screen.redraw(&pair.first.cells, pair.first.rest, &mut output);
        for picture in [&pair.second, &pair.first].into_iter().cycle().take(refreshes) {
            sent = screen.refresh(&picture.cells, picture.rest, &mut output);
        }
        output.truncate(sent.expect("there is room, and a sequence to every place"));
        output
    }
}
