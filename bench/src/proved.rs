//! The proved search, behind a C function. It makes its panel and the order of the motions anew at each call, so a leg
//! is timed as the difference between a call with some copies of its question and one without any.

use std::hint::black_box;
use std::time::{Duration, Instant};

use crate::cost::Kind;
use crate::place::{Cursor, Place};
use crate::searcher::{Cell, Price, Scene, Searcher};

/// Numbers 0 and 1 stand for false and true.
#[repr(C)]
#[derive(Clone, Copy)]
struct Question {
    start_row: u8,
    start_column: u8,
    held: u8,
    goal_row: u8,
    goal_column: u8,
}

#[repr(C)]
#[derive(Default)]
struct Answer {
    milliseconds: u32,
    bytes: u16,
    /// How many motions the leg has.
    motions: u16,
    found: u8,
}

unsafe extern "C" {
    /// Answers some questions on a panel of 24 rows and 80 columns and tells the last one's answer and motions. Each
    /// pointer is followed by a length.
    fn legs_serve(
        line: u8,
        delayed: u8,
        pen: u8,
        cells: *const Cell,
        bytes: usize,
        questions: *const Question,
        count: usize,
        answer: *mut Answer,
        motions: *mut u16,
        room: usize,
    ) -> u8;
}

pub struct Proved {
    kind: Kind,
    delayed: bool,
    /// There is room for the longest leg.
    motions: Vec<u16>,
    /// So many motions has the leg that was found last.
    count: usize,
    /// The least time that a call without questions has taken.
    without: Duration,
}

impl Proved {
    /// On a deferred-wrap panel of 24 rows and 80 columns, or one with a delay of its own for each motion.
    pub fn new(kind: Kind, delayed: bool) -> Proved {
        Proved {
            kind,
            delayed,
            motions: vec![0; 24 * 80],
            count: 0,
            without: Duration::MAX,
        }
    }

    fn serve(&mut self, scene: Scene, questions: &[Question]) -> Answer {
        let mut answer = Answer::default();
        // SAFETY: each pointer and the length after it are those of one slice; what is written is borrowed mutably.
        let served = unsafe {
            legs_serve(
                (self.kind == Kind::Line).into(),
                self.delayed.into(),
                scene.pen,
                scene.glass.as_ptr(),
                size_of_val(scene.glass),
                questions.as_ptr(),
                questions.len(),
                &mut answer,
                self.motions.as_mut_ptr(),
                self.motions.len(),
            )
        };
        assert_eq!(served, 1, "the panel is made");
        answer
    }
}

fn question(start: Cursor, goal: Place) -> Question {
    Question {
        start_row: start.place.row,
        start_column: start.place.column,
        held: start.held.into(),
        goal_row: goal.row,
        goal_column: goal.column,
    }
}

impl Searcher for Proved {
    fn name(&self) -> &'static str {
        "proved"
    }

    fn find(&mut self, scene: Scene, start: Cursor, goal: Place) -> Option<Price> {
        let answer = self.serve(scene, &[question(start, goal)]);
        self.count = answer.motions.into();
        (answer.found != 0).then_some(Price {
            milliseconds: answer.milliseconds,
            bytes: answer.bytes,
        })
    }

    fn motions(&self) -> &[u16] {
        &self.motions[..self.count]
    }

    fn time(&mut self, scene: Scene, start: Cursor, goal: Place, copies: u32) -> Duration {
        let begin = Instant::now();
        black_box(self.serve(scene, &[]));
        self.without = self.without.min(begin.elapsed());
        let questions = vec![question(start, goal); copies as usize];
        let begin = Instant::now();
        black_box(self.serve(scene, &questions));
        begin.elapsed().saturating_sub(self.without) / copies
    }
}
