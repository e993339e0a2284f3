//! What the searches are asked: pictures, starts and goals. All are the same in every run.

use std::fmt;
use std::rc::Rc;

use crate::dec::DecPanel;
use crate::pairs::Pair;
use crate::place::{Cursor, Place, Size};
use crate::plan::{Plan, Stand, plan};
use crate::random::Random;
use crate::searcher::{Cell, Price, Scene, Searcher};

/// The size at which everything is measured.
pub const SIZE: Size = Size {
    rows: 24,
    columns: 80,
};

#[derive(Clone)]
pub struct Question {
    pub glass: Rc<[Cell]>,
    pub pen: u8,
    pub start: Cursor,
    pub goal: Place,
}

impl Question {
    pub fn scene(&self) -> Scene<'_> {
        Scene {
            glass: &self.glass,
            pen: self.pen,
        }
    }
}

/// Without the glass, which would fill a page.
impl fmt::Debug for Question {
    fn fmt(&self, f: &mut fmt::Formatter) -> fmt::Result {
        write!(f, "{:?} to {:?} in pen {}", self.start, self.goal, self.pen)
    }
}

pub fn blank_glass() -> Vec<Cell> {
    vec![Cell::BLANK; SIZE.places()]
}

/// Capital letters, in pens 0 to 15.
pub fn filled_glass() -> Vec<Cell> {
    let mut random = Random::new(0x9E37_79B9_7F4A_7C15);
    (0..SIZE.places())
        .map(|_| Cell {
            code: b'A' + random.below(26) as u8,
            pen: random.below(16) as u8,
        })
        .collect()
}

/// So many starts that are not held, each with a goal. The pen now set is 0.
pub fn unheld(glass: &[Cell], count: usize) -> Vec<Question> {
    let mut random = Random::new(0xD1B5_4A32_D192_ED03);
    let glass: Rc<[Cell]> = glass.into();
    (0..count)
        .map(|_| Question {
            glass: glass.clone(),
            pen: 0,
            start: any_place(&mut random).resting(),
            goal: any_place(&mut random),
        })
        .collect()
}

/// A held start in each row, each with a goal in any place and with one where it stands. The pen now set is 0.
pub fn held(glass: &[Cell]) -> Vec<Question> {
    let mut random = Random::new(0x2545_F491_4F6C_DD1D);
    let glass: Rc<[Cell]> = glass.into();
    let start = |row| Cursor {
        place: Place::new(row, SIZE.columns - 1),
        held: true,
    };
    (0..SIZE.rows)
        .flat_map(|row| {
            [any_place(&mut random), start(row).place].map(|goal| Question {
                glass: glass.clone(),
                pen: 0,
                start: start(row),
                goal,
            })
        })
        .collect()
}

/// The legs that the plan of each pair asks for, from the first picture to the second.
pub fn of_plans(pairs: &[Pair]) -> Vec<Question> {
    let mut recorder = Recorder::default();
    for Pair { first, second } in pairs {
        let opening = recorder.plan(&blank_glass(), &first.cells, Stand::WIPED, first.rest);
        recorder.questions.truncate(recorder.kept);
        let stand = Stand {
            place: first.rest,
            pen: opening.pen,
        };
        recorder.plan(&first.cells, &second.cells, stand, second.rest);
        recorder.kept = recorder.questions.len();
    }
    recorder.questions
}

pub fn any_place(random: &mut Random) -> Place {
    Place::new(
        random.below(SIZE.rows.into()) as u8,
        random.below(SIZE.columns.into()) as u8,
    )
}

/// Takes down what it is asked, and answers with an address: what a plan asks does not depend on the answers.
#[derive(Default)]
struct Recorder {
    questions: Vec<Question>,
    /// So many are asked for.
    kept: usize,
    address: [u16; 1],
}

impl Recorder {
    fn plan(&mut self, shown: &[Cell], wanted: &[Cell], start: Stand, rest: Place) -> Plan {
        let panel = DecPanel { size: SIZE };
        plan(&panel, self, shown, wanted, start, rest).expect("an address leads to each place")
    }
}

impl Searcher for Recorder {
    fn name(&self) -> &'static str {
        "recorder"
    }

    fn find(&mut self, scene: Scene, start: Cursor, goal: Place) -> Option<Price> {
        self.questions.push(Question {
            glass: scene.glass.into(),
            pen: scene.pen,
            start,
            goal,
        });
        self.address = [DecPanel::address(SIZE, goal)];
        Some(Price {
            milliseconds: 0,
            bytes: 0,
        })
    }

    fn motions(&self) -> &[u16] {
        &self.address
    }
}
