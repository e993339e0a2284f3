//! The screen that the proved one is measured against.

use crate::panel::Panel;
use crate::place::Place;
use crate::plan::{Plan, Stand, plan};
use crate::searcher::{Cell, Searcher};

/// Keeps what the panel shows and where the last showing left it.
pub struct Screen<P> {
    panel: P,
    legs: Box<dyn Searcher>,
    shown: Vec<Cell>,
    left: Stand,
}

/// Why nothing is sent. The output is then as it was, and so is the screen.
#[derive(Clone, Copy, Debug, PartialEq, Eq)]
pub enum Refusal {
    /// No sequence leads to this place, which is the first such goal of the plan.
    NoSequence(Place),
    OutputTooShort {
        needed: usize,
    },
}

impl<P: Panel> Screen<P> {
    /// A screen takes its panel for wiped until it is shown.
    pub fn new(panel: P, legs: Box<dyn Searcher>) -> Screen<P> {
        let shown = blank(&panel);
        Screen {
            panel,
            legs,
            shown,
            left: Stand::WIPED,
        }
    }

    /// The plan of a refresh.
    pub fn plan(&mut self, wanted: &[Cell], rest: Place) -> Result<Plan, Place> {
        plan(
            &self.panel,
            self.legs.as_mut(),
            &self.shown,
            wanted,
            self.left,
            rest,
        )
    }

    /// Sends what brings the panel from the picture that it shows to the wanted one, and answers how many bytes
    /// that are.
    pub fn refresh(&mut self, wanted: &[Cell], rest: Place, output: &mut [u8]) -> Result<usize, Refusal> {
        let plan = self.plan(wanted, rest).map_err(Refusal::NoSequence)?;
        self.send(plan, wanted, rest, output)
    }

    /// Wipes the panel and sends what brings it from there to the wanted picture.
    pub fn redraw(&mut self, wanted: &[Cell], rest: Place, output: &mut [u8]) -> Result<usize, Refusal> {
        let blank = blank(&self.panel);
        let mut plan = plan(
            &self.panel,
            self.legs.as_mut(),
            &blank,
            wanted,
            Stand::WIPED,
            rest,
        )
        .map_err(Refusal::NoSequence)?;
        plan.bytes.splice(0..0, self.panel.wipe_bytes());
        self.send(plan, wanted, rest, output)
    }

    fn send(
        &mut self,
        plan: Plan,
        wanted: &[Cell],
        rest: Place,
        output: &mut [u8],
    ) -> Result<usize, Refusal> {
        let needed = plan.bytes.len();
        let room = output
            .get_mut(..needed)
            .ok_or(Refusal::OutputTooShort { needed })?;
        room.copy_from_slice(&plan.bytes);
        self.shown.copy_from_slice(wanted);
        self.left = Stand {
            place: rest,
            pen: plan.pen,
        };
        Ok(needed)
    }
}

fn blank(panel: &impl Panel) -> Vec<Cell> {
    vec![Cell::BLANK; panel.size().places()]
}
