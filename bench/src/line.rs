//! The states that a search has reached, in a line in the order of their costs, and the best way to each of them.

use crate::cost::Cost;

/// What is known of a state. Beside it stands what has nothing to do with the state: the labels in a row hold the
/// states in the line while a search runs, and then the motions of its leg.
#[derive(Clone, Copy)]
pub struct Label<C> {
    pub cost: C,
    pub motion: u16,
    pub from: u16,
    step: u16,
    pub stage: Stage,
}

/// How far a search has come with a state.
#[derive(Clone, Copy, PartialEq, Eq)]
#[repr(u8)]
pub enum Stage {
    Unreached,
    Reached,
    /// The way is the leg, and all motions were taken from here at once.
    Settled,
}

/// A state from which motions are taken, and what a sequence costs that ends with one of them.
#[derive(Clone, Copy)]
pub struct Departure<C> {
    pub state: u16,
    pub cost: C,
}

/// There is a label for each place, and after them one for a held start.
pub struct Line<C> {
    labels: Vec<Label<C>>,
    count: usize,
}

impl<C: Cost> Label<C> {
    const UNREACHED: Label<C> = Label {
        cost: C::ZERO,
        motion: 0,
        from: 0,
        step: 0,
        stage: Stage::Unreached,
    };

    #[inline]
    pub fn is_reached(&self) -> bool {
        self.stage != Stage::Unreached
    }

    /// Takes note of a way, if none better is known: by its cost, then by its motion, then by where that departs.
    #[inline]
    pub fn improve(&mut self, departure: Departure<C>, motion: u16) {
        let Departure { state: from, cost } = departure;
        let is_better = !self.is_reached()
            || cost < self.cost
            || cost == self.cost && (motion, from) < (self.motion, self.from);
        if is_better {
            self.cost = cost;
            self.motion = motion;
            self.from = from;
            self.stage = Stage::Reached;
        }
    }
}

impl<C: Cost> Line<C> {
    const FITS: () = assert!(size_of::<Label<C>>() <= 16);

    pub fn new(places: usize) -> Line<C> {
        let () = Self::FITS;
        Line {
            labels: vec![Label::UNREACHED; places + 1],
            count: 0,
        }
    }

    /// The beginning alone is reached, and costs nothing.
    pub fn begin(&mut self, beginning: usize) {
        self.labels.fill(Label::UNREACHED);
        self.labels[beginning].stage = Stage::Reached;
        self.count = 0;
        self.append(beginning);
    }

    /// How many states stand in it.
    #[inline]
    pub fn count(&self) -> usize {
        self.count
    }

    /// Takes note of a way to a state, which comes last in the line if no other is known.
    #[inline]
    pub fn note(&mut self, state: usize, departure: Departure<C>, motion: u16) {
        let label = &mut self.labels[state];
        let is_first = !label.is_reached();
        label.improve(departure, motion);
        if is_first {
            self.append(state);
        }
    }

    #[inline]
    fn append(&mut self, state: usize) {
        self.labels[self.count].step = state as u16;
        self.count += 1;
    }

    /// The state at a place of the line.
    #[inline]
    pub fn state(&self, place: usize) -> u16 {
        self.labels[place].step
    }

    /// What the state at a place of the line costs.
    #[inline]
    pub fn cost(&self, place: usize) -> C {
        self.label(self.state(place).into()).cost
    }

    #[inline]
    pub fn label(&self, state: usize) -> &Label<C> {
        &self.labels[state]
    }

    #[inline]
    pub fn label_mut(&mut self, state: usize) -> &mut Label<C> {
        &mut self.labels[state]
    }

    /// The cheapest state that is reached and not settled, if there is one: the goal before others of its cost, then
    /// the one with the smallest number.
    pub fn cheapest(&self, goal: usize) -> Option<usize> {
        let mut cheapest =
            (self.labels[goal].stage == Stage::Reached).then_some((self.labels[goal].cost, goal));
        for (state, label) in self.labels.iter().enumerate() {
            if label.stage == Stage::Reached && cheapest.is_none_or(|(least, _)| label.cost < least) {
                cheapest = Some((label.cost, state));
            }
        }
        cheapest.map(|(_, state)| state)
    }

    /// Lays the motions of the leg to a state that is reached into the last labels but one, and answers where they
    /// begin.
    pub fn trace(&mut self, beginning: usize, goal: usize) -> usize {
        let mut first = self.labels.len() - 1;
        let mut state = goal;
        while state != beginning {
            first -= 1;
            let label = self.labels[state];
            self.labels[first].step = label.motion;
            state = label.from.into();
        }
        first
    }

    /// The motions that were laid down from here on.
    pub fn motions(&self, first: usize) -> impl Iterator<Item = u16> {
        let end = self.labels.len() - 1;
        self.labels[first..end].iter().map(|label| label.step)
    }
}
