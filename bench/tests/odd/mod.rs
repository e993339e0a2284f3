//! Lawful panels and costs that no real panel has.

use legs_bench::cost::Cost;
use legs_bench::described::{Described, Effect, Motion};
use legs_bench::panel::Panel;
use legs_bench::place::{Cursor, Place, Size};
use legs_bench::random::Random;
use legs_bench::searcher::Price;

/// Milliseconds, and then bytes: but milliseconds swallow the bytes before them.
#[derive(Clone, Copy, Debug, PartialEq, Eq, PartialOrd, Ord)]
pub struct Swallowing {
    milliseconds: u32,
    bytes: u16,
}

impl Cost for Swallowing {
    const ZERO: Swallowing = Swallowing {
        milliseconds: 0,
        bytes: 0,
    };

    fn of_motion(bytes: u8, milliseconds: u16) -> Swallowing {
        Swallowing {
            milliseconds: milliseconds.into(),
            bytes: bytes.into(),
        }
    }

    fn plus(self, other: Swallowing) -> Swallowing {
        let before = if other.milliseconds > 0 { 0 } else { self.bytes };
        Swallowing {
            milliseconds: self.milliseconds + other.milliseconds,
            bytes: before + other.bytes,
        }
    }

    fn price(self) -> Price {
        Price {
            milliseconds: self.milliseconds,
            bytes: self.bytes,
        }
    }
}

/// The number of motions, and then the bytes of the first one.
#[derive(Clone, Copy, Debug, PartialEq, Eq, PartialOrd, Ord)]
pub struct Opening {
    motions: u16,
    first: u16,
}

impl Cost for Opening {
    const ZERO: Opening = Opening { motions: 0, first: 0 };

    fn of_motion(bytes: u8, _milliseconds: u16) -> Opening {
        Opening {
            motions: 1,
            first: bytes.into(),
        }
    }

    fn plus(self, other: Opening) -> Opening {
        Opening {
            motions: self.motions + other.motions,
            first: if self.motions == 0 {
                other.first
            } else {
                self.first
            },
        }
    }

    fn price(self) -> Price {
        Price {
            milliseconds: self.motions.into(),
            bytes: self.first,
        }
    }
}

/// A panel whose motions are drawn by lot.
#[derive(Clone, Debug)]
pub struct Drawn {
    pub size: Size,
    motions: Vec<Lot>,
}

#[derive(Clone, Debug)]
struct Lot {
    bytes: u8,
    milliseconds: u16,
    /// Where it lands from each place, and then from each place while the cursor is held.
    lands: Vec<Option<Place>>,
}

impl Drawn {
    /// At most so many rows, columns and motions. Of the bytes and delays there are few or many, as the lot falls, so
    /// that costs are often the same.
    pub fn new(random: &mut Random, rows: usize, columns: usize, motions: usize) -> Drawn {
        let size = Size {
            rows: 1 + random.below(rows) as u8,
            columns: 2 + random.below(columns - 1) as u8,
        };
        let most_bytes = [1, 2, 4, 16][random.below(4)];
        let delays = [1, 2, 3, 1001][random.below(4)];
        let offered = 1 + random.below(4);
        let motions = (0..random.below(motions + 1)).map(|_| {
            let mut place = || {
                let to = random.below(size.places()) as u16;
                (random.below(4) < offered).then(|| size.place_at(to).expect("it is on the panel"))
            };
            Lot {
                lands: (0..2 * size.places()).map(|_| place()).collect(),
                bytes: 1 + random.below(most_bytes) as u8,
                milliseconds: random.below(delays) as u16,
            }
        });
        Drawn {
            motions: motions.collect(),
            size,
        }
    }

    pub fn described(&self) -> Described {
        let motions = self.motions.iter().map(|lot| Motion {
            bytes: lot.bytes,
            milliseconds: lot.milliseconds,
            effect: Effect::Told(lot.lands.clone()),
        });
        Described {
            size: self.size,
            motions: motions.collect(),
        }
    }

    /// Each place, and each place while the cursor is held.
    pub fn cursors(&self) -> Vec<Cursor> {
        let cursors = self
            .places()
            .into_iter()
            .flat_map(|place| [false, true].map(|held| Cursor { place, held }));
        cursors.collect()
    }

    pub fn places(&self) -> Vec<Place> {
        (0..self.size.places() as u16)
            .filter_map(|number| self.size.place_at(number))
            .collect()
    }
}

impl Panel for Drawn {
    fn size(&self) -> Size {
        self.size
    }

    fn motions(&self) -> u16 {
        self.motions.len() as u16
    }

    fn landing(&self, motion: u16, from: Cursor) -> Option<Place> {
        let held = if from.held { self.size.places() } else { 0 };
        self.motions[usize::from(motion)].lands[held + self.size.number(from.place)]
    }

    fn spell(&self, motion: u16, bytes: &mut Vec<u8>) {
        bytes.extend((0..self.motions[usize::from(motion)].bytes).map(|_| b'.'));
    }

    fn milliseconds(&self, motion: u16) -> u16 {
        self.motions[usize::from(motion)].milliseconds
    }

    fn after_print(&self, place: Place) -> Cursor {
        self.size.right_of(place, 1).unwrap_or(place).resting()
    }

    fn pen_bytes(&self, _: u8) -> Vec<u8> {
        Vec::new()
    }

    fn wipe_bytes(&self) -> Vec<u8> {
        Vec::new()
    }
}
