//! What motions cost.

use crate::searcher::Price;

#[derive(Clone, Copy, Debug, PartialEq, Eq)]
pub enum Kind {
    Byte,
    Line,
}

/// A cost type. `Ord` is the order of costs. The sum is associative and `ZERO` is neutral; raising either side never
/// lowers it, and adding a motion behind makes strictly more. It need not be the same in either order.
pub trait Cost: Copy + Ord {
    const ZERO: Self;

    /// What a motion costs that has so many bytes and takes so many milliseconds.
    fn of_motion(bytes: u8, milliseconds: u16) -> Self;

    fn plus(self, other: Self) -> Self;

    fn price(self) -> Price;
}

/// The number of bytes.
#[derive(Clone, Copy, Debug, PartialEq, Eq, PartialOrd, Ord)]
pub struct ByteCost {
    bytes: u16,
}

/// Milliseconds, and then bytes: the derived order compares the fields in this order.
#[derive(Clone, Copy, Debug, PartialEq, Eq, PartialOrd, Ord)]
pub struct LineCost {
    milliseconds: u32,
    bytes: u16,
}

impl Cost for ByteCost {
    const ZERO: ByteCost = ByteCost { bytes: 0 };

    fn of_motion(bytes: u8, _milliseconds: u16) -> ByteCost {
        ByteCost {
            bytes: u16::from(bytes),
        }
    }

    fn plus(self, other: ByteCost) -> ByteCost {
        ByteCost {
            bytes: self.bytes + other.bytes,
        }
    }

    fn price(self) -> Price {
        Price {
            milliseconds: 0,
            bytes: self.bytes,
        }
    }
}

impl Cost for LineCost {
    const ZERO: LineCost = LineCost {
        milliseconds: 0,
        bytes: 0,
    };

    fn of_motion(bytes: u8, milliseconds: u16) -> LineCost {
        LineCost {
            milliseconds: u32::from(milliseconds),
            bytes: u16::from(bytes),
        }
    }

    fn plus(self, other: LineCost) -> LineCost {
        LineCost {
            milliseconds: self.milliseconds + other.milliseconds,
            bytes: self.bytes + other.bytes,
        }
    }

    fn price(self) -> Price {
        Price {
            milliseconds: self.milliseconds,
            bytes: self.bytes,
        }
    }
}
