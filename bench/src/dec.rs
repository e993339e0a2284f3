//! The deferred-wrap panel.

use std::fmt::Arguments;
use std::io::Write;

use crate::panel::Panel;
use crate::place::{Cursor, Place, Size};

#[derive(Clone, Copy)]
pub struct DecPanel {
    pub size: Size,
}

#[derive(Clone, Copy, Debug, PartialEq, Eq)]
enum Motion {
    /// To column 0.
    Return,
    /// A column to the left.
    Back,
    /// A row down.
    Feed,
    Up(u8),
    Down(u8),
    Right(u8),
    Left(u8),
    /// Straight to a place.
    Address(Place),
}

/// The motion with this number leads to the first place, the next one to the second, and so on.
const ADDRESSES_FROM: u16 = 207;

impl DecPanel {
    /// The number of the motion that leads straight to a place.
    pub fn address(size: Size, place: Place) -> u16 {
        ADDRESSES_FROM + size.number(place) as u16
    }

    fn motion(&self, number: u16) -> Option<Motion> {
        Some(match number {
            0 => Motion::Return,
            1 => Motion::Back,
            2 => Motion::Feed,
            3..=25 => Motion::Up((number - 2) as u8),
            26..=48 => Motion::Down((number - 25) as u8),
            49..=127 => Motion::Right((number - 48) as u8),
            128..=206 => Motion::Left((number - 127) as u8),
            _ => Motion::Address(self.size.place_at(number - ADDRESSES_FROM)?),
        })
    }
}

impl Panel for DecPanel {
    fn size(&self) -> Size {
        self.size
    }

    fn motions(&self) -> u16 {
        ADDRESSES_FROM + self.size.places() as u16
    }

    /// Without the attribute the compiler calls it in the search, whose byte cost then takes half as long again.
    #[inline]
    fn landing(&self, motion: u16, from: Cursor) -> Option<Place> {
        let place = from.place;
        let motion = self.motion(motion)?;
        let steps = match motion {
            Motion::Return => return Some(Place { column: 0, ..place }),
            Motion::Address(to) => return Some(to),
            Motion::Up(n) | Motion::Down(n) | Motion::Right(n) | Motion::Left(n) => n,
            Motion::Back | Motion::Feed => 1,
        };
        if from.held {
            return None;
        }
        let is_upright = matches!(motion, Motion::Feed | Motion::Up(_) | Motion::Down(_));
        let is_backward = matches!(motion, Motion::Back | Motion::Up(_) | Motion::Left(_));
        match (is_upright, is_backward) {
            (true, true) => place.above(steps),
            (true, false) => self.size.below(place, steps),
            (false, true) => place.left_of(steps),
            (false, false) => self.size.right_of(place, steps),
        }
    }

    fn spell(&self, motion: u16, bytes: &mut Vec<u8>) {
        match self.motion(motion) {
            None => {}
            Some(Motion::Return) => bytes.push(b'\r'),
            Some(Motion::Back) => bytes.push(0x08),
            Some(Motion::Feed) => bytes.push(b'\n'),
            Some(Motion::Up(n)) => relative(bytes, n, 'A'),
            Some(Motion::Down(n)) => relative(bytes, n, 'B'),
            Some(Motion::Right(n)) => relative(bytes, n, 'C'),
            Some(Motion::Left(n)) => relative(bytes, n, 'D'),
            Some(Motion::Address(to)) => sequence(bytes, format_args!("{};{}H", to.row + 1, to.column + 1)),
        }
    }

    fn milliseconds(&self, motion: u16) -> u16 {
        match self.motion(motion) {
            None | Some(Motion::Return | Motion::Back | Motion::Feed) => 0,
            Some(Motion::Up(_) | Motion::Down(_) | Motion::Right(_) | Motion::Left(_)) => 2,
            Some(Motion::Address(_)) => 5,
        }
    }

    fn after_print(&self, place: Place) -> Cursor {
        match self.size.right_of(place, 1) {
            Some(next) => next.resting(),
            None => Cursor { place, held: true },
        }
    }

    fn pen_bytes(&self, pen: u8) -> Vec<u8> {
        let mut bytes = b"\x1B[0".to_vec();
        for (bit, attribute) in [b";1", b";4", b";5", b";7"].into_iter().enumerate() {
            if pen & 1 << bit != 0 {
                bytes.extend(attribute);
            }
        }
        bytes.push(b'm');
        bytes
    }

    fn wipe_bytes(&self) -> Vec<u8> {
        b"\x1B[0m\x1B[H\x1B[2J".to_vec()
    }
}

/// A count that is left out where it is 1, and a letter.
fn relative(bytes: &mut Vec<u8>, n: u8, letter: char) {
    if n == 1 {
        sequence(bytes, format_args!("{letter}"));
    } else {
        sequence(bytes, format_args!("{n}{letter}"));
    }
}

/// ESC [ and the rest of a sequence.
fn sequence(bytes: &mut Vec<u8>, rest: Arguments) {
    write!(bytes, "\x1B[{rest}").expect("a vector takes all that is written");
}
