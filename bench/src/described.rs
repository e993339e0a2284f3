//! Panels described anew for the reference, by what each motion does to a row and a column.

use crate::place::{Cursor, Place, Size};

/// The reference adds the retype.
#[derive(Clone, Debug)]
pub struct Described {
    pub size: Size,
    pub motions: Vec<Motion>,
}

#[derive(Clone, Debug)]
pub struct Motion {
    pub bytes: u8,
    pub milliseconds: u16,
    pub effect: Effect,
}

#[derive(Clone, Debug)]
pub enum Effect {
    FirstColumn,
    /// So many rows down and columns to the right, if that is on the panel. Not while the cursor is held.
    By(i16, i16),
    To(Place),
    /// What is told for each place, and then for each place while the cursor is held.
    Told(Vec<Option<Place>>),
}

/// The deferred-wrap panel.
pub fn dec(size: Size) -> Described {
    let mut described = Described {
        size,
        motions: Vec::new(),
    };
    described.add("\r", 0, Effect::FirstColumn);
    described.add("\x08", 0, Effect::By(0, -1));
    described.add("\n", 0, Effect::By(1, 0));
    for (letter, most, rows, columns) in [
        ('A', 23, -1, 0),
        ('B', 23, 1, 0),
        ('C', 79, 0, 1),
        ('D', 79, 0, -1),
    ] {
        described.add(&format!("\x1B[{letter}"), 2, Effect::By(rows, columns));
        for n in 2..=most {
            described.add(&format!("\x1B[{n}{letter}"), 2, Effect::By(n * rows, n * columns));
        }
    }
    for row in 0..size.rows {
        for column in 0..size.columns {
            let bytes = format!("\x1B[{};{}H", row + 1, column + 1);
            described.add(&bytes, 5, Effect::To(Place::new(row, column)));
        }
    }
    described
}

impl Described {
    fn add(&mut self, bytes: &str, milliseconds: u16, effect: Effect) {
        self.motions.push(Motion {
            bytes: bytes.len() as u8,
            milliseconds,
            effect,
        });
    }

    /// The same motions with other delays.
    pub fn with_delays(mut self, delay: impl Fn(u16) -> u16) -> Described {
        for (number, motion) in self.motions.iter_mut().enumerate() {
            motion.milliseconds = delay(number as u16);
        }
        self
    }
}

impl Effect {
    /// Where it leads from a cursor, if it is offered there.
    pub fn leads(&self, size: Size, from: Cursor) -> Option<Place> {
        let Place { row, column } = from.place;
        match *self {
            Effect::FirstColumn => Some(Place::new(row, 0)),
            Effect::To(place) => Some(place),
            Effect::Told(ref places) => {
                let held = if from.held { places.len() / 2 } else { 0 };
                places[held + size.number(from.place)]
            }
            Effect::By(..) if from.held => None,
            Effect::By(rows, columns) => {
                let (row, column) = (i16::from(row) + rows, i16::from(column) + columns);
                let on_panel =
                    (0..size.rows.into()).contains(&row) && (0..size.columns.into()).contains(&column);
                on_panel.then(|| Place::new(row as u8, column as u8))
            }
        }
    }
}
