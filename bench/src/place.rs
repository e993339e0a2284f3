//! Sizes, places and cursors.

/// 1 to 24 rows, 2 to 80 columns.
#[derive(Clone, Copy, Debug, PartialEq, Eq)]
pub struct Size {
    pub rows: u8,
    pub columns: u8,
}

pub const MOST_ROWS: usize = 24;

#[derive(Clone, Copy, Debug, PartialEq, Eq)]
pub struct Place {
    pub row: u8,
    pub column: u8,
}

/// The cursor is held while a wrap is pending in the last column.
#[derive(Clone, Copy, Debug, PartialEq, Eq)]
pub struct Cursor {
    pub place: Place,
    pub held: bool,
}

impl Place {
    pub const fn new(row: u8, column: u8) -> Place {
        Place { row, column }
    }

    /// The unheld cursor here.
    pub fn resting(self) -> Cursor {
        Cursor {
            place: self,
            held: false,
        }
    }

    pub fn above(self, n: u8) -> Option<Place> {
        let row = self.row.checked_sub(n)?;
        Some(Place { row, ..self })
    }

    pub fn left_of(self, n: u8) -> Option<Place> {
        let column = self.column.checked_sub(n)?;
        Some(Place { column, ..self })
    }
}

impl Size {
    pub fn places(self) -> usize {
        usize::from(self.rows) * usize::from(self.columns)
    }

    /// Places are counted row by row.
    pub fn number(self, place: Place) -> usize {
        usize::from(place.row) * usize::from(self.columns) + usize::from(place.column)
    }

    pub fn place_at(self, number: u16) -> Option<Place> {
        let columns = u16::from(self.columns);
        let row = number / columns;
        (row < u16::from(self.rows)).then(|| Place::new(row as u8, (number % columns) as u8))
    }

    pub fn below(self, place: Place, n: u8) -> Option<Place> {
        let row = place.row + n;
        (row < self.rows).then_some(Place { row, ..place })
    }

    pub fn right_of(self, place: Place, n: u8) -> Option<Place> {
        let column = place.column + n;
        (column < self.columns).then_some(Place { column, ..place })
    }
}
