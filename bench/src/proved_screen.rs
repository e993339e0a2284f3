//! The proved screen, behind a C function, which makes it anew at each call.

use crate::cost::Kind;
use crate::pairs::Pair;
use crate::searcher::Cell;
use crate::shower::{ROOM, Shower};

/// Numbers 0 and 1 stand for false and true.
#[repr(C)]
struct Rounds {
    refreshes: u32,
    line: u8,
    first_row: u8,
    first_column: u8,
    second_row: u8,
    second_column: u8,
}

#[repr(C)]
#[derive(Default)]
struct Sent {
    bytes: usize,
    /// The number of the refusal that ended the call, else 0.
    fault: u8,
}

unsafe extern "C" {
    /// Shows two pictures in turns on a panel of 24 rows and 80 columns, and tells how many bytes the last showing
    /// sent. They are in the output. Each pointer to cells or bytes is followed by a length.
    fn plans_show(
        rounds: *const Rounds,
        first: *const Cell,
        first_cells: usize,
        second: *const Cell,
        second_cells: usize,
        sent: *mut Sent,
        output: *mut u8,
        room: usize,
    ) -> u8;
}

pub struct ProvedScreen {
    pub kind: Kind,
}

impl Shower for ProvedScreen {
    fn name(&self) -> &'static str {
        "proved"
    }

    fn show(&mut self, pair: &Pair, refreshes: usize) -> Vec<u8> {
        let rounds = Rounds {
            refreshes: refreshes as u32,
            line: (self.kind == Kind::Line).into(),
            first_row: pair.first.rest.row,
            first_column: pair.first.rest.column,
            second_row: pair.second.rest.row,
            second_column: pair.second.rest.column,
        };
        let mut sent = Sent::default();
        let mut output = vec![0; ROOM];
        // SAFETY: each pointer and the length after it are those of one slice; what is written is borrowed mutably.
        let made = unsafe {
            plans_show(
                &rounds,
                pair.first.cells.as_ptr(),
                pair.first.cells.len(),
                pair.second.cells.as_ptr(),
                pair.second.cells.len(),
                &mut sent,
                output.as_mut_ptr(),
                output.len(),
            )
        };
        assert_eq!(made, 1, "the panel is made");
        assert_eq!(sent.fault, 0, "no showing is refused");
        output.truncate(sent.bytes);
        output
    }
}
