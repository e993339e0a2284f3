//! Pictures that are shown in turns. All are the same in every run.

use crate::place::Place;
use crate::questions::{SIZE, any_place, blank_glass};
use crate::random::Random;
use crate::searcher::Cell;

/// What is wanted, and where the cursor is to rest.
#[derive(Clone, Debug)]
pub struct Picture {
    pub cells: Vec<Cell>,
    pub rest: Place,
}

#[derive(Clone, Debug)]
pub struct Pair {
    pub first: Picture,
    pub second: Picture,
}

const PENS: usize = 16;
/// So many columns has a run at the most.
const MOST_RUN: usize = 10;
/// How many stretches the pictures of a pair differ in.
const STRETCHES: [usize; 7] = [0, 1, 3, 10, 24, 60, 300];

/// So many pairs that differ in a run of each row: some letters in a pen, and then others in any pen. All other cells
/// are those of a glass.
pub fn a_run_in_each_row(glass: &[Cell], count: usize) -> Vec<Pair> {
    let mut random = Random::new(0x94D0_49BB_1331_11EB);
    (0..count)
        .map(|_| {
            let mut pair = same(glass, &mut random);
            for row in 0..usize::from(SIZE.rows) {
                draw_run(&mut pair, row, &mut random);
            }
            pair
        })
        .collect()
}

fn draw_run(pair: &mut Pair, row: usize, random: &mut Random) {
    let columns = usize::from(SIZE.columns);
    let length = 1 + random.below(MOST_RUN);
    let first = row * columns + random.below(columns + 1 - length);
    let pens = [0, 1].map(|_| random.below(PENS) as u8);
    for number in first..first + length {
        let letter = random.below(26);
        let other = (letter + 1 + random.below(25)) % 26;
        for (picture, letter, pen) in [
            (&mut pair.first, letter, pens[0]),
            (&mut pair.second, other, pens[1]),
        ] {
            picture.cells[number] = Cell {
                code: b'A' + letter as u8,
                pen,
            };
        }
    }
}

/// So many pairs of all sorts: blank or filled, in one pen, two or all, that differ nowhere, in a few places, or in
/// most.
pub fn of_all_sorts(count: usize) -> Vec<Pair> {
    let mut random = Random::new(0xBF58_476D_1CE4_E5B9);
    (0..count)
        .map(|index| {
            let pens = [1, 2, PENS][random.below(3)];
            let mut glass = blank_glass();
            if random.below(2) == 0 {
                glass.fill_with(|| any_cell(pens, &mut random));
            }
            let mut pair = same(&glass, &mut random);
            for _ in 0..STRETCHES[index % STRETCHES.len()] {
                let first = random.below(SIZE.places());
                let end = SIZE.places().min(first + 1 + random.below(MOST_RUN));
                pair.second.cells[first..end].fill_with(|| any_cell(pens, &mut random));
            }
            pair
        })
        .collect()
}

/// Two pictures that are the same, but for their rest places.
fn same(glass: &[Cell], random: &mut Random) -> Pair {
    let mut picture = || Picture {
        cells: glass.to_vec(),
        rest: any_place(random),
    };
    Pair {
        first: picture(),
        second: picture(),
    }
}

/// Any code, in a pen below a number.
fn any_cell(pens: usize, random: &mut Random) -> Cell {
    Cell {
        code: b' ' + random.below(95) as u8,
        pen: random.below(pens) as u8,
    }
}
