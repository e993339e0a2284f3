//! Plans whose bytes were worked out by hand.

mod leftward;

use leftward::Leftward;
use legs_bench::cost::{ByteCost, Kind};
use legs_bench::dec::DecPanel;
use legs_bench::place::{Place, Size};
use legs_bench::plan::{Plan, Stand, plan, runs};
use legs_bench::questions::{SIZE, blank_glass};
use legs_bench::screen::{Refusal, Screen};
use legs_bench::search::Search;
use legs_bench::searcher::Cell;
use legs_bench::ways::Way;

const FIRST: Place = Place::new(0, 0);

fn screen(kind: Kind) -> Screen<DecPanel> {
    let panel = DecPanel { size: SIZE };
    Screen::new(panel, Way::Twin.by(kind, panel))
}

/// A blank picture but for some letters in a pen, from a place on.
fn with(mut cells: Vec<Cell>, place: Place, letters: &[u8], pen: u8) -> Vec<Cell> {
    for (cell, &code) in cells[SIZE.number(place)..].iter_mut().zip(letters) {
        *cell = Cell { code, pen };
    }
    cells
}

#[test]
fn runs_end_with_the_row() {
    let shown = blank_glass();
    let mut wanted = with(blank_glass(), Place::new(0, 78), b"ABCD", 0);
    wanted[90].pen = 1;
    assert_eq!(runs(SIZE, &shown, &wanted), [78..80, 80..82, 90..91]);
    assert_eq!(runs(SIZE, &shown, &shown), []);
}

/// What is the same is left alone, a pen is set only where it is another, and the cursor goes to the rest place. A
/// return comes before a step back.
#[test]
fn a_letter_in_a_pen() {
    let mut screen = screen(Kind::Byte);
    let mut output = [0; 16];
    let wanted = with(blank_glass(), FIRST, b"AB", 9);
    assert_eq!(screen.refresh(&wanted, FIRST, &mut output), Ok(11));
    assert_eq!(&output[..11], b"\x1B[0;1;7mAB\r");
    let wanted = with(wanted, FIRST, b"CB", 9);
    assert_eq!(screen.refresh(&wanted, FIRST, &mut output), Ok(2));
    assert_eq!(&output[..2], b"C\r");
    assert_eq!(screen.refresh(&wanted, FIRST, &mut output), Ok(0));
}

/// After the last column the cursor is held, and only a return leads away.
#[test]
fn a_held_cursor() {
    let mut screen = screen(Kind::Byte);
    let mut output = [0; 64];
    let last = Place::new(0, 79);
    let wanted = with(blank_glass(), last, b"Z", 0);
    let sent = screen.redraw(&wanted, last, &mut output).unwrap();
    assert_eq!(&output[..sent], b"\x1B[0m\x1B[H\x1B[2J\x1B[79CZ\r\x1B[79C");
}

/// By the line cost the cursor goes over cells by typing them again. What is drawn before a leg is on the glass by
/// then, and what is drawn after it is not.
#[test]
fn a_leg_between_two_runs() {
    let mut screen = screen(Kind::Line);
    let mut output = [0; 64];
    let shown = with(blank_glass(), FIRST, b"abcdef", 0);
    screen.redraw(&shown, FIRST, &mut output).unwrap();
    let wanted = with(shown, FIRST, b"aBcdeF", 0);
    let sent = screen.refresh(&wanted, Place::new(0, 3), &mut output).unwrap();
    assert_eq!(&output[..sent], b"aBcdeF\x08\x08\x08");
    let sent = screen.refresh(&wanted, Place::new(0, 5), &mut output).unwrap();
    assert_eq!(&output[..sent], b"de");
    let sent = screen
        .refresh(&blank_glass(), Place::new(0, 5), &mut output)
        .unwrap();
    assert_eq!(&output[..sent], b"\r      \x08");
    let wanted = with(blank_glass(), Place::new(0, 2), b"XYZ", 0);
    let sent = screen.refresh(&wanted, Place::new(0, 3), &mut output).unwrap();
    assert_eq!(&output[..sent], b"\x08\x08\x08XYZ\x08\x08");
    let sent = screen
        .refresh(&with(wanted, FIRST, b"V", 0), Place::new(0, 4), &mut output)
        .unwrap();
    assert_eq!(&output[..sent], b"\rV XY");
}

#[test]
fn an_output_that_is_too_short_is_left_as_it_is() {
    let mut screen = screen(Kind::Byte);
    let mut output = [7; 10];
    let wanted = with(blank_glass(), FIRST, b"AB", 9);
    let refused = Err(Refusal::OutputTooShort { needed: 11 });
    assert_eq!(screen.refresh(&wanted, FIRST, &mut output), refused);
    assert_eq!(output, [7; 10]);
    assert_eq!(screen.refresh(&wanted, FIRST, &mut [0; 11]), Ok(11));
}

/// The goals are the runs' first places and then the rest place.
#[test]
fn the_first_goal_that_no_sequence_leads_to() {
    let to = |wanted: &[u8; 6], rest: Place| {
        let cells = |letters: &[u8; 6]| letters.map(|code| Cell { code, pen: 0 });
        let panel = Leftward {
            size: Size { rows: 2, columns: 3 },
        };
        let mut legs = Search::<_, ByteCost>::new(panel);
        let start = Stand { place: FIRST, pen: 0 };
        plan(&panel, &mut legs, &cells(b"abcdef"), &cells(wanted), start, rest)
    };
    let below = Place::new(1, 1);
    assert_eq!(to(b"aBcdef", below), Err(below));
    assert_eq!(to(b"aBcdEf", FIRST), Err(below));
    let found = to(b"aBcdef", FIRST);
    assert_eq!(
        found,
        Ok(Plan {
            bytes: b"aB\x08\x08".to_vec(),
            pen: 0
        })
    );
}
