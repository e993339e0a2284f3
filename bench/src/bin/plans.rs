//! Times the refreshes of the screens on the same pictures, in one run, and compares what they send. It fails where
//! they do not send the same, and where the proved screen takes much longer than the unproved one by the twin of its
//! search.

use std::env;
use std::process::ExitCode;
use std::time::Duration;

use legs_bench::cost::Kind;
use legs_bench::pairs::{self, Pair};
#[cfg(feature = "proved")]
use legs_bench::proved_screen::ProvedScreen;
use legs_bench::questions::{self, SIZE};
use legs_bench::shower::{Shower, Unproved};
use legs_bench::times::Times;
use legs_bench::timing::best_times;
use legs_bench::ways::Way;

/// As many pairs of all sorts are compared as the one argument says, or so many.
const COMPARED: usize = 350;
/// So many pairs are timed, and each so often. The best time of each counts.
const TIMED: usize = 20;
const ROUNDS: usize = 6;
/// So many refreshes are timed at once: as many in either direction.
const REFRESHES: usize = 8;
const MOST_OF_PROVED: f64 = 1.5;

fn main() -> ExitCode {
    let compared = env::args()
        .nth(1)
        .and_then(|pairs| pairs.parse().ok())
        .unwrap_or(COMPARED);
    let glasses = [
        ("blank", questions::blank_glass()),
        ("filled", questions::filled_glass()),
    ];
    let sorts = pairs::of_all_sorts(compared);
    println!(
        "DEC panel, {} x {}, a run in each row, {TIMED} pairs of pictures: what a refresh takes, in milliseconds",
        SIZE.rows, SIZE.columns
    );
    let mut ok = true;
    for kind in [Kind::Byte, Kind::Line] {
        for (picture, glass) in &glasses {
            println!("{kind:?} cost, {picture} glass");
            ok &= compare(kind, &pairs::a_run_in_each_row(glass, TIMED));
        }
        println!("{kind:?} cost, pictures of all sorts");
        ok &= all_agree(&mut showers(kind), &sorts);
    }
    println!("{}", if ok { "passed" } else { "FAILED" });
    if ok { ExitCode::SUCCESS } else { ExitCode::FAILURE }
}

/// The screens that are measured against each other: the unproved ones, the one by the twin first, and the proved one.
fn showers(kind: Kind) -> Vec<Box<dyn Shower>> {
    let unproved = |way| Unproved { way, kind };
    vec![
        Box::new(unproved(Way::Twin)),
        Box::new(unproved(Way::ByRows)),
        Box::new(unproved(Way::Lazily)),
        #[cfg(feature = "proved")]
        Box::new(ProvedScreen { kind }),
    ]
}

/// Prints the times of some pairs, and whether all send the same. Tells whether all is as it should be.
fn compare(kind: Kind, pairs: &[Pair]) -> bool {
    let mut showers = showers(kind);
    let times = refresh_times(&mut showers, pairs);
    println!("                   median       mean    to twin");
    for (shower, times_of) in showers.iter().zip(&times) {
        let [median, mean] = [times_of.median, times_of.mean].map(|time| time.as_secs_f64() * 1e3);
        let ratio = times_of.to(times[0]);
        println!("    {:10} {median:10.3} {mean:10.3} {ratio:10.2}", shower.name());
    }
    let mut is_fast = true;
    if let Some(proved) = times.get(3) {
        let gain = times[1].to(*proved);
        println!("    the proved screen is {gain:.2} times as fast as the unproved one by rows");
        is_fast = proved.to(times[0]) <= MOST_OF_PROVED;
    }
    if !is_fast {
        println!("    TOO SLOW");
    }
    all_agree(&mut showers, pairs) && is_fast
}

/// What a refresh takes for each screen. To make a screen and to redraw it does not count.
fn refresh_times(showers: &mut [Box<dyn Shower>], pairs: &[Pair]) -> Vec<Times> {
    let calls: Vec<(&Pair, usize)> = pairs
        .iter()
        .flat_map(|pair| [(pair, 0), (pair, REFRESHES)])
        .collect();
    best_times(showers, &calls, ROUNDS, |shower, (pair, refreshes)| {
        shower.time(pair, *refreshes)
    })
    .into_iter()
    .map(|times| Times::of(times.chunks(2).map(of_one).collect()))
    .collect()
}

/// What one refresh takes, from the times of a call without any and one with some.
fn of_one(calls: &[Duration]) -> Duration {
    calls[1].saturating_sub(calls[0]) / REFRESHES as u32
}

/// Whether all send the same bytes as the first.
fn all_agree(showers: &mut [Box<dyn Shower>], pairs: &[Pair]) -> bool {
    let (first, others) = showers
        .split_first_mut()
        .expect("there is the screen by the twin");
    let mut ok = true;
    for other in others {
        ok &= agree(first.as_mut(), other.as_mut(), pairs);
    }
    ok
}

/// Whether two screens send the same bytes: for a redraw, and for a refresh in each direction after it.
fn agree(one: &mut dyn Shower, other: &mut dyn Shower, pairs: &[Pair]) -> bool {
    let mut showings = 0;
    let mut differ = 0;
    for pair in pairs {
        for refreshes in 0..=2 {
            let sent = one.show(pair, refreshes);
            let by_other = other.show(pair, refreshes);
            showings += 1;
            if sent != by_other {
                differ += 1;
                println!("    after {refreshes} refreshes: {sent:02X?}, but {by_other:02X?}");
            }
        }
    }
    println!(
        "    {} and {} agree on {} of {showings} showings",
        one.name(),
        other.name(),
        showings - differ
    );
    differ == 0
}
