//! Times the searches on the same legs, in one run, and compares their answers. It fails where answers differ, where
//! the proved search takes much longer than its unproved twin, and where the twin takes much longer than its peer by
//! rows on one of the panels with many costs.

use std::env;
use std::process::ExitCode;
use std::time::Duration;

use legs_bench::cost::Kind;
use legs_bench::dec::DecPanel;
use legs_bench::delayed::{Delayed, short_ones_dear, spread};
use legs_bench::described;
use legs_bench::pairs;
#[cfg(feature = "proved")]
use legs_bench::proved::Proved;
use legs_bench::questions::{self, Question, SIZE};
use legs_bench::reference;
use legs_bench::searcher::{Cell, Searcher};
use legs_bench::times::Times;
use legs_bench::timing::best_times;
use legs_bench::ways::Way;
use legs_bench::worked::WORKED;

/// As many random legs as the one argument says, or so many.
const LEGS: usize = 200;
/// The legs of the plans of so many pairs of pictures.
const PAIRS: usize = 8;
/// The reference is slow: it is asked every fiftieth leg that is timed, and every eighth of the others.
const SAMPLE: usize = 50;
const SAMPLE_OF_OTHERS: usize = 8;
/// Each leg is timed so often, and its best time counts.
const ROUNDS: usize = 5;
/// So many copies of a question are timed at once.
const COPIES: u32 = 8;
/// Most legs of plans are short.
const COPIES_OF_PLANS: u32 = 32;
const MOST_OF_PROVED: f64 = 1.5;
/// On the panels with many costs.
const MOST_OF_TWIN: f64 = 2.0;

const DEC: DecPanel = DecPanel { size: SIZE };

/// Searches on one panel by one cost. The twin is the first, and the peer by rows the second.
struct Field {
    searchers: Vec<Box<dyn Searcher>>,
    reference: Box<dyn Searcher>,
    /// So many times its peer's time may the twin take.
    most_of_twin: f64,
}

/// What is asked in one setting.
struct Asked {
    timed: Vec<Question>,
    /// These are only compared.
    others: Vec<Question>,
    copies: u32,
}

fn main() -> ExitCode {
    let legs = env::args()
        .nth(1)
        .and_then(|legs| legs.parse().ok())
        .unwrap_or(LEGS);
    let glasses = [
        ("blank", questions::blank_glass()),
        ("filled", questions::filled_glass()),
    ];
    println!(
        "{} x {}: what a leg takes, in microseconds",
        SIZE.rows, SIZE.columns
    );
    let mut ok = true;
    for kind in [Kind::Byte, Kind::Line] {
        let mut field = dec_field(kind);
        ok &= field.finds_worked(kind);
        for (picture, glass) in &glasses {
            println!("DEC panel, {kind:?} cost, {picture} glass, random pairs");
            ok &= field.compare(&random(glass, legs));
            println!("DEC panel, {kind:?} cost, {picture} glass, legs of plans");
            ok &= field.compare(&of_plans(glass));
        }
    }
    let mut many = many_costs_field();
    let mut dear = short_ones_dear_field();
    for (picture, glass) in &glasses {
        println!("Panel with many costs, Line cost, {picture} glass, random pairs");
        ok &= many.compare(&random(glass, legs / 2));
        println!("The same with short motions dear");
        ok &= dear.compare(&few(glass, legs / 10));
    }
    println!("{}", if ok { "passed" } else { "FAILED" });
    if ok { ExitCode::SUCCESS } else { ExitCode::FAILURE }
}

fn dec_field(kind: Kind) -> Field {
    Field {
        searchers: vec![
            Way::Twin.by(kind, DEC),
            Way::ByRows.by(kind, DEC),
            Way::Lazily.by(kind, DEC),
            #[cfg(feature = "proved")]
            Box::new(Proved::new(kind, false)),
        ],
        reference: reference::by(kind, described::dec(SIZE)),
        most_of_twin: f64::INFINITY,
    }
}

fn many_costs_field() -> Field {
    let panel = Delayed {
        panel: DEC,
        delay: spread,
    };
    Field {
        searchers: vec![
            Way::Twin.by(Kind::Line, panel),
            Way::ByRows.by(Kind::Line, panel),
            Way::Lazily.by(Kind::Line, panel),
            #[cfg(feature = "proved")]
            Box::new(Proved::new(Kind::Line, true)),
        ],
        reference: reference::by(Kind::Line, described::dec(SIZE).with_delays(spread)),
        most_of_twin: MOST_OF_TWIN,
    }
}

fn short_ones_dear_field() -> Field {
    let panel = Delayed {
        panel: DEC,
        delay: short_ones_dear,
    };
    Field {
        searchers: vec![
            Way::Twin.by(Kind::Line, panel),
            Way::ByRows.by(Kind::Line, panel),
            Way::Lazily.by(Kind::Line, panel),
        ],
        reference: reference::by(Kind::Line, described::dec(SIZE).with_delays(short_ones_dear)),
        most_of_twin: MOST_OF_TWIN,
    }
}

fn random(glass: &[Cell], legs: usize) -> Asked {
    Asked {
        timed: questions::unheld(glass, legs),
        others: questions::held(glass),
        copies: COPIES,
    }
}

/// For searches that take long.
fn few(glass: &[Cell], legs: usize) -> Asked {
    Asked {
        timed: questions::unheld(glass, legs),
        others: questions::held(glass),
        copies: 1,
    }
}

fn of_plans(glass: &[Cell]) -> Asked {
    Asked {
        timed: questions::of_plans(&pairs::a_run_in_each_row(glass, PAIRS)),
        others: Vec::new(),
        copies: COPIES_OF_PLANS,
    }
}

impl Field {
    /// Whether each finds the legs that were worked out by hand.
    fn finds_worked(&mut self, kind: Kind) -> bool {
        let mut ok = true;
        for searcher in self.searchers.iter_mut().chain([&mut self.reference]) {
            for worked in WORKED.iter().filter(|worked| worked.kind == kind) {
                if !worked.is_found_by(searcher.as_mut()) {
                    println!("{} does not find {worked:?}", searcher.name());
                    ok = false;
                }
            }
        }
        ok
    }

    /// Prints the times in one setting, and whether all answers agree. Tells whether all is as it should be.
    fn compare(&mut self, asked: &Asked) -> bool {
        let times: Vec<Times> =
            best_times(&mut self.searchers, &asked.timed, ROUNDS, |searcher, question| {
                searcher.time(question.scene(), question.start, question.goal, asked.copies)
            })
            .into_iter()
            .map(Times::of)
            .collect();
        println!("                   median       mean    to twin");
        for (searcher, times_of) in self.searchers.iter().zip(&times) {
            print_times(searcher.name(), *times_of, times_of.to(times[0]));
        }
        let proved = times.get(3).map_or(0.0, |proved| proved.to(times[0]));
        let is_fast = proved <= MOST_OF_PROVED && times[0].to(times[1]) <= self.most_of_twin;
        if !is_fast {
            println!("    TOO SLOW");
        }
        self.agree(asked) && is_fast
    }

    /// Whether all find the legs that the twin finds: the same costs and the same motions.
    fn agree(&mut self, asked: &Asked) -> bool {
        let all: Vec<&Question> = asked.timed.iter().chain(&asked.others).collect();
        let timed = asked.timed.iter().step_by(SAMPLE);
        let others = asked.others.iter().step_by(SAMPLE_OF_OTHERS);
        let sample: Vec<&Question> = timed.chain(others).collect();
        let (twin, others) = self.searchers.split_first_mut().expect("there is the twin");
        let mut ok = true;
        for other in others {
            ok &= agree(twin.as_mut(), other.as_mut(), &all);
        }
        ok & agree(twin.as_mut(), self.reference.as_mut(), &sample)
    }
}

fn print_times(name: &str, times: Times, ratio: f64) {
    let [median, mean] = [times.median, times.mean].map(microseconds);
    println!("    {name:10} {median:10.2} {mean:10.2} {ratio:10.2}");
}

fn microseconds(time: Duration) -> f64 {
    time.as_secs_f64() * 1e6
}

/// Whether two searchers find the same legs.
fn agree(one: &mut dyn Searcher, other: &mut dyn Searcher, questions: &[&Question]) -> bool {
    let mut differ = 0;
    for question in questions {
        let found = one.leg(question.scene(), question.start, question.goal);
        let by_other = other.leg(question.scene(), question.start, question.goal);
        if found != by_other {
            differ += 1;
            println!("    {question:?}: {found:?}, but {by_other:?}");
        }
    }
    println!(
        "    {} and {} agree on {} of {} legs",
        one.name(),
        other.name(),
        questions.len() - differ,
        questions.len()
    );
    differ == 0
}
