//! Times the proved planner beside plain Rust planners; the proved writer of sheets, the proved listing and the proved
//! MPS text beside plain ones; and the program batchplan beside the solver glpsol. Nothing is asserted of a time.

// docs/TASK.md writes its sums by index, and so do the planners here.
#![allow(clippy::needless_range_loop)]

mod fixed;
mod layout;
mod listing;
mod mps;
mod plain;
mod process;
mod sheets;
mod writing;

use batchplan::{plan, Answer, RECORD_BYTES, SHEET_BYTES};
use sheets::{Generator, Sheet};
use std::hint::black_box;
use std::time::Instant;

pub const ROUNDS: usize = 41;

type Planner = fn(&[u8], &mut [u8]) -> Answer;

/// The proved planner first, then the two that it is compared with.
const PLANNERS: [Planner; 3] = [plan, plain::plan, fixed::plan];

/// What is timed: a sheet and the length of the record buffer.
type Case = (Vec<u8>, usize);

/// Nanoseconds for one call: for each case, those of each of the three.
pub type Round = Vec<[f64; 3]>;

pub fn median(values: impl Iterator<Item = f64>) -> f64 {
    let mut values: Vec<f64> = values.collect();
    values.sort_by(f64::total_cmp);
    values[values.len() / 2]
}

/// What a planner answers, and the buffer afterwards.
fn outcome(planner: Planner, (sheet, room): &Case) -> (Answer, Vec<u8>) {
    let mut record = vec![0xa5; *room];
    (planner(sheet, &mut record), record)
}

/// The answer to a case. Ends the run where two planners differ on it.
fn agreed(name: &str, case: &Case) -> Answer {
    let proved = outcome(PLANNERS[0], case);
    for planner in PLANNERS {
        assert!(outcome(planner, case) == proved, "{name}: the planners differ");
    }
    proved.0
}

/// The planners agree on a sheet, which gives a plan, and on sheets of 1 and of 40 steps that differ from it in one
/// byte, some with a short buffer. With 1 step some meet refusal 9 at the closing look.
fn check(sheet: &Sheet) {
    let answer = agreed(sheet.name, &(sheet.bytes(), RECORD_BYTES));
    assert!(matches!(answer, Answer::Plan { .. }), "{}: {answer:?}", sheet.name);
    let mut generator = Generator(3);
    for _ in 0..300 {
        let bytes = sheet.damaged(&mut generator);
        let room = if generator.between(0, 9) == 0 { 30 } else { RECORD_BYTES };
        agreed(sheet.name, &(bytes, room));
    }
}

/// Nanoseconds for one call, of so many.
pub fn nanoseconds(calls: usize, mut call: impl FnMut()) -> f64 {
    let start = Instant::now();
    for _ in 0..calls {
        call();
    }
    start.elapsed().as_nanos() as f64 / calls as f64
}

fn time(planner: Planner, (sheet, room): &Case, calls: usize) -> f64 {
    let mut record = vec![0; *room];
    nanoseconds(calls, || {
        black_box(planner(black_box(sheet), black_box(&mut record)));
    })
}

/// In each round every case is timed with every planner, one after the other.
fn rounds(cases: &[Case]) -> Vec<Round> {
    let calls = |case: &Case| (2e6 / time(plain::plan, case, 3)).clamp(1.0, 20_000.0) as usize;
    let cases: Vec<(&Case, usize)> = cases.iter().map(|case| (case, calls(case))).collect();
    let round = || {
        let each = cases.iter();
        each.map(|(case, calls)| PLANNERS.map(|planner| time(planner, case, *calls))).collect()
    };
    (0..ROUNDS).map(|_| round()).collect()
}

/// A line of a table: the medians of the proved time and of the two others, and of the ratios of the proved to each.
pub fn line(name: &str, rounds: &[Round], of: impl Fn(&Round) -> [f64; 3]) {
    let times = [0, 1, 2].map(|i| median(rounds.iter().map(|round| of(round)[i])) / 1000.0);
    let ratios = [1, 2].map(|i| median(rounds.iter().map(|round| of(round)[0] / of(round)[i])));
    let ([proved, plain, fixed], [to_plain, to_fixed]) = (times, ratios);
    println!("{name:30} {proved:11.3} {plain:11.3} {fixed:11.3}  {to_plain:7.2} {to_fixed:7.2}");
}

pub fn headline(what: &str) {
    headline_beside(what, ["Vec", "arrays"]);
}

/// The head of a table, with the names of the two others.
pub fn headline_beside(what: &str, others: [&str; 2]) {
    let [proved, plain, fixed] = ["proved", others[0], others[1]].map(|name| format!("{name}, us"));
    let [to_plain, to_fixed] = others.map(|name| format!("/{name}"));
    println!("{what:30} {proved:>11} {plain:>11} {fixed:>11}  {to_plain:>7} {to_fixed:>7}");
}

pub fn less(a: [f64; 3], b: [f64; 3]) -> [f64; 3] {
    [0, 1, 2].map(|i| a[i] - b[i])
}

/// Where the time of a sheet goes: reading, which a buffer of no bytes ends with refusal 8; the first step with the
/// closing look and the record; each later step.
fn parts(sheet: &Sheet, later: u16) {
    let cases = [(1, 0), (1, RECORD_BYTES), (1 + later, RECORD_BYTES)];
    let rounds = rounds(&cases.map(|(k, room)| (sheet.with_steps(k), room)));
    println!("{}", sheet.name);
    line("  read", &rounds, |round| round[0]);
    line("  first step, closing, record", &rounds, |round| less(round[1], round[0]));
    line("  each later step", &rounds, |round| {
        less(round[2], round[1]).map(|time| time / f64::from(later))
    });
}

fn main() {
    let timed = [sheets::c7(), sheets::c1(), sheets::middle(), sheets::largest()];
    timed.iter().for_each(check);
    assert_eq!(timed[3].bytes().len(), SHEET_BYTES, "the largest sheet has every entry");
    println!(
        "Answers and buffers are the same. Medians of {ROUNDS} rounds; a ratio is the proved time to the other's.\n"
    );
    headline("planning a sheet");
    for sheet in &timed {
        line(sheet.name, &rounds(&[(sheet.bytes(), RECORD_BYTES)]), |round| round[0]);
    }
    println!();
    headline("its parts");
    line("no sheet at all (refusal 1)", &rounds(&[(vec![], RECORD_BYTES)]), |round| round[0]);
    for (sheet, later) in timed[1..].iter().zip([400, 100, 40]) {
        parts(sheet, later);
    }
    println!();
    writing::compare(&timed);
    println!();
    listing::compare(&timed);
    println!();
    mps::compare(&timed);
    println!();
    process::compare(&timed[2..]);
}
