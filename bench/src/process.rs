//! The program batchplan beside the solver glpsol, each started as a process on the same problem.
use crate::median;
use crate::sheets::Sheet;
use std::fs::{self, File};
use std::path::{Path, PathBuf};
use std::process::{Command, Stdio};
use std::time::Instant;

const ROUNDS: usize = 31;

/// The repository's target folder.
fn target() -> PathBuf {
    Path::new(env!("CARGO_MANIFEST_DIR")).join("../target")
}

/// Milliseconds until a program that is started ends. It must end well.
fn time(command: &mut Command) -> f64 {
    let start = Instant::now();
    let ended = command.stdout(Stdio::null()).stderr(Stdio::null()).status();
    let elapsed = start.elapsed().as_secs_f64() * 1000.0;
    assert!(ended.as_ref().is_ok_and(|status| status.success()), "{command:?}: {ended:?}");
    elapsed
}

fn batchplan(sheet: &Path) -> Command {
    let mut command = Command::new(target().join("bin/batchplan"));
    command.stdin(File::open(sheet).expect("the sheet was written"));
    command
}

fn glpsol(program: &Path) -> Command {
    let mut command = Command::new("glpsol");
    command.arg("--lp").arg(program);
    command
}

/// The optimum that glpsol finds.
fn optimum(program: &Path) -> f64 {
    let report = target().join("bench/report");
    time(glpsol(program).arg("-o").arg(&report));
    let text = fs::read_to_string(report).expect("glpsol wrote its report");
    let line = text
        .lines()
        .find(|line| line.starts_with("Objective:"))
        .expect("a report has an objective");
    line.split_whitespace()
        .nth(3)
        .and_then(|word| word.parse().ok())
        .expect("an objective has a value")
}

fn compare_one(sheet: &Sheet) {
    let (bytes, program) = (target().join("bench/sheet"), target().join("bench/problem.lp"));
    fs::write(&bytes, sheet.bytes()).expect("target/bench can be written");
    fs::write(&program, sheet.linear_program()).expect("target/bench can be written");
    let printed = batchplan(&bytes).output().expect("batchplan can be started").stdout;
    let listing = batchplan::listing(&sheet.bytes());
    assert!(printed == listing.as_bytes(), "{}: batchplan prints another listing", sheet.name);
    let plan = batchplan::Plan::of_sheet(&sheet.bytes()).expect("the sheet was planned before");
    let averaged: f64 =
        plan.amounts().zip(&sheet.cost).map(|(amount, &cost)| amount * f64::from(cost)).sum();
    println!(
        "{}: optimum {:.1}, low/D {:.1}, cost of the average {averaged:.1}",
        sheet.name,
        optimum(&program),
        plan.low as f64 / f64::from(sheet.d)
    );
    let rounds: Vec<[f64; 2]> =
        (0..ROUNDS).map(|_| [time(&mut batchplan(&bytes)), time(&mut glpsol(&program))]).collect();
    println!(
        "  batchplan {:.2} ms, glpsol {:.2} ms, ratio {:.2}",
        median(rounds.iter().map(|round| round[0])),
        median(rounds.iter().map(|round| round[1])),
        median(rounds.iter().map(|round| round[0] / round[1]))
    );
}

pub fn compare(sheets: &[Sheet]) {
    if !target().join("bin/batchplan").is_file() {
        println!(
            "target/bin/batchplan is not there, so it is not timed: `./build batchplan` makes it"
        );
        return;
    }
    if Command::new("glpsol").arg("--version").stdout(Stdio::null()).status().is_err() {
        println!("glpsol is not there, so batchplan is not timed beside it");
        return;
    }
    fs::create_dir_all(target().join("bench")).expect("target/ can be written");
    println!("As processes, medians of {ROUNDS} rounds. glpsol solves the problem; batchplan takes k steps.");
    sheets.iter().for_each(compare_one);
}
