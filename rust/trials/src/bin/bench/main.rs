//! Times the planner beside the reference and beside two solvers, counts the steps of its portions, and
//! prints a report in Markdown, all in one run. Exits 1 where a figure is not what docs/BENCHMARKS.md
//! promises.
#![forbid(unsafe_code)]

mod beside_reference;
mod beside_solvers;
mod programs;
mod steps;
mod timing;

use std::process::{Command, ExitCode};
use std::{env, fs};

use steps::Portion;

/// What each report answers: whether every figure was as promised.
type Kept = bool;

fn main() -> ExitCode {
    // The report has this program itself run under callgrind.
    let words: Vec<String> = env::args().skip(1).collect();
    if let Some(portion) = Portion::named(&words) {
        portion.make();
        return ExitCode::SUCCESS;
    }
    head();
    let near = beside_reference::report();
    let bounded = steps::report();
    let far = beside_solvers::report();
    if near && bounded && far {
        ExitCode::SUCCESS
    } else {
        ExitCode::FAILURE
    }
}

fn head() {
    println!("# Benchmarks\n");
    println!("Made by one run of");
    println!();
    println!("    cd rust && cargo run --offline --release -p trials --bin bench > ../docs/BENCHMARKS.md");
    println!();
    println!("on {}, {}.", processors(), said_by("date", &["-u", "+%Y-%m-%d"]));
    println!(
        "Planner: {}. Reference: {}, opt-level 3.",
        said_by("rt", &["version"]),
        said_by("rustc", &["--version"])
    );
    println!();
    println!("Every table that is timed is lawful, with all modes permitted and a common period of 100,000 ticks. A least time is");
    println!("the least of many, measured in turn with those of the other side, so that what slows the machine slows both. Buffers are");
    println!("not cleared between runs.");
}

fn processors() -> String {
    let info = fs::read_to_string("/proc/cpuinfo").unwrap_or_default();
    let name = info.lines().find_map(|line| line.strip_prefix("model name"));
    let name = name.and_then(|rest| rest.split(':').nth(1)).unwrap_or("an unknown processor");
    let count = info.lines().filter(|line| line.starts_with("processor")).count();
    format!("{count} processors, {}", name.trim())
}

/// The first line that a command prints, or that it isn't there.
fn said_by(command: &str, words: &[&str]) -> String {
    let output = Command::new(command).args(words).output();
    let text = output.map(|output| String::from_utf8_lossy(&output.stdout).into_owned());
    let line = text.ok().and_then(|text| text.lines().next().map(str::to_owned));
    line.unwrap_or_else(|| format!("no {command} here"))
}
