//! Runs the core beside the original and document 01.

use std::env;
use std::process::ExitCode;

use compare::groups::run;
use compare::sample;
use compare::work::Extent;

const USAGE: &str = "usage: compare quick [SEED]
       compare tiny [SEED]
       compare long [SEED] [CASES]
       compare sample
       compare answers";

const SEED: u64 = 20_261_115;
const CASES: u64 = 10_000_000;

/// The number at this place of the command line, or another if there is none.
fn number(args: &[String], place: usize, otherwise: u64) -> Option<u64> {
    match args.get(place) {
        Some(digits) => digits.parse().ok(),
        None => Some(otherwise),
    }
}

fn print(lines: &[String]) -> bool {
    lines.iter().for_each(|line| println!("{line}"));
    true
}

/// Whether all that was asked for passed; none where the command line asks for nothing known.
fn command(args: &[String]) -> Option<bool> {
    let extent = match (args.first()?.as_str(), args.len()) {
        ("tiny", 1..=2) => Extent::Tiny,
        ("quick", 1..=2) => Extent::Quick,
        ("long", 1..=3) => Extent::Long,
        ("sample", 1) => return Some(print(&sample::questions())),
        ("answers", 1) => return Some(print(&sample::answers())),
        _ => return None,
    };
    let seed = number(args, 1, SEED)?;
    let cases = number(args, 2, CASES)?;
    Some(run(extent, seed, cases))
}

fn main() -> ExitCode {
    let args: Vec<String> = env::args().skip(1).collect();
    match command(&args) {
        Some(true) => ExitCode::SUCCESS,
        Some(false) => ExitCode::FAILURE,
        None => {
            eprintln!("{USAGE}");
            ExitCode::from(2)
        }
    }
}
