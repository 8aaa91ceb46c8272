//! Times the core against the original over its stand-ins and against plain Rust, all in one run, and prints a Markdown table.

mod boxes;
mod cases;
mod measured;
mod plain;
mod script;
mod sides;
mod timing;

use std::env::consts::ARCH;
use std::process::Command;
use std::time::{Duration, Instant};

use timing::Side;

const ALLOWED: Duration = Duration::from_secs(2);

/// Prints the head of a table: what each of its lines measures, and the sides beside the core.
pub fn table(what: &str, others: &[&str]) {
    let heads: Vec<_> = others
        .iter()
        .map(|&name| format!(" {name} | ratio |"))
        .collect();
    println!();
    println!("| {what} | winchbarn |{} repetitions |", heads.concat());
    println!("|---|{}---|", "---|".repeat(1 + 2 * others.len()));
}

/// Prints a line of a table. The first side is the core; each ratio is the core's time to that side's.
pub fn report(name: &str, mut sides: Vec<Side>) {
    let (medians, turns) = timing::medians(&mut sides, ALLOWED);
    let core = medians[0];
    let ratio = |other: &Duration| core.as_secs_f64() / other.as_secs_f64();
    let others: Vec<_> = medians[1..]
        .iter()
        .map(|other| format!(" {} | {:.2} |", shown(*other), ratio(other)))
        .collect();
    println!("| {name} | {} |{} {turns} |", shown(core), others.concat());
}

fn shown(time: Duration) -> String {
    format!("{:.2} µs", time.as_nanos() as f64 / 1000.0)
}

fn processor() -> String {
    let lscpu = Command::new("lscpu").env("LC_ALL", "C").output();
    let told = lscpu.map_or_else(|_| Vec::new(), |output| output.stdout);
    let told = String::from_utf8_lossy(&told);
    let name = told
        .lines()
        .find_map(|line| line.strip_prefix("Model name:"));
    name.unwrap_or("a processor without a name")
        .trim()
        .to_owned()
}

/// What two readings of the clock take; it is part of every time.
fn clock() -> Duration {
    let mut clock = [Side::new(|| timing::timed(|| ()))];
    timing::medians(&mut clock, Duration::from_millis(50)).0[0]
}

fn main() {
    let start = Instant::now();
    println!(
        "{} ({ARCH}); {}; optimised.",
        processor(),
        env!("RUSTC_VERSION")
    );
    println!(
        "Medians of single calls; the sides take turns. The text is restored, and inputs are copied, outside of the timed part. \
         The clock's own {} are part of each time.",
        shown(clock())
    );
    measured::clamping();
    measured::boxes();
    measured::edits();
    measured::shifts();
    measured::utf8();
    measured::merging();
    measured::scripts();
    println!();
    println!("{} s in all.", start.elapsed().as_secs());
}
