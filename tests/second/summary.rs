//! What the comparisons share: their arguments, how often each number came up, and how the result is told.

use std::collections::BTreeMap;
use std::process::ExitCode;

/// How often each number came up; 0 is an accepted text.
pub type Tally = BTreeMap<u64, u64>;

/// Runs a comparison by the program's arguments: `[--self-check] [CASES]`. It is given the library, which `--self-check`
/// leaves out, and the number of cases; its summary or its report of a difference is printed.
pub fn run<L>(
    program: &str,
    mut cases: u64,
    library: Option<L>,
    compare_all: fn(Option<L>, u64) -> Result<String, String>,
) -> ExitCode {
    let mut self_check = false;
    for argument in std::env::args().skip(1) {
        match argument.parse() {
            Ok(number) => cases = number,
            Err(_) if argument == "--self-check" => self_check = true,
            Err(_) => {
                eprintln!("usage: {program} [--self-check] [CASES]");
                return ExitCode::from(2);
            }
        }
    }
    if library.is_none() && !self_check {
        eprintln!("built without the proved library: only --self-check can be run");
        return ExitCode::from(2);
    }
    match compare_all(library.filter(|_| !self_check), cases) {
        Ok(summary) => {
            println!("{summary}");
            ExitCode::SUCCESS
        }
        Err(report) => {
            println!("{report}");
            ExitCode::FAILURE
        }
    }
}

pub fn often(tally: &Tally, number: u64) -> u64 {
    tally.get(&number).copied().unwrap_or(0)
}

/// The counts of all the numbers wanted, or a complaint if one of them is below the least.
pub fn enough(tally: &Tally, wanted: &[u64], least: u64) -> Result<String, String> {
    let counts: Vec<String> = wanted.iter().map(|&number| format!("{number}: {}", often(tally, number))).collect();
    let counts = counts.join(", ");
    match wanted.iter().find(|&&number| often(tally, number) < least.max(1)) {
        Some(number) => Err(format!("{number} came up too rarely to be tested: {counts}")),
        None => Ok(counts),
    }
}

/// The heading of a difference, by which its case can be made again.
pub fn headed(kind: &str, number: u64, seed: u64, report: &str) -> String {
    format!("DIFFERENCE in {kind} {number} (seed {seed})\n{report}")
}
