//! What the second program's commands share: a file and perhaps a budget as their arguments, and how they end.

use std::process::ExitCode;

const BUDGET: u64 = 1_000_000_000;

/// Runs a file with the budget that is given, or with the usual one; None for any other arguments.
pub fn run_by(arguments: &[&str], run_file: impl Fn(&str, u64) -> Result<ExitCode, String>) -> Option<Result<ExitCode, String>> {
    match arguments {
        [file] => Some(run_file(file, BUDGET)),
        [file, budget] => budget.parse().ok().map(|budget| run_file(file, budget)),
        _ => None,
    }
}

/// The exit status: what was done, or 2 once it is said why nothing was.
pub fn ended(done: Option<Result<ExitCode, String>>, usage: &str) -> ExitCode {
    match done.unwrap_or_else(|| Err(usage.to_string())) {
        Ok(code) => code,
        Err(message) => {
            eprintln!("{message}");
            ExitCode::from(2)
        }
    }
}

pub fn arguments() -> Vec<String> {
    std::env::args().skip(1).collect()
}
