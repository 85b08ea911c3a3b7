//! The second program as a command for BCPL sources, with the behaviour of the product's `bcpl`.
//!
//!     bcpl FILE [BUDGET] < input     compiles FILE, assembles it and runs it, by the second program's own parts
//!
//! Standard output gets exactly the run's bytes, or the line of a refusal; a stop other than finished goes to standard
//! error. A finished run is then held to the source run by its definition, in all that is demanded of a compiler's
//! text: a difference, an undefined act of the source and a run too long to be followed go to standard error too. The
//! exit code is 0 only for a finished run that the source run agrees with.

mod assembler;
mod command;
// The command needs the compiler's text only, no trees written out and no run carried on.
#[allow(dead_code)]
mod compiler;
mod deep;
mod demand;
#[allow(dead_code)]
mod grammar;
#[allow(dead_code)]
mod machine;
mod random;
#[allow(dead_code)]
mod rules;
mod run;
mod symbols;

use random::Random;
use rules::Program;
use run::{End, MOST_STEPS};
use std::io::{Read, Write};
use std::process::ExitCode;

const MEMORY_WORDS: usize = 32_768;
const LABEL_ROOM: usize = 32_767;
const OUTPUT_ROOM: usize = 1 << 24;
const FINISHED: u64 = 30;
const USAGE: &str = "usage: bcpl FILE [BUDGET] < input";

fn main() -> ExitCode {
    let arguments = command::arguments();
    let arguments: Vec<&str> = arguments.iter().map(String::as_str).collect();
    command::ended(command::run_by(&arguments, |file, budget| deep::deep(|| run_file(file, budget))), USAGE)
}

fn run_file(file: &str, budget: u64) -> Result<ExitCode, String> {
    let source = std::fs::read(file).map_err(|error| format!("{file}: {error}"))?;
    let program = match rules::judge(&source) {
        Ok(program) => program,
        Err(refusal) => return Ok(refused(refusal.number, refusal.place, refusal.line)),
    };
    let text = compiler::text_of(&program);
    let mut assembly = assembler::assemble(&text, MEMORY_WORDS, LABEL_ROOM);
    if let Some(refusal) = assembly.refusal {
        return Ok(refused(refusal.number, refusal.place, refusal.line));
    }
    let mut input = Vec::new();
    std::io::stdin().read_to_end(&mut input).map_err(|error| format!("input: {error}"))?;
    let mut output = vec![0; OUTPUT_ROOM];
    let ran = machine::run(&mut assembly.memory, assembly.first_stack_word, &input, &mut output, budget);
    std::io::stdout().write_all(&output[..ran.written]).map_err(|error| format!("output: {error}"))?;
    if ran.stop != FINISHED {
        eprintln!("stopped {} after {} instructions and {} bytes of input", ran.stop, ran.count, ran.taken);
        return Ok(ExitCode::FAILURE);
    }
    if let Err(complaint) = check(&source, &program, &text, &input) {
        eprintln!("{complaint}");
        return Ok(ExitCode::FAILURE);
    }
    Ok(ExitCode::SUCCESS)
}

fn refused(number: u64, place: usize, line: usize) -> ExitCode {
    println!("refused {number} at {place} line {line}");
    ExitCode::FAILURE
}

/// Whether the source run, too, is over, and the text did what it says.
fn check(source: &[u8], program: &Program, text: &[u8], input: &[u8]) -> Result<(), String> {
    let held = demand::hold(source, program, text, input, MOST_STEPS, &mut Random::new(0));
    // The first line says what differs; the rest is all the bytes of it.
    let held = held.map_err(|report| format!("not as the source run: {}", report.lines().next().unwrap_or("")))?;
    let held = held.ok_or("the text is refused with fewer labels")?;
    match held.end {
        End::Over if held.steps_and_count.is_some() => Ok(()),
        End::Over => Err("the source run uses some of the memory's last eight words".to_string()),
        End::Undefined(act) => Err(format!("the source run meets an undefined act: {act:?}")),
        End::NotOver => Err(format!("the source run is not over after {MOST_STEPS} steps")),
    }
}
