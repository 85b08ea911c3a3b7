//! The second program as a command, with the behaviour of the product's `minicode`.
//!
//!     second FILE [BUDGET] < input     assembles FILE and runs it
//!     second --image FILE OUT          writes the image instead: the first stack word, then every memory word, each as
//!                                      two bytes, high byte first
//!
//! Standard output gets exactly the run's bytes, or the line of a refusal; a stop other than finished goes to standard
//! error. The exit code is 0 only for a finished run or a written image.

// The command needs no label table.
#[allow(dead_code)]
mod assembler;
mod command;
mod machine;

use std::io::{Read, Write};
use std::process::ExitCode;

const MEMORY_WORDS: usize = 32_768;
const LABEL_ROOM: usize = 32_767;
const OUTPUT_ROOM: usize = 1 << 24;
const USAGE: &str = "usage: second FILE [BUDGET] < input, or second --image FILE OUT";

fn main() -> ExitCode {
    let arguments = command::arguments();
    let arguments: Vec<&str> = arguments.iter().map(String::as_str).collect();
    let done = match arguments[..] {
        ["--image", file, out] => Some(write_image(file, out)),
        _ => command::run_by(&arguments, run_file),
    };
    command::ended(done, USAGE)
}

/// The image of a file's text and its first stack word, or None once the refusal is printed.
fn assemble_file(file: &str) -> Result<Option<(Vec<u16>, u16)>, String> {
    let text = std::fs::read(file).map_err(|error| format!("{file}: {error}"))?;
    let assembly = assembler::assemble(&text, MEMORY_WORDS, LABEL_ROOM);
    match assembly.refusal {
        Some(refusal) => {
            println!("refused {} at {} line {}", refusal.number, refusal.place, refusal.line);
            Ok(None)
        }
        None => Ok(Some((assembly.memory, assembly.first_stack_word))),
    }
}

fn run_file(file: &str, budget: u64) -> Result<ExitCode, String> {
    let Some((mut memory, first)) = assemble_file(file)? else { return Ok(ExitCode::FAILURE) };
    let mut input = Vec::new();
    std::io::stdin().read_to_end(&mut input).map_err(|error| format!("input: {error}"))?;
    let mut output = vec![0; OUTPUT_ROOM];
    let ran = machine::run(&mut memory, first, &input, &mut output, budget);
    std::io::stdout().write_all(&output[..ran.written]).map_err(|error| format!("output: {error}"))?;
    if ran.stop == 30 {
        return Ok(ExitCode::SUCCESS);
    }
    let machine::Registers { a, b, c, p, g, last_store } = ran.registers;
    eprintln!(
        "stopped {} after {} instructions and {} bytes of input: A={a} B={b} C={c} P={p} G={g} {last_store:?}",
        ran.stop, ran.count, ran.taken
    );
    Ok(ExitCode::FAILURE)
}

fn write_image(file: &str, out: &str) -> Result<ExitCode, String> {
    let Some((memory, first)) = assemble_file(file)? else { return Ok(ExitCode::FAILURE) };
    let bytes: Vec<u8> = std::iter::once(first).chain(memory).flat_map(u16::to_be_bytes).collect();
    std::fs::write(out, bytes).map_err(|error| format!("{out}: {error}"))?;
    Ok(ExitCode::SUCCESS)
}
