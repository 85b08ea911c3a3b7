//! Compares the proved compiler with the rules: every refusal with that of the second program, and what its text of an
//! accepted source does with the source run by its definition, on generated programs and on the vectors.
//!
//!     programs_compare [CASES]               CASES generated in all (20000 unless said)
//!     programs_compare --self-check [CASES]  without the proved library: the second compiler instead
//!
//! It exits 1 at the first difference, and also when some refusal or undefined act came up too rarely to have been tested.

mod assembler;
mod chained;
mod compiler;
mod deep;
mod demand;
#[allow(dead_code)]
mod grammar;
#[allow(dead_code)]
mod machine;
mod programs;
mod proved_compile;
mod random;
#[allow(dead_code)]
mod rules;
mod run;
#[allow(dead_code)]
mod sources;
mod symbols;
mod summary;

use demand::Held;
use proved_compile::Compile;
use random::Random;
use rules::{judge, Program};
use run::{End, Undefined};
use std::process::ExitCode;
use symbols::{Refusal, LONGEST_TEXT};
use summary::{enough, headed, often, Tally};

const CASES: u64 = 20_000;
const REFUSALS: [u64; 8] = [8, 9, 10, 11, 12, 13, 14, 16];
/// The stack that a compiler may take.
const STACK: usize = 8 << 20;
/// The steps of a run that is followed.
const BUDGET: u64 = 200_000;

/// A kind of source: its name, how many of a hundred cases are of it, and its maker.
const KINDS: [(&str, u64, fn(u64) -> Vec<u8>); 3] =
    [("good", 55, programs::good), ("damaged", 40, programs::damaged), ("of any grammar", 5, any_grammar)];

fn any_grammar(seed: u64) -> Vec<u8> {
    (sources::KINDS[seed as usize % sources::KINDS.len()].make)(seed).text
}

fn main() -> ExitCode {
    deep::deep(|| summary::run("programs_compare", CASES, proved_compile::library(), compare_all))
}

/// What came up: refusals, ends of runs, and the most instructions that were done for so many steps.
#[derive(Default)]
struct Tallies {
    refusals: Tally,
    ends: Tally,
    dearest: (u64, u64),
}

impl Tallies {
    fn add(&mut self, held: &Held) {
        *self.ends.entry(told_end(held.end)).or_default() += 1;
        let Some((steps, count)) = held.steps_and_count else { return };
        // Sixteen instructions are allowed to every run.
        let beyond = |count: u64| count.saturating_sub(16);
        let (most_steps, most_count) = self.dearest;
        if beyond(count) * most_steps.max(1) > beyond(most_count) * steps {
            self.dearest = (steps, count);
        }
    }
}

fn compare_all(library: Option<Compile>, cases: u64) -> Result<String, String> {
    let compile = library.unwrap_or(compiler::compile);
    let mut tallies = Tallies::default();
    for (place, (kind, share, make)) in KINDS.iter().enumerate() {
        for number in 0..(cases * share / 100).max(1) {
            let seed = ((place as u64) << 32) + number;
            let source = make(seed);
            let input = programs::input(&mut Random::new(!seed));
            compare(compile, &source, &input, seed, &mut tallies)
                .and_then(|refused| if *kind == "good" { expect_good(refused) } else { Ok(()) })
                .map_err(|report| headed(kind, number, seed, &told_source(&source, &input, &report)))?;
        }
    }
    let accepted = often(&tallies.refusals, 0);
    let refusals = enough(&tallies.refusals, &REFUSALS, cases / 1000)?;
    let ends = enough(&tallies.ends, &[0, 1, 2, 3, 4, 5, 6], cases / 1000)?;
    let not_over = often(&tallies.ends, NOT_OVER);
    let swept = compare_sweeps(compile, &mut tallies)?;
    let vectors = compare_vectors(compile, &mut tallies)?;
    let (done, equal) = if library.is_some() { ("compared", ": all equal") } else { ("made", "") };
    let (steps, count) = tallies.dearest;
    Ok(format!(
        "{done} {cases} generated programs ({accepted} accepted, {refusals}), {swept} swept and {vectors} vectors{equal}\n\
         ends of runs, 0 being over and the others undefined acts: {ends}; not over: {not_over}\n\
         at most {count} instructions for {steps} steps"
    ))
}

/// A program made to be good may only be too long.
fn expect_good(refused: u64) -> Result<(), String> {
    match refused {
        0 | 1 => Ok(()),
        _ => Err(format!("made to be accepted, and refused {refused}")),
    }
}

/// One program damaged everywhere, and sources of one form over and over.
fn compare_sweeps(compile: Compile, tallies: &mut Tallies) -> Result<u64, String> {
    let mut number = 0;
    let mut each = |source: &[u8]| {
        number += 1;
        let compared = compare(compile, source, &[], number, tallies);
        compared.map(|_| ()).map_err(|report| headed("sweep", number, number, &told_source(source, &[], &report)))
    };
    programs::sweep(&mut each)?;
    for bytes in [400, 3000, LONGEST_TEXT] {
        programs::steepest(bytes, &mut each)?;
    }
    Ok(number)
}

/// The stored sources, from the repository's root, with their inputs where they have one.
fn compare_vectors(compile: Compile, tallies: &mut Tallies) -> Result<u64, String> {
    let mut count = 0;
    for folder in ["tests/vectors/texts", "tests/vectors/runs"] {
        let entries = std::fs::read_dir(folder).map_err(|error| format!("{folder}: {error}"))?;
        for entry in entries {
            let path = entry.map_err(|error| format!("{folder}: {error}"))?.path();
            if path.extension().is_some_and(|extension| extension == "b") {
                let source = std::fs::read(&path).map_err(|error| format!("{}: {error}", path.display()))?;
                let input = std::fs::read(path.with_extension("in")).unwrap_or_default();
                compare(compile, &source, &input, 0, tallies)
                    .map_err(|report| format!("DIFFERENCE in {}\n{report}", path.display()))?;
                count += 1;
            }
        }
    }
    Ok(count)
}

fn told_source(source: &[u8], input: &[u8], report: &str) -> String {
    format!("source:\n{}\ninput: \"{}\"\n{report}", String::from_utf8_lossy(source), input.escape_ascii())
}

/// Compares the verdicts on a source and, if it is accepted, holds the text to what is demanded. The refusal's number.
fn compare(compile: Compile, source: &[u8], input: &[u8], seed: u64, tallies: &mut Tallies) -> Result<u64, String> {
    let verdict = judge(source);
    let refused = verdict.as_ref().map_or_else(|refusal| refusal.number, |_| 0);
    *tallies.refusals.entry(refused).or_default() += 1;
    let text = compiled(compile, source, &verdict, seed)?;
    let Ok(program) = verdict else { return Ok(refused) };
    let held = demand::hold(source, &program, &text, input, BUDGET, &mut Random::new(seed))?;
    if let Some(held) = held {
        tallies.add(&held);
    }
    Ok(refused)
}

const NOT_OVER: u64 = 99;

fn told_end(end: End) -> u64 {
    match end {
        End::Over => 0,
        End::Undefined(Undefined::ZeroDivisor) => 1,
        End::Undefined(Undefined::Address) => 2,
        End::Undefined(Undefined::NotStored) => 3,
        End::Undefined(Undefined::NoEntry) => 4,
        End::Undefined(Undefined::AbsentValue) => 5,
        End::Undefined(Undefined::PastMemory) => 6,
        End::NotOver => NOT_OVER,
    }
}

// ---------------------------------------------------------------------------------------------------------------------
// The compiler

/// What a call of the compiler leaves.
#[derive(Debug, PartialEq)]
struct Left {
    answer: [u64; 3],
    scratch_is_zero: bool,
    text: Vec<u8>,
}

/// Junk stands everywhere beforehand. Too little stack would end the program.
fn call(compile: Compile, source: &[u8], scratch: usize, room: usize, seed: u64) -> Left {
    let mut random = Random::new(!seed);
    let mut scratch = vec![random.next() as u32 | 1; scratch];
    let mut text = vec![random.byte() | 1; room];
    let mut answer = [random.next(); 3];
    std::thread::scope(|scope| {
        let thread = std::thread::Builder::new().stack_size(STACK);
        let compiling = || compile(source, &mut scratch, &mut text, &mut answer);
        thread.spawn_scoped(scope, compiling).expect("a thread").join().expect("a source compiled without panic");
    });
    Left { answer, scratch_is_zero: scratch.iter().all(|&entry| entry == 0), text }
}

/// The text of an accepted source, if verdict and buffers are as they must be in every room.
fn compiled(compile: Compile, source: &[u8], verdict: &Result<Program, Refusal>, seed: u64) -> Result<Vec<u8>, String> {
    let scratch = 8 * source.len() + 64;
    let room = 64 * source.len() + 1024;
    let given = call(compile, source, scratch, room, seed);
    let refused = |number: u64, place: usize, line: usize, room: usize| Left {
        answer: [number, place as u64, line as u64],
        scratch_is_zero: true,
        text: vec![0; room],
    };
    if source.len() <= LONGEST_TEXT {
        expect(&refused(15, 0, 1, room), &call(compile, source, scratch - 1, room, seed))?;
    }
    match verdict {
        Err(Refusal { number, place, line }) => {
            expect(&refused(*number, *place, *line, room), &given)?;
            Ok(Vec::new())
        }
        Ok(_) => {
            let length = (given.answer[1] as usize).min(room);
            let text = given.text[..length].to_vec();
            let accepted = |room: usize| {
                let mut text = text.clone();
                text.resize(room, 0);
                Left { answer: [0, length as u64, 0], scratch_is_zero: true, text }
            };
            expect(&accepted(room), &given)?;
            expect(&accepted(length), &call(compile, source, scratch, length, seed))?;
            if length > 0 {
                expect(&refused(15, 0, 1, length - 1), &call(compile, source, scratch, length - 1, seed))?;
            }
            Ok(text)
        }
    }
}

fn expect(wanted: &Left, given: &Left) -> Result<(), String> {
    if wanted == given {
        return Ok(());
    }
    let told = |left: &Left| {
        let zeros = if left.scratch_is_zero { "zero" } else { "not zero" };
        let end = left.text.iter().rposition(|&byte| byte != 0).map_or(0, |last| last + 1);
        let (room, text) = (left.text.len(), left.text[..end].escape_ascii());
        format!("{:?}, scratch {zeros}, room for {room} bytes, text: {text}", left.answer)
    };
    Err(format!("compile\nrules:    {}\ncompiler: {}", told(wanted), told(given)))
}
