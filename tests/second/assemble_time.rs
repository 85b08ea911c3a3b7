//! Times the proved assembler and the second one on the same texts, in turn: the second compiler's texts for sources of
//! 16 KiB with many labels, and a text with as many labels as the memory has words for. It prints each text's bytes and
//! labels, the medians of five in microseconds, and the ratio.
//!
//!     assemble_time

mod assembler;
mod chained;
#[allow(dead_code)]
mod compiler;
mod deep;
#[allow(dead_code)]
mod grammar;
#[allow(dead_code)]
mod machine;
#[allow(dead_code)]
mod proved;
#[allow(dead_code)]
mod rules;
#[allow(dead_code)]
mod symbols;
mod timing;

use proved::Assemble;
use std::time::Instant;
use symbols::LONGEST_TEXT;

const MEMORY: usize = 32_768;
const PROGRAM: usize = 416;
const ROOM: usize = 32_767;
const HEAD: &str = "GLOBAL $( START:1; WRCH:14 $) ";

/// A shape: its name, what stands before the links, a link, in which % is the link's number, and what stands behind them.
const SHAPES: [[&str; 4]; 7] = [
    ["functions", "", "LET F%()=0;", "LET START() BE F1()"],
    ["CASE labels, each with a command", "LET START() BE SWITCHON 1 INTO $( ", "CASE %:ENDCASE;", "$)"],
    ["tests", "LET START() BE $( LET A=0;", "IF A DO A:=1;", "A:=1 $)"],
    ["loops", "LET START() BE $( LET A=0;", "WHILE A DO LOOP;", "A:=1 $)"],
    ["REPEATs", "LET START() BE WRCH(65)", " REPEAT", ""],
    ["strings", "LET START() BE $( LET A=0", ";A:=\"48,5 % PER CENT\"", " $)"],
    ["empty strings", "LET START() BE WRCH(\"\"", ",\"\"", ")"],
];

fn main() {
    deep::deep(|| {
        let library = proved::library().expect("built with --cfg proved").assemble;
        println!("{:<34}{:>9}{:>9}{:>9}{:>9}{:>7}", "shape", "bytes", "labels", "proved", "second", "ratio");
        for [name, begin, link, tail] in SHAPES {
            let source = chained::chained(&format!("{HEAD}{begin}"), link, tail, LONGEST_TEXT);
            tell(library, name, &compiled(&source));
        }
        let items: String = (1..=MEMORY - PROGRAM).map(|label| format!("{label}:DL{label}\n")).collect();
        tell(library, "as many labels as words", format!("$\n{items}Z").as_bytes());
    })
}

/// The second compiler's text for a source.
fn compiled(source: &[u8]) -> Vec<u8> {
    let mut scratch = vec![0; 8 * source.len() + 64];
    let mut text = vec![0; 64 * source.len() + 1024];
    let mut answer = [0; 3];
    compiler::compile(source, &mut scratch, &mut text, &mut answer);
    let [refusal, length, _] = answer;
    assert_eq!(refusal, 0, "a good source");
    text.truncate(length as usize);
    text
}

fn tell(library: Assemble, name: &str, text: &[u8]) {
    let made = assembler::assemble(text, MEMORY, ROOM);
    assert_eq!(made.refusal, None, "a good text");
    let labels = made.labels.iter().filter(|&&(number, _)| number != 0).count();
    let [a, b] = timing::medians([&|| timed(library, text), &|| timed(second, text)]);
    println!("{name:<34}{:>9}{labels:>9}{a:>9.0}{b:>9.0}{:>7.2}", text.len(), a / b);
}

/// The second assembler behind the library's signature.
fn second(text: &[u8], memory: &mut [u16], labels: &mut [u32], answer: &mut [u64; 3]) {
    let made = assembler::assemble(text, memory.len(), labels.len());
    memory.copy_from_slice(&made.memory);
    for (key, (number, address)) in labels.iter_mut().zip(made.labels) {
        *key = u32::from(number) << 16 | u32::from(address);
    }
    *answer = [0, u64::from(made.first_stack_word), 0];
}

/// The time, and all that is left.
fn timed(assemble: Assemble, text: &[u8]) -> (f64, (Vec<u16>, Vec<u32>, [u64; 3])) {
    let mut memory = vec![1; MEMORY];
    let mut labels = vec![1; ROOM];
    let mut answer = [0; 3];
    let begin = Instant::now();
    assemble(text, &mut memory, &mut labels, &mut answer);
    (begin.elapsed().as_secs_f64() * 1e6, (memory, labels, answer))
}
