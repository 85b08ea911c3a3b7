//! Times the proved reading of symbols and the second one on the same sources of 16 KiB, in turn: names, reserved words,
//! and an ordinary program over and over. It prints the medians of five in microseconds, and the ratio.
//!
//!     symbols_time

mod chained;
#[allow(dead_code)]
mod proved_source;
#[allow(dead_code)]
mod symbols;
mod timing;

use proved_source::Read;
use std::time::Instant;
use symbols::LONGEST_TEXT;

/// A shape: its name, and what stands there over and over, in which % is its number.
const SHAPES: [[&str; 2]; 4] = [
    ["names of no candidates", "HUMIDITY% KELVIN YARD JUNE% "],
    ["names of three candidates", "TIME TONE TUBE TAPE "],
    ["reserved words", "LET AND BE VEC VALOF RESULTIS TEST THEN OR IF UNLESS WHILE REPEATUNTIL SWITCHON INTO CASE DEFAULT FINISH "],
    ["an ordinary program", "LET DAY%(V,N)=VALOF $( LET SUM,LOW=0,V!0; FOR I=0 TO N-1 DO IF V!I<LOW DO LOW:=V!I; RESULTIS SUM/N $) "],
];

fn main() {
    let library = proved_source::library().expect("built with --cfg proved").symbols;
    println!("{:<34}{:>9}{:>9}{:>7}", "shape", "proved", "second", "ratio");
    for [name, link] in SHAPES {
        let text = chained::chained("", link, "", LONGEST_TEXT);
        let [a, b] = timing::medians([&|| timed(library, &text), &|| timed(second, &text)]);
        println!("{name:<34}{a:>9.0}{b:>9.0}{:>7.2}", a / b);
    }
}

/// The second reading behind the library's signature.
fn second(text: &[u8], scratch: &mut [u32], answer: &mut [u64; 3]) {
    let read = symbols::read_symbols(text).expect("good symbols");
    scratch.fill(0);
    for (entries, symbol) in scratch.chunks_exact_mut(3).zip(&read) {
        entries.copy_from_slice(&[symbol.kind, symbol.value, symbol.place]);
    }
    *answer = [0, read.len() as u64, 0];
}

/// The time, and all that is left.
fn timed(read: Read, text: &[u8]) -> (f64, (Vec<u32>, [u64; 3])) {
    let mut scratch = vec![1; 3 * text.len()];
    let mut answer = [0; 3];
    let begin = Instant::now();
    read(text, &mut scratch, &mut answer);
    (begin.elapsed().as_secs_f64() * 1e6, (scratch, answer))
}
