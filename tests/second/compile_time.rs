//! Times the proved compiler and the second one on the same sources, in turn: each worst shape and an ordinary program over
//! and over, of 4 KiB and of 16 KiB. It prints the median of five in microseconds, the ratio, and how the time grows.
//!
//!     compile_time

mod chained;
#[allow(dead_code)]
mod compiler;
mod deep;
#[allow(dead_code)]
mod grammar;
mod proved_compile;
#[allow(dead_code)]
mod rules;
#[allow(dead_code)]
mod symbols;
mod timing;

use proved_compile::Compile;
use std::time::Instant;
use symbols::LONGEST_TEXT;

const HEAD: &str = "GLOBAL $( START:1; WRCH:14 $) ";

/// A shape: its name, what stands before the links, a link, in which % is the link's number, and what stands behind them.
const SHAPES: [[&str; 4]; 14] = [
    ["functions", "", "LET F%(A)=A ", "LET START() BE F1(1)"],
    ["parameters", "LET F(A", ",P%", ")=A LET START() BE F(1)"],
    ["globals", "GLOBAL $( A:5", ";G%:5", "$) LET START()=A"],
    ["manifests", "MANIFEST $( A=1", ";M%=A", "$) LET START()=A"],
    ["locals", "LET START() BE $( LET A=1", ";LET B%=A", ";A:=1 $)"],
    ["uses of names", "LET START() BE $( LET A,B,C=1,2,3", ";A:=B;B:=C", ";A:=1 $)"],
    ["CASE labels", "LET START() BE SWITCHON 1 INTO $( ", "CASE %:", "WRCH(65) $)"],
    ["CASE labels, each with a command", "LET START() BE SWITCHON 1 INTO $( ", "CASE %:ENDCASE;", "$)"],
    ["CASE labels by manifests", "MANIFEST $( A=1 $) LET START() BE SWITCHON 1 INTO $( ", "CASE %:", "CASE -A: WRCH(65) $)"],
    ["operators", "LET START() BE WRCH(1", "+1", ")"],
    ["suffixes", "LET START() BE $( LET V=0; V:=V", "!1", " $)"],
    ["REPEATs", "LET START() BE WRCH(65)", " REPEAT", ""],
    ["strings", "LET START() BE $( LET A=0", ";A:=\"48,5 % PER CENT\"", " $)"],
    ["comments", "LET START() BE WRCH(65)", "// 48,5 per cent at noon\n", ""],
];

/// Nests, 60 deep, one after another.
const NESTS: [[&str; 5]; 3] = [
    ["brackets", "A:=", "(", "1", ")"],
    ["blocks", "", "$( LET B=1;", "A:=B", " $)"],
    ["tests", "", "IF A DO ", "A:=1", ""],
];

fn main() {
    deep::deep(|| {
        let library = proved_compile::library().expect("built with --cfg proved");
        println!("{:<34}{:>9}{:>9}{:>7}{:>9}{:>9}{:>7}{:>8}", "shape", "4K", "second", "ratio", "16K", "second", "ratio", "growth");
        for [name, begin, link, tail] in SHAPES {
            tell(library, name, &|bytes| chained(begin, link, tail, bytes));
        }
        for [name, begin, opening, innermost, closing] in NESTS {
            let nest = format!("{begin}{}{innermost}{};", opening.repeat(60), closing.repeat(60));
            tell(library, name, &|bytes| chained("LET START() BE $( LET A=0;", &nest, "A:=1 $)", bytes));
        }
        let day = "LET DAY%(V,N)=VALOF $( LET SUM,LOW,HIGH=0,V!0,V!0; FOR I=0 TO N-1 DO $( SUM:=SUM+V!I; IF V!I<LOW DO LOW:=V!I; TEST V!I>HIGH THEN HIGH:=V!I OR WRCH('.') $); RESULTIS SUM/N $) ";
        tell(library, "an ordinary program", &|bytes| chained("", day, "LET START() BE WRCH(65)", bytes));
    })
}

fn chained(begin: &str, link: &str, tail: &str, bytes: usize) -> Vec<u8> {
    chained::chained(&format!("{HEAD}{begin}"), link, tail, bytes)
}

fn tell(library: Compile, name: &str, source: &dyn Fn(usize) -> Vec<u8>) {
    let (small, large) = (source(LONGEST_TEXT / 4), source(LONGEST_TEXT));
    let [a, b] = medians(library, &small);
    let [c, d] = medians(library, &large);
    println!("{name:<34}{a:>9.0}{b:>9.0}{:>7.2}{c:>9.0}{d:>9.0}{:>7.2}{:>8.1}", a / b, c / d, c / a);
}

/// The medians of the proved and of the second compiler, in microseconds.
fn medians(library: Compile, source: &[u8]) -> [f64; 2] {
    timing::medians([&|| timed(library, source), &|| timed(compiler::compile, source)])
}

/// The time, and the answer's number: both accept or refuse.
fn timed(compile: Compile, source: &[u8]) -> (f64, u64) {
    let mut scratch = vec![1; 8 * source.len() + 64];
    let mut text = vec![1; 64 * source.len() + 1024];
    let mut answer = [0; 3];
    let begin = Instant::now();
    compile(source, &mut scratch, &mut text, &mut answer);
    (begin.elapsed().as_secs_f64() * 1e6, answer[0])
}
