//! Holds the second program's rules and source run to the vectors, every refusal, and the steps, input taken and output of
//! every run, and to hand-checked answers; and what is demanded of a compiler's text to a text written by hand, good and
//! spoilt. It is a test program: `rustc --test`, run from the repository's root.

#![cfg(test)]

mod assembler;
#[allow(dead_code)]
mod compiler;
mod deep;
mod demand;
#[allow(dead_code)]
mod grammar;
#[allow(dead_code)]
mod machine;
mod random;
mod rules;
mod run;
mod symbols;

use random::Random;
use rules::{judge, Program};
use run::{run, End, Placement, Ran, Undefined::*};
use std::path::{Path, PathBuf};

const MEMORY: usize = 32_768;
const BUDGET: u64 = 1_000_000;
/// These write an address of the stack, which depends on the placement.
const PLACED: [&str; 2] = ["003", "023"];

fn folder(name: &str) -> PathBuf {
    Path::new("tests/vectors").join(name)
}

fn file(path: &Path) -> Vec<u8> {
    std::fs::read(path).unwrap_or_else(|error| panic!("{}: {error}", path.display()))
}

/// Each line of a folder's file of answers: the case's name and the answer.
fn expected(folder: &Path) -> Vec<(String, String)> {
    let text = String::from_utf8(file(&folder.join("expected"))).expect("plain text");
    let lines = text.lines().map(|line| line.split_once(' ').expect("a name and an answer"));
    lines.map(|(name, answer)| (name.to_string(), answer.to_string())).collect()
}

fn told(source: &[u8]) -> String {
    match judge(source) {
        Ok(_) => "accepted".to_string(),
        Err(refusal) => format!("refused {} at {} line {}", refusal.number, refusal.place, refusal.line),
    }
}

/// Some placement: entries from 1000 on, strings from 2000 on with room for the longest, the stack from 20000 on.
fn placement(program: &Program) -> Placement {
    Placement {
        entries: (0..program.functions.len()).map(|number| 1000 + number as u16).collect(),
        strings: (0..program.strings.len()).map(|number| 2000 + 200 * number as u16).collect(),
        first: 20_000,
    }
}

fn ran(source: &[u8], input: &[u8], budget: u64) -> Ran {
    let program = judge(source).unwrap_or_else(|refusal| panic!("{}: {refusal:?}", source.escape_ascii()));
    run(&program, &placement(&program), MEMORY, input, budget)
}

#[test]
fn texts() {
    let folder = folder("texts");
    let mut wrong = Vec::new();
    for (name, answer) in expected(&folder) {
        let told = told(&file(&folder.join(format!("{name}.b"))));
        if told != answer {
            wrong.push(format!("{name}: {told}, expected {answer}"));
        }
    }
    assert!(wrong.is_empty(), "{wrong:#?}");
}

#[test]
fn runs() {
    let folder = folder("runs");
    let mut wrong = Vec::new();
    for (name, answer) in expected(&folder) {
        let part = |ending: &str| file(&folder.join(format!("{name}.{ending}")));
        let ran = ran(&part("b"), &part("in"), BUDGET);
        let told = format!("steps {} taken {}", ran.steps, ran.taken);
        let same_output = ran.output == part("out") || PLACED.contains(&name.as_str());
        if ran.end != End::Over || told != answer || !same_output {
            wrong.push(format!("{name}: {:?} {told}, expected {answer}; same output: {same_output}", ran.end));
        }
    }
    assert!(wrong.is_empty(), "{wrong:#?}");
}

// ---------------------------------------------------------------------------------------------------------------------
// Refusals that the readings speak of

/// Sources with the number they are refused with, 0 for none; `^` stands before the place, which is 0 where none does.
const REFUSED: [(u64, &str); 74] = [
    (14, ""),
    (8, "LET START() BE ^FOO()"),
    (0, "GLOBAL $( S:1 $) LET S() BE $( $)"),
    (14, "LET START() BE $( $)"),
    (14, "GLOBAL $( START:2 $) LET START() BE $( $)"),
    (0, "GLOBAL $( A:1 $) LET A(P, Q) = P + Q"),
    // Names: when they are known,
    (0, "MANIFEST $( A=1; B=A $) GLOBAL $( S:B $) LET S() = B"),
    (8, "MANIFEST $( A=^A $)"),
    (8, "MANIFEST $( A=^B; B=1 $)"),
    (8, "LET F() = ^G LET G() = 1"),
    (14, "LET F() = G AND G() = F"),
    (8, "LET F() BE $( LET A, B = 1, ^A $)"),
    (14, "LET F(A) BE $( LET A = A; LET B = A $)"),
    (8, "LET F() BE $( LET V = VEC ^V $)"),
    (8, "LET F() BE FOR I = ^I TO 2 DO F()"),
    (8, "LET F() BE FOR I = 1 TO ^I DO F()"),
    (8, "LET F() BE $( FOR I = 1 TO 2 DO F(I); F(^I) $)"),
    (8, "LET F() BE $( $( LET A = 1 $); F(^A) $)"),
    (8, "LET F() BE $( $( LET A = 1; F() $) REPEATUNTIL ^A $)"),
    // which may be repeated,
    (9, "GLOBAL $( A:1; ^A:2 $)"),
    (9, "GLOBAL $( A:1 $) MANIFEST $( ^A=1 $)"),
    (9, "LET A() = 1 GLOBAL $( ^A:1 $)"),
    (9, "LET A() = 1 LET ^A() = 1"),
    (9, "GLOBAL $( A:1 $) LET A() = 1 AND ^A() = 1"),
    (9, "GLOBAL $( A:1; B:1 $) LET A() = 1 LET ^B() = 1"),
    (9, "MANIFEST $( M=1 $) LET A() = 1 AND ^M() = 1"),
    (11, "MANIFEST $( M=1 $) LET A() BE $( LET V = VEC ^M $) AND M() BE A()"),
    (9, "LET F(A, ^A) = 1"),
    (9, "LET F() BE $( LET A = 1; LET B, ^A = 1, 2 $)"),
    (14, "LET F(A) BE $( LET A = 1; FOR A = 1 TO 2 DO $( LET A = 3 $) $)"),
    (14, "GLOBAL $( A:1; B:1 $) LET C() = A + B"),
    // and what they mean.
    (14, "GLOBAL $( A:5 $) LET A() BE A := 1"),
    (10, "LET A() BE ^A := 1"),
    (10, "MANIFEST $( M=1 $) LET A() BE ^M := 1"),
    (8, "LET A() BE ^FOO := 1"),
    (10, "LET A() BE ^(FOO) := 1"),
    (8, "LET A() BE !^FOO := 1"),
    (10, "LET A(P) BE P, ^1 := 1, 2"),
    (10, "LET A(P) BE P, ^P+1, P := 1, 2, 3"),
    (10, "LET A(P) BE ^VALOF $( $) := 1"),
    (10, "LET A(P) BE P := @^A(1)"),
    (10, "LET A(P) BE P := @^@P"),
    (10, "LET A(P) BE P := @^\"S\""),
    (14, "LET A(P) BE ((P)), P!1, (!P) := @(P), @P!1, @(!P)"),
    // Constants
    (11, "LET F(P) BE $( LET V = VEC ^P $)"),
    (11, "LET F(P) BE $( LET V = VEC ^-P $)"),
    (11, "GLOBAL $( A:1; B:^A $)"),
    (8, "GLOBAL $( B:-^A $)"),
    (11, "GLOBAL $( B:^400 $)"),
    (11, "GLOBAL $( B:^#177777 $)"),
    (11, "GLOBAL $( B:^-1 $)"),
    (14, "GLOBAL $( A:0; B:399; C:FALSE $)"),
    (14, "MANIFEST $( M=-1 $) LET F() BE $( LET V = VEC -M $)"),
    (11, "LET F() BE $( LET V = VEC ^4096 $)"),
    (11, "LET F() BE $( LET V = VEC ^TRUE $)"),
    (11, "LET F() BE FOR I = 1 TO 2 BY ^FALSE DO F()"),
    // Labels
    (12, "LET F() BE ^CASE 1: F()"),
    (12, "LET F(A) BE SWITCHON A INTO $( CASE 1: $( ^CASE 2: F() $) $)"),
    (12, "LET F(A) BE SWITCHON A INTO $( CASE 1: IF A DO ^DEFAULT: F() $)"),
    (12, "LET F(A) BE SWITCHON A INTO $( CASE 1: CASE 2: ^CASE 1: F() $)"),
    (12, "LET F(A) BE SWITCHON A INTO $( CASE TRUE: F(); ^CASE #177777: F() $)"),
    (12, "LET F(A) BE SWITCHON A INTO $( DEFAULT: F(); ^DEFAULT: F() $)"),
    (8, "LET F(A) BE SWITCHON A INTO $( CASE 0: F(); CASE ^B: F() $)"),
    (14, "MANIFEST $( M=-1 $) LET F(A) BE SWITCHON A INTO $( CASE -M: SWITCHON A INTO $( CASE 1: $); CASE M: $)"),
    // What may be left
    (13, "LET F() BE ^BREAK"),
    (13, "LET F() BE F(VALOF ^BREAK) REPEAT"),
    (13, "LET F() BE ^ENDCASE REPEAT"),
    (13, "LET F() BE ^RESULTIS 1"),
    (13, "LET F() = VALOF ^RETURN"),
    (14, "LET F() BE F(VALOF RETURN)"),
    (14, "LET F() BE SWITCHON 1 INTO $( WHILE 1 DO ENDCASE $)"),
    (14, "LET F() BE SWITCHON 1 INTO $( BREAK; LOOP $) REPEAT"),
    // Of several faults the first, and of two at one place the smaller; 16 comes after them.
    (10, "LET F() BE $( ^1 := FOO; BREAK $)"),
    (8, "LET F() BE $( LET V = VEC 4095; LET W = VEC 4095; F(^FOO) $)"),
];

/// The number, place and line, as told, of a source with a `^` in it.
fn marked(number: u64, marked: &str) -> (String, String) {
    let source = marked.replacen('^', "", 1);
    let place = marked.find('^').unwrap_or(0);
    let answer = if number == 0 { "accepted".to_string() } else { format!("refused {number} at {place} line 1") };
    (source, answer)
}

#[test]
fn refusals() {
    for (number, source) in REFUSED {
        let (source, answer) = marked(number, source);
        assert_eq!(told(source.as_bytes()), answer, "{source}");
    }
}

/// The largest height of F, with a command or a local in a block of it.
const HEIGHTS: [(usize, &str); 24] = [
    (4, ""),
    (5, "LET A = 1"),
    (6, "LET A, B = 1, 2"),
    (6, "LET A, B = 1, 2 + 3"),
    (16, "LET V = VEC 10"),
    (22, "LET V = VEC 10; LET A, W = 1, 2; LET X = VEC 2"),
    (16, "$( LET V = VEC 10 $); $( LET W = VEC 9 $)"),
    (6, "F()"),
    (9, "F(1, 2, 3)"),
    (9, "F(F(1))"),
    (8, "F(1, 1 + F)"),
    (8, "F(1 + 1, 1)"),
    (10, "F(1)(2)"),
    (4, "P := 1"),
    (4, "P := @Q"),
    (5, "P := @(P!Q)"),
    (4, "P := @!Q"),
    (5, "!P := 1"),
    (6, "P!Q := 1"),
    (7, "P!Q := 1 + (2 + (3 + 4))"),
    (7, "(P + Q)!(P + Q) := 1"),
    (6, "FOR I = 1 + 1 TO 2 DO $( $)"),
    (7, "FOR I = 1 TO 2 + (3 + 4) DO P := I"),
    (5, "IF NOT P!Q DO TEST VALOF RESULTIS - !P DO SWITCHON Q INTO $( DEFAULT: RETURN $) OR FINISH"),
];

#[test]
fn heights() {
    for (height, inside) in HEIGHTS {
        let source = format!("GLOBAL $( F:1 $) LET F(P, Q) BE $( {inside} $)");
        let program = judge(source.as_bytes()).unwrap_or_else(|refusal| panic!("{source}: {refusal:?}"));
        assert_eq!(program.functions[0].height, height, "{source}");
    }
    let vectors = |last: usize| format!("GLOBAL $( F:1 $) LET F() BE $( LET V = VEC 4095; LET W = VEC {last} $)");
    assert_eq!(told(vectors(4091).as_bytes()), "accepted");
    assert_eq!(told(vectors(4092).as_bytes()), "refused 16 at 21 line 1");
}

// ---------------------------------------------------------------------------------------------------------------------
// Runs that the readings speak of

const GLOBALS: &str = "GLOBAL $( START:1; RDCH:13; WRCH:14; G:100; H:101 $) ";
const OVER: End = End::Over;

/// Functions, the steps of their run and how it ends.
const RUN: [(&str, u64, End); 86] = [
    // Steps
    ("START() BE $( $)", 1, OVER),
    ("START() = 1", 1, OVER),
    ("START() BE G := 1", 2, OVER),
    ("START() BE G := ((1))", 2, OVER),
    ("START() BE G := +1", 3, OVER),
    ("START() BE G, H := 1, 2", 3, OVER),
    ("START() BE $( LET A = @G; !A := 1 $)", 1 + 2 + 3, OVER),
    ("START() BE G := @G", 2, OVER),
    ("START() BE G := @(G)!H", 4, OVER),
    ("START() BE G := @!G", 3, OVER),
    ("START() BE $( LET V = VEC 3; V!1 := V $)", 1 + 1 + 4, OVER),
    ("START() BE $( LET A, B = 1, 2 $)", 1 + 4, OVER),
    ("START() BE F() AND F() BE $( $)", 2 + 1, OVER),
    ("START() BE G := F(1) AND F(A) = A", 1 + 3 + 1, OVER),
    ("START() BE WRCH('A')", 3, OVER),
    ("START() BE G := VALOF RESULTIS 1", 4, OVER),
    ("START() BE IF 0 DO $( $)", 2, OVER),
    ("START() BE UNLESS 0 DO $( $)", 3, OVER),
    ("START() BE TEST 0 DO FINISH OR RETURN", 3, OVER),
    ("START() BE WHILE G < 2 DO G := G + 1", 1 + 3 * 3 + 2 * (1 + 4), OVER),
    ("START() BE G := G + 1 REPEATUNTIL G >= 2", 2 * (1 + 4 + 3), OVER),
    ("START() BE $( G := G + 1; IF G >= 2 DO BREAK $) REPEAT", 2 * (1 + 1 + 4 + 4) + 1, OVER),
    ("START() BE $( G := G + 1; IF G >= 2 DO RETURN $) REPEAT REPEAT", 2 * (1 + 1 + 4 + 4) + 1 + 1, OVER),
    ("START() BE FOR I = 1 TO 3 DO G := I", 1 + 2 + 1 + 3 * 3, OVER),
    ("START() BE FOR I = 3 TO 1 DO G := I", 1 + 2 + 1, OVER),
    ("START() BE FOR I = 3 TO 1 BY -2 DO G := I", 1 + 2 + 1 + 2 * 3, OVER),
    ("START() BE SWITCHON 1 INTO $( CASE 0: FINISH; CASE 1: CASE 2: G := 1; DEFAULT: RETURN $)", 2 + 2 + 1, OVER),
    ("START() BE SWITCHON 7 INTO $( CASE 0: FINISH $)", 2, OVER),
    ("START() BE SWITCHON 7 INTO $( CASE 0: FINISH; DEFAULT: $)", 2, OVER),
    ("START() BE SWITCHON 7 INTO $( FINISH; CASE 7: ENDCASE; FINISH $)", 3, OVER),
    // Absent values: waiting, handed on, dropped,
    ("START() BE F() AND F() = R() AND R() BE $( $)", 2 + 2 + 1, OVER),
    ("START() BE F() AND F() = (VALOF RESULTIS R()) AND R() BE $( $)", 2 + 4 + 1, OVER),
    ("START() = VALOF $( $)", 2, OVER),
    ("START() BE G := R() + VALOF RETURN AND R() BE $( $)", 1 + 1 + 2 + 1 + 2, OVER),
    ("START() BE G(R(), VALOF FINISH) AND R() BE $( $)", 1 + 2 + 1 + 2, OVER),
    ("START() BE !(VALOF RETURN) := R() AND R() BE $( $)", 1 + 2 + 1 + 2, OVER),
    // or used.
    ("START() BE G := R() AND R() BE $( $)", 4, End::Undefined(AbsentValue)),
    ("START() BE G := -R() AND R() BE $( $)", 5, End::Undefined(AbsentValue)),
    ("START() BE G := R() + 1 AND R() BE $( $)", 6, End::Undefined(AbsentValue)),
    ("START() BE G := @!R() AND R() BE $( $)", 5, End::Undefined(AbsentValue)),
    ("START() BE R()() AND R() BE $( $)", 4, End::Undefined(AbsentValue)),
    ("START() BE R(R()) AND R() BE $( $)", 5, End::Undefined(AbsentValue)),
    ("START() BE G := VALOF $( $)", 3, End::Undefined(AbsentValue)),
    ("START() BE $( LET A = VALOF $( $) $)", 3, End::Undefined(AbsentValue)),
    ("START() BE FOR I = R() TO 1 DO R() AND R() BE $( $)", 4, End::Undefined(AbsentValue)),
    ("START() BE SWITCHON R() INTO $( DEFAULT: $) AND R() BE $( $)", 4, End::Undefined(AbsentValue)),
    ("START() BE G := WRCH(1)", 4, End::Undefined(AbsentValue)),
    // Words that are live and stored,
    ("START() BE $( LET A = 1; LET P = @A; G := !P; !P := 2; IF A = 2 DO FINISH $) REPEAT", 17, OVER),
    ("START() BE $( LET V = VEC 1; V!0, V!1 := 7, 8; G := V!0 + V!1 $)", 1 + 1 + 7 + 8, OVER),
    ("START() BE $( LET S = \"AB\"; S!0 := S!1; G := S!0 $)", 1 + 2 + 6 + 4, OVER),
    ("START() BE FOR I = 1 TO 9 DO I := I + 4", 1 + 2 + 1 + 2 * 5, OVER),
    ("START() BE $( LET P = @G; P!1 := 2; G := H $)", 1 + 2 + 4 + 2, OVER),
    ("START() BE G := F(1, 2) AND F(A) = A", 1 + 4 + 1, OVER),
    ("START() BE G := F() AND F(A) = VALOF $( A := 1; RESULTIS A $)", 3 + 2 + 2 + 2, OVER),
    ("START(A) BE A := 1", 2, OVER),
    // live and not stored,
    ("START(A) BE G := A", 2, End::Undefined(NotStored)),
    ("START() BE $( LET V = VEC 1; G := V!1 $)", 6, End::Undefined(NotStored)),
    ("START() BE F(1) AND F(A, B) BE G := B", 5, End::Undefined(NotStored)),
    (
        "START() BE $( $( LET V = VEC 0; !V := G; G := 1 $) REPEATUNTIL G; $( LET V = VEC 0; G := !V $) $)",
        15,
        End::Undefined(NotStored),
    ),
    ("START() BE WRCH()", 2, End::Undefined(NotStored)),
    // or not live.
    ("START() BE G := !0", 3, End::Undefined(Address)),
    ("START() BE !15 := 0", 3, End::Undefined(Address)),
    ("START() BE !416 := 0", 3, End::Undefined(Address)),
    ("START() BE !16 := 415!0", 5, OVER),
    ("START() BE G := !(-1)", 4, End::Undefined(Address)),
    ("START() BE $( LET V = VEC 1; V!2 := 0 $)", 6, End::Undefined(Address)),
    ("START() BE $( LET V = VEC 1; V!-2 := 0 $)", 7, End::Undefined(Address)),
    ("START() BE $( LET V = VEC 1; V!-1 := 0 $)", 7, OVER),
    ("START() BE $( LET S = \"AB\"; S!2 := 0 $)", 7, End::Undefined(Address)),
    ("START() BE $( $( LET A = 1; G := @A $); G := !G $)", 9, End::Undefined(Address)),
    ("START() BE $( FOR I = 1 TO 1 DO G := @I; G := !G $)", 11, End::Undefined(Address)),
    ("START() BE FOR I = 1 TO 1 DO G := (@I)!1", 9, End::Undefined(Address)),
    ("START() BE $( G := F(1); G := !G $) AND F(A) = @A", 9, End::Undefined(Address)),
    ("START() BE G := F(1, 2) AND F(A) = (@A)!1", 8, End::Undefined(Address)),
    ("START() BE $( LET A = 1; G := (@A)!1 + 2 $)", 8, End::Undefined(Address)),
    ("START() BE $( LET A, B = 1, !@G; LET C = 1 $)", 1 + 2 + 3 + 2, OVER),
    // Calls and sums
    ("START() BE G()", 2, End::Undefined(NoEntry)),
    ("START() BE 3(1, 2)", 4, OVER),
    ("START() BE 4()", 2, End::Undefined(NoEntry)),
    ("START() BE G := 1 / 0", 4, End::Undefined(ZeroDivisor)),
    ("START() BE G := 1 REM 0", 4, End::Undefined(ZeroDivisor)),
    ("START() BE G := VALOF RESULTIS -32767 - 1", 7, OVER),
    ("START() BE $( $) REPEAT", BUDGET, End::NotOver),
    ("START() BE START()", 0, End::Undefined(PastMemory)),
    ("START() BE $( LET V = VEC 4095; START() $)", 0, End::Undefined(PastMemory)),
    ("START() BE F(VALOF RETURN) AND F(A) BE FINISH", 1 + 1 + 1, OVER),
];

#[test]
fn ends_and_steps() {
    for (functions, steps, end) in RUN {
        let ran = ran(format!("{GLOBALS}LET {functions}").as_bytes(), &[], BUDGET);
        assert_eq!(ran.end, end, "{functions}");
        if steps > 0 {
            assert_eq!(ran.steps, steps, "{functions}");
        }
    }
}

/// Expressions and their values.
const VALUES: [(&str, i32); 38] = [
    ("32767 + 1", -32768),
    ("-32767 - 2", 32767),
    ("300 * 300", 24464),
    ("-7 / 2", -3),
    ("7 / -2", -3),
    ("-7 REM 2", -1),
    ("7 REM -2", 1),
    ("#100000 / -1", -32768),
    ("#100000 REM -1", 0),
    ("-1 < 0", -1),
    ("#177777 > 0", 0),
    ("1 ~= 1", 0),
    ("2 >= 2", -1),
    ("2 <= 1", 0),
    ("1 << 15", -32768),
    ("-1 >> 15", 1),
    ("1 << 16", 0),
    ("-1 >> -1", 0),
    ("NOT 0", -1),
    ("6 & 3 | 8", 10),
    ("14 = 14 >> 1", 32767),
    ("-2 * 3 - 1", -7),
    ("2 - -2 * 3", 8),
    ("2 * - 3 + 1", -5),
    ("2 * NOT 3 + 1", -10),
    ("NOT 1 = 2 & 4", 4),
    ("\"HELLO\" ! 0", 1352),
    ("\"HELLO\" ! 1", 17740),
    ("\"HELLO\" ! 2", 19535),
    ("\"\" ! 0", 0),
    ("\"*N\" ! 0", 266),
    ("@G - 16", 100),
    ("\"\" - \"\"", -200),
    ("RDCH() * 256 + RDCH()", 24930),
    ("RDCH() + RDCH() + RDCH() + RDCH()", 293),
    ("F(1)(2)", 3),
    ("VALOF $( F(0, 5); RESULTIS H $)", 5),
    ("(@G)!1 + !@G", 77),
];

#[test]
fn values() {
    for (expression, value) in VALUES {
        let source = format!(
            "{GLOBALS}LET START() BE $( H := 77; G := 0; G := {expression} $) AND F(A, B) = VALOF \
            $( TEST A DO RESULTIS E OR H := B; RESULTIS 0 $) AND E(A) = A + 1"
        );
        let ran = ran(source.as_bytes(), b"abc", BUDGET);
        assert_eq!((ran.end, ran.globals[100]), (OVER, value as u16), "{expression}");
    }
}

#[test]
fn use_of_memory() {
    let ran = |functions: &str, length: usize| {
        let program = judge(format!("{GLOBALS}LET {functions}").as_bytes()).expect("an accepted source");
        run(&program, &placement(&program), length, &[], BUDGET)
    };
    for (above, functions) in [
        (4, "START() BE $( $)"),
        (6, "START(A, B) BE $( $)"),
        (5, "START() BE G := 1 + 2"),
        (4, "START() BE IF 0 DO G := 1 + 2"),
        (7, "START() BE $( LET V = VEC 1 $)"),
        (6, "START() BE FOR I = 2 TO 1 DO $( $)"),
        (6, "START() BE RDCH()"),
        (7, "START() BE WRCH(1)"),
        (9, "START() BE F() AND F(A, B, C) BE $( $)"),
        (8, "START() BE $( LET A = 1; RDCH(1) $)"),
        (11, "START() BE G := F(1) AND F(A) = E(A) AND E(A) = A + A"),
    ] {
        let used = ran(functions, MEMORY).used;
        assert_eq!(used, 20_000 + above, "{functions}");
        assert_eq!(ran(functions, used).end, OVER, "{functions}");
        assert_eq!(ran(functions, used - 1).end, End::Undefined(PastMemory), "{functions}");
    }
}

/// A string is its own words, which may be stored in; the same string written twice is two.
#[test]
fn strings() {
    let functions = "START() BE $( LET S, T = \"AB\", \"AB\"; S!1 := 7; WRCH(T!1 >> 8); WRCH(S!1) $)";
    let ran = ran(format!("{GLOBALS}LET {functions}").as_bytes(), &[], BUDGET);
    assert_eq!(ran.strings, [[0x241, 7], [0x241, 0x4200]]);
    assert_eq!(ran.output, [b'B', 7]);
}

// ---------------------------------------------------------------------------------------------------------------------
// What is demanded of a compiler's text

const SOURCE: &str = "GLOBAL $( START:1; RDCH:13; WRCH:14; G:100 $)
LET START() BE
$( LET S, T = \"HI\", \"THERE\"
   FOR I = 1 TO 3 DO WRCH(F(I) + RDCH())
   G := T!0
   S!1 := 7
$)
AND F(N) = N * 2";

const TEXT: &str = "$ / S, T, then I and the limit of the loop
1: LL3 SP2 LL4 SP3 L1 SP4 L3 SP5
5: LIP4 LIP5 X15 FL6
LIP4 SP10 LL2 K8 SP8 LIG13 K9 SP9 LIP8 LIP9 X8 SP8 LIG14 K6
LIP4 A1 SP4 JL5
6: LIP3 X1 SG100
L7 SP4 LIP2 A1 SP5 LIP4 SIP5 X4
2: LIP2 SP3 L2 SP4 LIP3 LIP4 X5 X4
3: C\"HI\" 4: C\"THERE\"
G1L1 Z";

/// A piece of the text and what spoils it.
const SPOILT: [(&str, &str); 20] = [
    ("A1 SP4 JL5", "A2 SP4 JL5"),
    ("SG100", "SG101"),
    ("SG100", "SG100 SG101"),
    ("L7 SP4", "L8 SP4"),
    ("LIG13 K9 SP9", "L65 SP9"),
    ("X4\n2:", "LIG13 K9 X4\n2:"),
    ("X4\n2:", "L65 SP8 LIG14 K6 X4\n2:"),
    ("1: LL3", "1: 2: LL3"),
    ("1: LL3", "7: LL3"),
    ("G1L1", "G1L2"),
    ("2: LIP2", "2: 7: 8: LIP2 JL9 9: X99"),
    ("C\"HI\"", "C\"HO\""),
    ("3: C\"HI\"", "C\"HI\" 3:"),
    ("C\"THERE\"", "C\"THER\""),
    ("3: C\"HI\" 4: C\"THERE\"", "4: C\"HI\" 3: C\"THERE\""),
    ("K6", "K300"),
    ("L7 SP4", "L7 SP4 SP60"),
    ("JL5", "JL55"),
    ("Z", "Z Z"),
    ("1: LL3", "1: L900 SP10 9: LIP10 A-1 SP10 TL9 LL3"),
];

fn held(source: &str, text: &str) -> Result<(), String> {
    let program = judge(source.as_bytes()).expect("an accepted source");
    let mut random = Random::new(1);
    let held = demand::hold(source.as_bytes(), &program, text.as_bytes(), b"ABCD", BUDGET, &mut random)?;
    let held = held.expect("a text that fits the memory");
    assert_eq!(held.end, OVER);
    held.steps_and_count.map(|_| ()).ok_or("not held to its run".to_string())
}

#[test]
fn texts_by_hand() {
    assert_eq!(held(SOURCE, TEXT), Ok(()));
    for (piece, spoilt) in SPOILT {
        assert!(TEXT.contains(piece), "{piece}");
        let text = TEXT.replacen(piece, spoilt, 1);
        let complaint = held(SOURCE, &text).err().unwrap_or_else(|| panic!("{piece} may become {spoilt}"));
        println!("{piece} to {spoilt}: {complaint}");
    }
    let too_much =
        [("/ S", "X".repeat(64 * SOURCE.len() + 1024)), ("X4\n2:", " D0".repeat(900)), ("X4\n2:", many_labels())];
    for (piece, more) in too_much {
        let text = TEXT.replacen(piece, &format!("{}{more}{}", &piece[..2], &piece[2..]), 1);
        let complaint = held(SOURCE, &text).err().unwrap_or_else(|| panic!("{} more bytes are let pass", more.len()));
        assert!(complaint.contains("more than"), "{complaint}");
    }
}

fn many_labels() -> String {
    (100..100 + SOURCE.len() + 3).map(|label| format!("\n{label}:")).collect()
}

#[test]
fn texts_of_the_second_compiler() {
    let program = judge(SOURCE.as_bytes()).expect("an accepted source");
    let text = String::from_utf8(compiler::text_of(&program)).expect("plain text");
    assert_eq!(held(SOURCE, &text), Ok(()));
}
