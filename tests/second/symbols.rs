//! The second reader of symbols: a BCPL source to its final list of symbols, inserted semicolons among them. It is written
//! from the rules alone and shares nothing with the proved reader, so that a slip in either shows as a difference.

use kind::*;

/// A symbol's kind: first the words, then the signs, each in the rules' order.
pub mod kind {
    pub const GLOBAL: u32 = 1;
    pub const MANIFEST: u32 = 2;
    pub const LET: u32 = 3;
    pub const AND: u32 = 4;
    pub const BE: u32 = 5;
    pub const VEC: u32 = 6;
    pub const VALOF: u32 = 7;
    pub const RESULTIS: u32 = 8;
    pub const TRUE: u32 = 9;
    pub const FALSE: u32 = 10;
    pub const NOT: u32 = 11;
    pub const REM: u32 = 12;
    pub const TEST: u32 = 13;
    pub const DO: u32 = 14;
    pub const OR: u32 = 15;
    pub const IF: u32 = 16;
    pub const UNLESS: u32 = 17;
    pub const WHILE: u32 = 18;
    pub const UNTIL: u32 = 19;
    pub const REPEAT: u32 = 20;
    pub const REPEATWHILE: u32 = 21;
    pub const REPEATUNTIL: u32 = 22;
    pub const FOR: u32 = 23;
    pub const TO: u32 = 24;
    pub const BY: u32 = 25;
    pub const SWITCHON: u32 = 26;
    pub const INTO: u32 = 27;
    pub const CASE: u32 = 28;
    pub const DEFAULT: u32 = 29;
    pub const ENDCASE: u32 = 30;
    pub const BREAK: u32 = 31;
    pub const LOOP: u32 = 32;
    pub const RETURN: u32 = 33;
    pub const FINISH: u32 = 34;
    pub const PLUS: u32 = 35;
    pub const MINUS: u32 = 36;
    pub const STAR: u32 = 37;
    pub const SLASH: u32 = 38;
    pub const EQUAL: u32 = 39;
    pub const UNEQUAL: u32 = 40;
    pub const LESS: u32 = 41;
    pub const AT_MOST: u32 = 42;
    pub const GREATER: u32 = 43;
    pub const AT_LEAST: u32 = 44;
    pub const LEFT_SHIFT: u32 = 45;
    pub const RIGHT_SHIFT: u32 = 46;
    pub const BOTH: u32 = 47;
    pub const EITHER: u32 = 48;
    pub const SHRIEK: u32 = 49;
    pub const AT: u32 = 50;
    pub const OPEN: u32 = 51;
    pub const CLOSE: u32 = 52;
    pub const COMMA: u32 = 53;
    pub const SEMICOLON: u32 = 54;
    pub const COLON: u32 = 55;
    pub const ASSIGN: u32 = 56;
    pub const BEGIN: u32 = 57;
    pub const END: u32 = 58;
    pub const NAME: u32 = 59;
    pub const NUMBER: u32 = 60;
    pub const STRING: u32 = 61;
}

pub const WORDS: [(&str, u32); 35] = [
    ("GLOBAL", GLOBAL),
    ("MANIFEST", MANIFEST),
    ("LET", LET),
    ("AND", AND),
    ("BE", BE),
    ("VEC", VEC),
    ("VALOF", VALOF),
    ("RESULTIS", RESULTIS),
    ("TRUE", TRUE),
    ("FALSE", FALSE),
    ("NOT", NOT),
    ("REM", REM),
    ("TEST", TEST),
    ("THEN", DO),
    ("DO", DO),
    ("OR", OR),
    ("IF", IF),
    ("UNLESS", UNLESS),
    ("WHILE", WHILE),
    ("UNTIL", UNTIL),
    ("REPEAT", REPEAT),
    ("REPEATWHILE", REPEATWHILE),
    ("REPEATUNTIL", REPEATUNTIL),
    ("FOR", FOR),
    ("TO", TO),
    ("BY", BY),
    ("SWITCHON", SWITCHON),
    ("INTO", INTO),
    ("CASE", CASE),
    ("DEFAULT", DEFAULT),
    ("ENDCASE", ENDCASE),
    ("BREAK", BREAK),
    ("LOOP", LOOP),
    ("RETURN", RETURN),
    ("FINISH", FINISH),
];

pub const SIGNS: [(&str, u32); 24] = [
    ("+", PLUS),
    ("-", MINUS),
    ("*", STAR),
    ("/", SLASH),
    ("=", EQUAL),
    ("~=", UNEQUAL),
    ("<", LESS),
    ("<=", AT_MOST),
    (">", GREATER),
    (">=", AT_LEAST),
    ("<<", LEFT_SHIFT),
    (">>", RIGHT_SHIFT),
    ("&", BOTH),
    ("|", EITHER),
    ("!", SHRIEK),
    ("@", AT),
    ("(", OPEN),
    (")", CLOSE),
    (",", COMMA),
    (";", SEMICOLON),
    (":", COLON),
    (":=", ASSIGN),
    ("$(", BEGIN),
    ("$)", END),
];

pub const LONGEST_TEXT: usize = 16_384;
pub const LONGEST_STRING: usize = 255;

#[derive(Clone, Copy, Debug, PartialEq, Eq)]
pub struct Symbol {
    pub kind: u32,
    /// A number's value, a word's length, a string's position among the strings; else 0.
    pub value: u32,
    pub place: u32,
}

/// A refusal: its number, its byte place from 0 and its line from 1.
#[derive(Clone, Copy, Debug, PartialEq, Eq)]
pub struct Refusal {
    pub number: u64,
    pub place: usize,
    pub line: usize,
}

/// A refusal's number and place; the line follows from the place.
pub type Fault = (u64, usize);

pub fn refusal(text: &[u8], (number, place): Fault) -> Refusal {
    let line = 1 + text[..place].iter().filter(|&&byte| byte == b'\n').count();
    Refusal { number, place, line }
}

pub fn read_symbols(text: &[u8]) -> Result<Vec<Symbol>, Refusal> {
    if text.len() > LONGEST_TEXT {
        return Err(refusal(text, (1, 0)));
    }
    list(text).map_err(|fault| refusal(text, fault))
}

/// Whether a semicolon is inserted between two symbols on different lines.
pub fn semicolon_between(first: u32, second: u32) -> bool {
    let ends = matches!(
        first,
        BREAK | LOOP | RETURN | FINISH | ENDCASE | REPEAT | CLOSE | END | NAME | STRING | NUMBER | TRUE | FALSE
    );
    let begins = matches!(
        second,
        TEST | FOR
            | IF
            | UNLESS
            | UNTIL
            | WHILE
            | SWITCHON
            | RESULTIS
            | CASE
            | DEFAULT
            | BREAK
            | LOOP
            | ENDCASE
            | RETURN
            | FINISH
            | BEGIN
            | OPEN
            | VALOF
            | NAME
    );
    ends && begins
}

fn list(text: &[u8]) -> Result<Vec<Symbol>, Fault> {
    let mut symbols: Vec<Symbol> = Vec::new();
    let mut strings = 0;
    // The closing brackets still wanted, innermost last.
    let mut wanted = Vec::new();
    let mut new_line = false;
    let mut place = 0;
    while place < text.len() {
        let rest = &text[place..];
        match rest[0] {
            b' ' | b'\t' | b'\r' => place += 1,
            b'\n' => {
                new_line = true;
                place += 1;
            }
            b'/' if rest.starts_with(b"//") => {
                place += rest.iter().position(|&byte| byte == b'\n').unwrap_or(rest.len());
            }
            _ => {
                let (kind, mut value, length) = symbol(rest).map_err(|(number, offset)| (number, place + offset))?;
                match kind {
                    OPEN => wanted.push(CLOSE),
                    BEGIN => wanted.push(END),
                    CLOSE | END if wanted.pop() != Some(kind) => return Err((5, place)),
                    STRING => {
                        value = strings;
                        strings += 1;
                    }
                    _ => {}
                }
                if let Some(before) = symbols.last() {
                    if new_line && semicolon_between(before.kind, kind) {
                        symbols.push(Symbol { kind: SEMICOLON, value: 0, place: place as u32 });
                    }
                }
                symbols.push(Symbol { kind, value, place: place as u32 });
                new_line = false;
                place += length;
            }
        }
    }
    if wanted.is_empty() {
        Ok(symbols)
    } else {
        Err((5, text.len()))
    }
}

/// The kind, value and length of the symbol at the beginning of a text that is not empty, or a refusal's number and place.
fn symbol(rest: &[u8]) -> Result<(u32, u32, usize), Fault> {
    match rest[0] {
        b'A'..=b'Z' => {
            let length = run(rest, |byte| matches!(byte, b'A'..=b'Z' | b'0'..=b'9' | b'.'));
            let word = WORDS.iter().find(|(word, _)| word.as_bytes() == &rest[..length]);
            Ok((word.map_or(NAME, |&(_, kind)| kind), length as u32, length))
        }
        b'0'..=b'9' => {
            let length = run(rest, |byte| byte.is_ascii_digit());
            Ok((NUMBER, number(&rest[..length], 10, 32_767).ok_or((3, 0))?, length))
        }
        b'#' => {
            let length = run(&rest[1..], |byte| matches!(byte, b'0'..=b'7'));
            Ok((NUMBER, number(&rest[1..1 + length], 8, 0o177777).ok_or((3, 0))?, 1 + length))
        }
        b'\'' => {
            let (characters, length) = constant(rest)?;
            Ok((NUMBER, u32::from(characters[0]), length))
        }
        b'"' => Ok((STRING, 0, constant(rest)?.1)),
        _ => {
            let sign =
                SIGNS.iter().filter(|(sign, _)| rest.starts_with(sign.as_bytes())).max_by_key(|(sign, _)| sign.len());
            sign.map(|&(sign, kind)| (kind, 0, sign.len())).ok_or((2, 0))
        }
    }
}

/// With how many reserved words a word is compared whole: those of its length and first letter, in the rules' order, as far as
/// the word itself.
#[allow(dead_code)]
pub fn compared(word: &[u8]) -> usize {
    let candidates = WORDS.iter().map(|(reserved, _)| reserved.as_bytes());
    let mut candidates = candidates.filter(|reserved| reserved.len() == word.len() && reserved.first() == word.first());
    let all = candidates.clone().count();
    candidates.position(|reserved| reserved == word).map_or(all, |before| before + 1)
}

/// How many bytes at the beginning belong together.
fn run(text: &[u8], belongs: impl Fn(u8) -> bool) -> usize {
    text.iter().position(|&byte| !belongs(byte)).unwrap_or(text.len())
}

fn number(digits: &[u8], base: u32, largest: u32) -> Option<u32> {
    // The value stops growing once it is too large, since digits may be many.
    let value = digits.iter().fold(0, |value, digit| (value * base + u32::from(digit - b'0')).min(1_000_000));
    (!digits.is_empty() && value <= largest).then_some(value)
}

/// The characters of the constant that begins a text with its quote, and its length, both quotes included; or of all its faults the
/// one with the smallest place, then the smallest number.
pub fn constant(text: &[u8]) -> Result<(Vec<u8>, usize), Fault> {
    let quote = text[0];
    let most = if quote == b'"' { LONGEST_STRING } else { 1 };
    let mut characters = Vec::new();
    // Each as its place and its number.
    let mut faults = Vec::new();
    let mut place = 1;
    while text.get(place) != Some(&quote) {
        let Some(&byte) = text.get(place).filter(|&&byte| byte != b'\n') else {
            faults.push((0, 40));
            break;
        };
        let (value, length) = match byte {
            b'*' => match escape(&text[place + 1..]) {
                Some((value, length)) => (value, 1 + length),
                None => {
                    faults.push((place, 41));
                    (byte, 1)
                }
            },
            32..=126 => (byte, 1),
            _ => {
                faults.push((place, 42));
                (byte, 1)
            }
        };
        if characters.len() == most {
            faults.push((place, 43));
        }
        characters.push(value);
        place += length;
    }
    if quote == b'\'' && characters.is_empty() {
        faults.push((0, 43));
    }
    match faults.into_iter().min() {
        Some((place, number)) => Err((number, place)),
        None => Ok((characters, place + 1)),
    }
}

/// What an escape stands for, by what follows its asterisk, and the length of that.
fn escape(text: &[u8]) -> Option<(u8, usize)> {
    let value = match *text.first()? {
        b'N' => 10,
        b'S' => 32,
        b'T' => 9,
        b'B' => 8,
        b'P' => 12,
        b'C' => 13,
        itself @ (b'*' | b'\'' | b'"') => itself,
        _ => return numbered(text.get(..3)?).map(|value| (value, 3)),
    };
    Some((value, 1))
}

/// The byte that three digits stand for.
fn numbered(digits: &[u8]) -> Option<u8> {
    if digits.iter().all(u8::is_ascii_digit) {
        std::str::from_utf8(digits).ok()?.parse().ok()
    } else {
        None
    }
}
