//! Sources that leave nothing to chance: programs damaged at every symbol in every way, nests of every form about the deepest
//! allowed, chains of every link as long as a text may be, constants with every byte in every position, and the sources that a
//! reader needs most stack for.

use crate::random::Random;
use crate::sources::{any_token, equal_list, nest_of, program, token, tokens, Case, Token};
use crate::sources::{CHAINS, CHAIN_FAULTS, COMMAND_WRAPS, EXPRESSION_WRAPS};
use crate::symbols::{LONGEST_TEXT, SIGNS, WORDS};

/// A sweep: its name, and a function that hands each of its cases on.
pub struct Sweep {
    pub name: &'static str,
    pub each: fn(&mut dyn FnMut(Case) -> Result<(), String>) -> Result<(), String>,
}

pub const SWEEPS: [Sweep; 6] = [
    Sweep { name: "damaged at every symbol", each: damaged },
    Sweep { name: "generated and damaged at every symbol", each: generated },
    Sweep { name: "nests of every form", each: nests },
    Sweep { name: "chains of every link", each: chains },
    Sweep { name: "constants with every byte", each: constants },
    Sweep { name: "characters of every number", each: numbered },
];

/// Between them they have every construct.
const PROGRAMS: [&str; 8] = [
    "GLOBAL $( A : 1 ; B : - 2 $) ; MANIFEST $( C = TRUE ; D = - C ; $) LET F ( ) = 1 ;",
    "LET F ( A , B ) BE RETURN AND G ( ) = A ! 1 ( B , 2 ) ! ( C ) AND H ( A ) BE $( $)",
    "LET F ( ) BE $( LET V = VEC 3 LET A , B = 1 , \"S\" ; A , V ! 1 := B , - 2 ; F ( ) ; $)",
    "LET F ( ) BE $( TEST A DO LOOP OR BREAK ; IF A DO UNLESS B DO FINISH ; WHILE A DO UNTIL B DO ENDCASE $)",
    "LET F ( ) BE FOR I = 1 TO A + 2 BY - 1 DO A := I REPEAT REPEATWHILE B REPEATUNTIL C",
    "LET F ( ) BE SWITCHON A INTO $( CASE 1 : CASE - B : DEFAULT : ; CASE FALSE : F ( 1 ) ( ) ; $)",
    "LET F ( ) = A * - B REM C + NOT D < E << 2 & @ A ! 1 | VALOF $( LET A = 1 RESULTIS TRUE $) ( 3 ) >= + ! 4",
    "LET F ( ) = A | B & C >> D - E / VALOF RESULTIS ( F ( G ( ) , NOT 1 ) ) ~= \"\"",
];

fn spaced(tokens: &[Token]) -> Vec<u8> {
    tokens.iter().map(|token| token.text.as_slice()).collect::<Vec<_>>().join(&b' ')
}

/// Every symbol in turn taken out, doubled, replaced by and preceded by every other; the text ended there.
fn damaged(check: &mut dyn FnMut(Case) -> Result<(), String>) -> Result<(), String> {
    let spellings = WORDS.iter().chain(&SIGNS).map(|(spelling, _)| *spelling).chain(["A", "1", "\"S\""]);
    let every: Vec<Token> = spellings.map(|spelling| token(spelling.as_bytes())).collect();
    for program in PROGRAMS {
        let whole = tokens(program);
        check(Case { text: spaced(&whole), expected: Some(0) })?;
        let mut changed = |place: usize, taken: usize, put: &[Token]| {
            let text = spaced(&[&whole[..place], put, &whole[place + taken..]].concat());
            check(Case { text, expected: None })
        };
        for place in 0..whole.len() {
            changed(place, 1, &[])?;
            changed(place, 0, &whole[place..=place])?;
            changed(place, whole.len() - place, &[])?;
            for other in &every {
                changed(place, 1, std::slice::from_ref(other))?;
                changed(place, 0, std::slice::from_ref(other))?;
            }
        }
    }
    Ok(())
}

const GENERATED: u64 = 40;

/// Every symbol of generated programs in turn taken out, doubled, and replaced by any other.
fn generated(check: &mut dyn FnMut(Case) -> Result<(), String>) -> Result<(), String> {
    for seed in 0..GENERATED {
        let mut random = Random::new(seed);
        let whole = program(&mut random);
        for place in 0..whole.len() {
            let doubled = [whole[place].clone(), whole[place].clone()];
            for put in [&[][..], &doubled, &[any_token(&mut random)]] {
                let text = spaced(&[&whole[..place], put, &whole[place + 1..]].concat());
                check(Case { text, expected: None })?;
            }
        }
    }
    Ok(())
}

/// Each form over and over, with one of the other sort where it needs one; and mixtures of all.
fn nests(check: &mut dyn FnMut(Case) -> Result<(), String>) -> Result<(), String> {
    let mut random = Random::new(0);
    let (expressions, commands) = (EXPRESSION_WRAPS.len(), COMMAND_WRAPS.len());
    let alone = (0..expressions).map(|index| Some((index, index % commands)));
    let alone = alone.chain((0..commands).map(|index| Some((index * 5 % expressions, index))));
    for only in alone.chain([None; 20]) {
        for (head, command) in [("LET F ( ) BE", true), ("LET F ( ) =", false)] {
            for levels in [63, 64, 65] {
                for innermost in 0..3 {
                    let mut all = tokens(head);
                    all.extend(nest_of(&mut random, levels, command, only, innermost));
                    check(Case { text: spaced(&all), expected: Some(if levels > 64 { 7 } else { 0 }) })?;
                }
            }
        }
    }
    Ok(())
}

/// Each link by itself and all of them in turn, good and with a fault at the end.
fn chains(check: &mut dyn FnMut(Case) -> Result<(), String>) -> Result<(), String> {
    let mut faults = CHAIN_FAULTS.iter().cycle();
    let mut both = |make: &dyn Fn(usize) -> Vec<u8>| {
        check(Case { text: make(LONGEST_TEXT), expected: Some(0) })?;
        let fault = faults.next().map_or("", |fault| fault);
        let text = [make(LONGEST_TEXT - fault.len()).as_slice(), fault.as_bytes()].concat();
        check(Case { text, expected: None })
    };
    for chain in &CHAINS {
        for only in chain.links {
            both(&|limit| chain.text(limit, |_| only))?;
        }
        both(&|limit| chain.text(limit, |number| chain.links[number % chain.links.len()]))?;
    }
    for assigned in [true, false] {
        both(&|limit| equal_list(limit / 4 - 20, assigned).into_bytes())?;
    }
    Ok(())
}

/// Forms that take a reader by recursion through as many functions as one level can: what stands before the part within,
/// what after it, and the levels opened. The part is an expression.
const STEEP_FORMS: [(&str, &str, usize); 8] = [
    ("(", ")", 1),
    ("A|A|A&A&A<<A<<A+A+A*A*A!A(1)(1,", ")", 1),
    ("A|A|A&A&A=A+A+A*A*A!A(1)(1,", ")", 1),
    ("A|A|A&A&A<<A<<A+A+A*A*A!A!NOT A<<A<<A+A+A*A*A!A!-A*A*A!A!!A!A(1,", ")", 4),
    ("A|A|A&A&A<<A<<A+A+A*A*A!A!VALOF CASE 1:DEFAULT:BREAK REPEAT REPEATWHILE ", "", 2),
    ("A|A|A&A&A<<A<<A+A+A*A*A!A!VALOF CASE 1:$(A();A,A:=A,(", ")$)", 4),
    ("VALOF TEST A DO DEFAULT:BREAK OR DEFAULT:A,A:=A,", "", 3),
    ("VALOF $(LET A=1 LET A,A=A,", "$)", 2),
];

/// Each of the steep forms to the deepest level allowed and no deeper, in a text as long as may be.
pub fn steepest() -> Vec<Vec<u8>> {
    let steep = |&(before, after, levels): &(&str, &str, usize)| {
        let times = 64 / levels;
        let head = ["LET F()=", &before.repeat(times)].concat();
        let tail = after.repeat(times);
        let links = (LONGEST_TEXT - head.len() - tail.len() - 1) / 2;
        let mut text = [head.as_str(), "1", &"+1".repeat(links), &tail].concat().into_bytes();
        text.resize(LONGEST_TEXT, b' ');
        text
    };
    STEEP_FORMS.iter().map(steep).collect()
}

/// The places of a constant's characters that get every byte: all of a short one, those about the ends of a long one.
fn places(length: usize) -> Vec<usize> {
    (0..=length).filter(|&place| place < 3 || place + 3 > length).collect()
}

/// Short constants and those about the longest, plain, of escapes and by number, with every byte, and an asterisk and every byte, put in and in
/// the place of a character; closed, and ended by the text's end or a newline.
fn constants(check: &mut dyn FnMut(Case) -> Result<(), String>) -> Result<(), String> {
    for (quote, lengths) in [(b'\'', &[0, 1, 2, 3][..]), (b'"', &[0, 1, 2, 3, 254, 255, 256])] {
        for &length in lengths {
            for plain in [&b"A"[..], b"*N", b"*255"] {
                let ends = [&[quote][..], &[quote, b' ', quote], b"", b"\n", &[b'\n', quote]];
                for (place, byte) in places(length).into_iter().flat_map(|place| (0..=255).map(move |byte| (place, byte))) {
                    for put in [&[byte][..], &[b'*', byte]] {
                        for taken in 0..=usize::from(place < length) {
                            let (before, after) = (plain.repeat(place), plain.repeat(length - place - taken));
                            for end in ends {
                                let text = [b"LET F() = ", &[quote][..], &before, put, &after, end].concat();
                                check(Case { text, expected: None })?;
                            }
                        }
                    }
                }
            }
        }
    }
    Ok(())
}

/// Every number of three digits, and every byte in the place of each digit, alone and after a character, cut short at every byte and
/// closed.
fn numbered(check: &mut dyn FnMut(Case) -> Result<(), String>) -> Result<(), String> {
    let mut written: Vec<Vec<u8>> = (0..1000).map(|number| format!("*{number:03}").into_bytes()).collect();
    for byte in 0..=255 {
        written.extend([vec![b'*', byte, b'2', b'5'], vec![b'*', b'1', byte, b'5'], vec![b'*', b'1', b'2', byte]]);
    }
    for character in written {
        for quote in [b'\'', b'"'] {
            for before in [&b""[..], b"A"] {
                for end in 0..=character.len() {
                    let cut = [b"LET F() = ", &[quote][..], before, &character[..end]].concat();
                    let closed = [&cut[..], &[quote]].concat();
                    for text in [cut, closed] {
                        check(Case { text, expected: None })?;
                    }
                }
            }
        }
    }
    Ok(())
}
