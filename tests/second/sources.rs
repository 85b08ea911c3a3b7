//! Makes sources for the comparison. Every case follows from its seed alone, so a case that differs can be made again.
//! Six kinds: good programs over the whole grammar, the same damaged at symbols, with a doubtful phrase put in, and damaged
//! at bytes, nests about the deepest allowed, and chains as long as a text may be.

use crate::random::Random;
use crate::symbols::{kind::*, semicolon_between, LONGEST_STRING, LONGEST_TEXT, SIGNS, WORDS};

/// A text and, where its maker knows, the refusal it must get: 0 for none.
pub struct Case {
    pub text: Vec<u8>,
    pub expected: Option<u64>,
}

/// A kind of case: its name, how many of a hundred cases are of it, and its maker.
pub struct Kind {
    pub name: &'static str,
    pub share: u64,
    pub make: fn(u64) -> Case,
}

pub const KINDS: [Kind; 6] = [
    Kind { name: "good", share: 14, make: good },
    Kind { name: "damaged at symbols", share: 26, make: damaged_at_symbols },
    Kind { name: "doubtful", share: 16, make: doubtful },
    Kind { name: "damaged at bytes", share: 26, make: damaged_at_bytes },
    Kind { name: "nest", share: 15, make: nest },
    Kind { name: "chain", share: 3, make: chain },
];

// ---------------------------------------------------------------------------------------------------------------------
// Symbols and layout

#[derive(Clone)]
pub struct Token {
    pub kind: u32,
    pub text: Vec<u8>,
}

pub fn token(text: &[u8]) -> Token {
    let listed = WORDS.iter().chain(&SIGNS).find(|(spelling, _)| spelling.as_bytes() == text);
    let kind = match (listed, text[0]) {
        (Some(&(_, kind)), _) => kind,
        (None, b'A'..=b'Z') => NAME,
        (None, b'"') => STRING,
        (None, _) => NUMBER,
    };
    Token { kind, text: text.to_vec() }
}

/// Tokens written with blanks between them.
pub fn tokens(written: &str) -> Vec<Token> {
    written.split_ascii_whitespace().map(|text| token(text.as_bytes())).collect()
}

/// Whether two tokens written together would be read otherwise.
fn joins(first: &Token, second: &Token) -> bool {
    let next = second.text[0];
    match first.kind {
        GLOBAL..=FINISH | NAME => next.is_ascii_uppercase() || next.is_ascii_digit(),
        NUMBER => next.is_ascii_digit(),
        LESS => matches!(next, b'<' | b'='),
        GREATER => matches!(next, b'>' | b'='),
        COLON => next == b'=',
        SLASH => next == b'/',
        _ => false,
    }
}

/// How a text is laid out: one in so many gaps is a newline or a comment, and one in so many is no gap at all.
pub struct Layout {
    lines: usize,
    tight: usize,
    /// Newlines also where they insert a semicolon that nobody asked for, and tokens joined.
    careless: bool,
}

pub fn layout(random: &mut Random, careless: bool) -> Layout {
    Layout { lines: random.pick(&[2, 2, 4, 12, 100_000]), tight: random.pick(&[1, 2, 2, 6]), careless }
}

pub fn render(random: &mut Random, tokens: &[Token], layout: &Layout) -> Vec<u8> {
    let mut text = Vec::new();
    if random.one_in(6) {
        gap(random, &mut text, true);
    }
    let mut broken = true;
    for (index, token) in tokens.iter().enumerate() {
        let before = index.checked_sub(1).map(|before| &tokens[before]);
        if let (SEMICOLON, Some(before), Some(after)) = (token.kind, before, tokens.get(index + 1)) {
            // The newline stands for the semicolon.
            if semicolon_between(before.kind, after.kind) && random.one_in(2) {
                gap(random, &mut text, true);
                broken = true;
                continue;
            }
        }
        if let (Some(before), false) = (before, broken) {
            let may_break = !semicolon_between(before.kind, token.kind) || layout.careless && random.one_in(12);
            let must = joins(before, token) && !(layout.careless && random.one_in(30));
            if may_break && random.one_in(layout.lines) {
                gap(random, &mut text, true);
            } else if must || !random.one_in(layout.tight) {
                gap(random, &mut text, false);
            }
        }
        text.extend_from_slice(&token.text);
        broken = false;
    }
    match random.below(8) {
        0 => gap(random, &mut text, true),
        1 => text.extend_from_slice(b" // $( no newline here"),
        _ => {}
    }
    text
}

/// Blanks, with a newline among them or without; comments come with their newlines.
fn gap(random: &mut Random, text: &mut Vec<u8>, new_line: bool) {
    let blanks = match random.below(12) {
        0 => 1 + random.below(9),
        _ => 1,
    };
    for _ in 0..blanks {
        text.push(random.pick(b"      \t\r"));
    }
    if new_line {
        match random.below(6) {
            0 => {
                text.extend_from_slice(b"//");
                for _ in 0..random.below(20) {
                    // Any byte may stand in a comment, but the newline ends it.
                    let byte = if random.one_in(2) { random.pick(b"$()';\"*/ A1\r") } else { random.byte() };
                    text.push(if byte == b'\n' { b'/' } else { byte });
                }
            }
            1 => text.push(b'\r'),
            _ => {}
        }
        for _ in 0..if random.one_in(10) { 3 } else { 1 } {
            text.push(b'\n');
        }
        if random.one_in(2) {
            text.extend_from_slice(random.pick(&[" ", "  ", "\t", "\r"]).as_bytes());
        }
    }
}

// ---------------------------------------------------------------------------------------------------------------------
// Good programs

fn good(seed: u64) -> Case {
    let mut random = Random::new(seed);
    let tokens = program(&mut random);
    let layout = layout(&mut random, false);
    let text = render(&mut random, &tokens, &layout);
    let expected = if text.len() > LONGEST_TEXT { 1 } else { 0 };
    Case { text, expected: Some(expected) }
}

pub fn program(random: &mut Random) -> Vec<Token> {
    let most = random.pick(&[20, 60, 60, 150, 400]);
    let mut maker = Maker { random, tokens: Vec::new(), most };
    let declarations = match maker.random.below(10) {
        0 => 0,
        1..=4 => 1,
        _ => 2 + maker.random.below(5),
    };
    for _ in 0..declarations {
        maker.declaration();
    }
    maker.tokens
}

/// Makes grammatical parts. `depth` is how deep parts within parts may still go. `closed` says that what follows the part
/// cannot be taken into it: a VALOF's command that ends in a call would take a comma or an operator after it.
struct Maker<'a> {
    random: &'a mut Random,
    tokens: Vec<Token>,
    /// With this many tokens made, parts become as small as they can be.
    most: usize,
}

/// Binding levels: places in the operators' table, loosest first, and after them the suffixes.
const SHIFTS: usize = 2;
const RELATION: usize = 3;
const SUM: usize = 4;
const PRODUCT: usize = 5;
const SUFFIXED: usize = 6;
const OPERATORS: [&[&str]; 6] =
    [&["|"], &["&"], &["<<", ">>"], &["=", "~=", "<", "<=", ">", ">="], &["+", "-"], &["*", "/", "REM"]];

/// What NOT is where an operand begins: a binding level of its own, first in an expression or after & or |; the beginning
/// of a tighter operator's operand; or nothing that may stand there, since a relation follows its level.
#[derive(Clone, Copy, PartialEq)]
enum Not {
    Level,
    Within,
    Never,
}

impl Maker<'_> {
    fn add(&mut self, written: &str) {
        self.tokens.extend(tokens(written));
    }

    fn full(&self) -> bool {
        self.tokens.len() >= self.most
    }

    fn maybe(&mut self, many: usize, written: &str) {
        if self.random.one_in(many) {
            self.add(written);
        }
    }

    /// So many parts as a list is to have: mostly one.
    fn length(&mut self) -> usize {
        match self.random.below(10) {
            0 => 2 + self.random.below(5),
            1 | 2 => 2,
            _ => 1,
        }
    }

    fn name(&mut self) {
        let name = name(self.random);
        self.tokens.push(token(&name));
    }

    fn names(&mut self, many: usize) {
        for index in 0..many {
            if index > 0 {
                self.add(",");
            }
            self.name();
        }
    }

    fn declaration(&mut self) {
        match self.random.below(6) {
            0 => self.constants("GLOBAL $(", ":"),
            1 => self.constants("MANIFEST $(", "="),
            _ => {
                self.add("LET");
                self.function();
                while self.random.one_in(3) {
                    self.add("AND");
                    self.function();
                }
            }
        }
        self.maybe(2, ";");
    }

    fn constants(&mut self, head: &str, between: &str) {
        self.add(head);
        for index in 0..self.length() + self.random.below(3) {
            if index > 0 {
                self.add(";");
            }
            self.name();
            self.add(between);
            self.constant();
        }
        self.maybe(3, ";");
        self.add("$)");
    }

    fn constant(&mut self) {
        self.maybe(4, "-");
        match self.random.below(6) {
            0 => self.add("TRUE"),
            1 => self.add("FALSE"),
            2 => self.name(),
            _ => {
                let number = number(self.random);
                self.tokens.push(token(&number));
            }
        }
    }

    fn function(&mut self) {
        self.name();
        self.add("(");
        let parameters = self.random.below(4);
        self.names(parameters);
        self.add(")");
        let depth = 2 + self.random.below(6);
        if self.random.one_in(3) {
            self.add("=");
            self.expression(depth, true);
        } else {
            self.add("BE");
            self.command(depth, true);
        }
    }

    fn command(&mut self, depth: usize, closed: bool) {
        let mut labels = 0;
        while self.random.one_in(if labels == 0 { 12 } else { 3 }) {
            self.label();
            labels += 1;
        }
        if labels > 0 && closed && self.random.one_in(3) {
            return;
        }
        self.action(depth, closed);
        while self.random.one_in(10) {
            match self.random.below(3) {
                0 => self.add("REPEAT"),
                kind => {
                    self.add(if kind == 1 { "REPEATWHILE" } else { "REPEATUNTIL" });
                    self.expression(depth.saturating_sub(1), closed);
                }
            }
        }
    }

    fn label(&mut self) {
        if self.random.one_in(4) {
            self.add("DEFAULT");
        } else {
            self.add("CASE");
            self.constant();
        }
        self.add(":");
    }

    fn action(&mut self, depth: usize, closed: bool) {
        let small = depth == 0 || self.full();
        let inner = depth.saturating_sub(1);
        match self.random.below(if small { 9 } else { 24 }) {
            0 => self.leave(),
            1 if !small => self.block(inner),
            1 => self.add("$( $)"),
            2 => {
                self.add("RESULTIS");
                self.expression(inner, closed);
            }
            3..=5 if closed => self.call(inner),
            3..=8 => self.assignment(inner, closed),
            9..=12 => self.block(inner),
            13 | 14 => {
                self.add("TEST");
                self.expression(inner, true);
                self.then();
                self.command(inner, true);
                self.add("OR");
                self.command(inner, closed);
            }
            15..=18 => {
                let word = self.random.pick(&["IF", "UNLESS", "WHILE", "UNTIL"]);
                self.add(word);
                self.expression(inner, true);
                self.then();
                self.command(inner, closed);
            }
            19 | 20 => {
                self.add("FOR");
                self.name();
                self.add("=");
                self.expression(inner, true);
                self.add("TO");
                self.expression(inner, true);
                if self.random.one_in(2) {
                    self.add("BY");
                    self.constant();
                }
                self.then();
                self.command(inner, closed);
            }
            21 | 22 => {
                self.add("SWITCHON");
                self.expression(inner, true);
                self.add("INTO $(");
                for index in 0..1 + self.random.below(4) {
                    if index > 0 {
                        self.add(";");
                    }
                    if !self.random.one_in(6) {
                        self.label();
                    }
                    self.command(inner, true);
                }
                self.maybe(3, ";");
                self.add("$)");
            }
            _ => self.leave(),
        }
    }

    fn then(&mut self) {
        let word = self.random.pick(&["DO", "THEN"]);
        self.add(word);
    }

    fn leave(&mut self) {
        let word = self.random.pick(&["BREAK", "LOOP", "ENDCASE", "RETURN", "FINISH"]);
        self.add(word);
    }

    fn assignment(&mut self, depth: usize, closed: bool) {
        let many = self.length();
        for index in 0..many {
            if index > 0 {
                self.add(",");
            }
            match self.random.below(4) {
                0 => self.expression(depth, false),
                1 => {
                    self.add("!");
                    self.at_level(SUFFIXED, depth, false, Not::Within);
                }
                2 => {
                    self.name();
                    self.add("!");
                    self.name();
                }
                _ => self.name(),
            }
        }
        self.add(":=");
        self.expressions(many, depth, closed);
    }

    fn expressions(&mut self, many: usize, depth: usize, closed: bool) {
        for index in 0..many {
            if index > 0 {
                self.add(",");
            }
            self.expression(depth, closed && index + 1 == many);
        }
    }

    /// A call as a command: no monadic operator may take it over.
    fn call(&mut self, depth: usize) {
        match self.random.below(12) {
            0 => {
                self.add("(");
                self.expression(depth, true);
                self.add(")");
            }
            1 => {
                self.add("VALOF");
                self.block(depth);
            }
            _ => self.name(),
        }
        while self.random.one_in(4) {
            if self.random.one_in(2) {
                self.add("!");
                self.name();
            } else {
                self.arguments(depth);
            }
        }
        self.arguments(depth);
    }

    fn arguments(&mut self, depth: usize) {
        self.add("(");
        let many = if self.random.one_in(3) { 0 } else { self.length() };
        self.expressions(many, depth.saturating_sub(1), true);
        self.add(")");
    }

    fn block(&mut self, depth: usize) {
        self.add("$(");
        let mut vector = false;
        while self.random.one_in(3) {
            vector = self.local(depth);
            self.maybe(2, ";");
        }
        if !self.random.one_in(8) {
            let first = self.tokens.len();
            self.command(depth, true);
            // An expression right before the command would take some of its first symbols.
            let after_expression = !vector && !matches!(self.tokens[first - 1].kind, BEGIN | SEMICOLON);
            if after_expression && matches!(self.tokens[first].kind, OPEN | SHRIEK | PLUS | MINUS) {
                self.tokens.insert(first, token(b";"));
            }
            while self.random.one_in(2) && !self.full() {
                self.add(";");
                self.command(depth, true);
            }
        }
        self.maybe(3, ";");
        self.add("$)");
    }

    /// Whether the local made is a vector.
    fn local(&mut self, depth: usize) -> bool {
        self.add("LET");
        if self.random.one_in(4) {
            self.name();
            self.add("= VEC");
            self.constant();
            return true;
        }
        let many = self.length();
        self.names(many);
        self.add("=");
        self.expressions(many, depth, true);
        false
    }

    fn expression(&mut self, depth: usize, closed: bool) {
        let loosest = self.random.below(SUFFIXED + 1);
        self.at_level(loosest, depth, closed, Not::Level);
    }

    /// Operands and operators of one binding level; the tighter levels are within the operands.
    fn at_level(&mut self, level: usize, depth: usize, closed: bool, not: Not) {
        let small = depth == 0 || self.full();
        let more = match self.random.below(6) {
            _ if small => 0,
            0 if level != RELATION => 2 + self.random.below(3),
            0..=2 => 1,
            _ => 0,
        };
        if level == SUFFIXED {
            self.operand(depth, closed && more == 0, not);
            for index in 1..=more {
                if self.random.one_in(2) {
                    self.arguments(depth);
                } else {
                    self.add("!");
                    self.operand(depth, closed && index == more, Not::Within);
                }
            }
            return;
        }
        let first = if level == RELATION && more > 0 && not == Not::Level { Not::Never } else { not };
        self.at_level(level + 1, depth, closed && more == 0, first);
        for index in 1..=more {
            let operator = self.random.pick(OPERATORS[level]);
            self.add(operator);
            // The right operand of a shift is a sum.
            let right = if level == SHIFTS { SUM } else { level + 1 };
            let not = if level < SHIFTS { Not::Level } else { Not::Within };
            self.at_level(right, depth.saturating_sub(1), closed && index == more, not);
        }
    }

    fn operand(&mut self, depth: usize, closed: bool, not: Not) {
        if depth == 0 || self.full() {
            return self.plain();
        }
        let inner = depth - 1;
        match self.random.below(14) {
            0 | 1 => {
                self.add("(");
                self.expression(inner, true);
                self.add(")");
            }
            2 => {
                let operator = self.random.pick(&["!", "@"]);
                self.add(operator);
                self.at_level(SUFFIXED, inner, closed, Not::Within);
            }
            3 => {
                let operator = self.random.pick(&["+", "-"]);
                self.add(operator);
                self.at_level(PRODUCT, inner, closed, Not::Within);
            }
            4 if not != Not::Never => {
                self.add("NOT");
                self.at_level(SHIFTS, inner, closed, Not::Within);
            }
            5 => {
                self.add("VALOF");
                if self.random.one_in(2) {
                    self.block(inner);
                } else {
                    self.command(inner, closed);
                }
            }
            _ => self.plain(),
        }
    }

    fn plain(&mut self) {
        let text = match self.random.below(12) {
            0 => b"TRUE".to_vec(),
            1 => b"FALSE".to_vec(),
            2 => {
                let length = match self.random.below(30) {
                    0 => LONGEST_STRING - self.random.below(2),
                    _ => self.random.below(12),
                };
                quoted(self.random, b'"', length)
            }
            3..=5 => number(self.random),
            _ => name(self.random),
        };
        self.tokens.push(token(&text));
    }
}

fn name(random: &mut Random) -> Vec<u8> {
    loop {
        let name = match random.below(12) {
            0 => format!("{}{}", random.pick(&WORDS).0, random.pick(&["A", "S", "1", ".", "ER", "WHILE", ".DO"])),
            1 => {
                // A reserved word but for its last letter.
                let word = random.pick(&WORDS).0;
                word[..word.len() - 1].to_string()
            }
            2 => {
                let most = random.pick(&[1, 2, 3, 3, 60]);
                "N.1..".repeat(1 + random.below(most))
            }
            3 | 4 => {
                let mut name = String::from(random.pick(b"ABCXYZ") as char);
                for _ in 0..random.below(6) {
                    name.push(random.pick(b"ABXYZ0189..") as char);
                }
                name
            }
            _ => random.pick(&["A", "B", "C", "F", "G", "I", "V", "START", "WRCH", "RDCH"]).to_string(),
        };
        if WORDS.iter().all(|(word, _)| *word != name) {
            return name.into_bytes();
        }
    }
}

/// A number in any of its forms.
fn number(random: &mut Random) -> Vec<u8> {
    let zeros = "0".repeat(match random.below(40) {
        0 => random.below(300),
        1 | 2 => 1 + random.below(4),
        _ => 0,
    });
    match random.below(6) {
        0 => format!("{zeros}{}", random.pick(&[32767, 32766, 10000, 9999])).into_bytes(),
        1 => {
            let value = if random.one_in(4) { 0o177777 } else { random.next() as u16 };
            format!("#{zeros}{value:o}").into_bytes()
        }
        2 => quoted(random, b'\'', 1),
        3 => format!("{zeros}{}", random.below(32768)).into_bytes(),
        _ => random.below(10).to_string().into_bytes(),
    }
}

/// So many characters and escapes between quotes.
pub fn quoted(random: &mut Random, quote: u8, length: usize) -> Vec<u8> {
    let mut text = vec![quote];
    for _ in 0..length {
        let byte = 32 + random.below(95) as u8;
        if random.one_in(6) {
            text.extend(format!("*{:03}", random.below(256)).bytes());
        } else if random.one_in(4) || byte == quote || byte == b'*' {
            text.extend([b'*', random.pick(b"NSTBPC*'\"")]);
        } else {
            text.push(byte);
        }
    }
    text.push(quote);
    text
}

// ---------------------------------------------------------------------------------------------------------------------
// Programs damaged at symbols

fn damaged_at_symbols(seed: u64) -> Case {
    let mut random = Random::new(seed);
    let mut tokens = program(&mut random);
    for _ in 0..if random.one_in(4) { 2 } else { 1 } {
        damage_tokens(&mut random, &mut tokens);
    }
    let careless = random.one_in(3);
    let layout = layout(&mut random, careless);
    Case { text: render(&mut random, &tokens, &layout), expected: None }
}

fn is_bracket(token: &Token) -> bool {
    matches!(token.kind, OPEN | CLOSE | BEGIN | END)
}

/// A place in the tokens, mostly not a bracket's: a lone bracket is refused before the grammar is looked at.
fn damage_place(random: &mut Random, tokens: &[Token]) -> usize {
    let mut place = random.below(tokens.len());
    for _ in 0..8 {
        if !is_bracket(&tokens[place]) || random.one_in(12) {
            break;
        }
        place = random.below(tokens.len());
    }
    place
}

/// Any symbol, mostly not a bracket; each kind as often.
pub fn any_token(random: &mut Random) -> Token {
    loop {
        let made = match random.below(64) {
            0..=34 => token(random.pick(&WORDS).0.as_bytes()),
            35..=58 => token(random.pick(&SIGNS).0.as_bytes()),
            59 | 60 => token(&name(random)),
            61 => token(&number(random)),
            _ => {
                let length = random.below(4);
                token(&quoted(random, b'"', length))
            }
        };
        if !is_bracket(&made) || random.one_in(12) {
            return made;
        }
    }
}

fn damage_tokens(random: &mut Random, tokens: &mut Vec<Token>) {
    if tokens.is_empty() {
        tokens.push(any_token(random));
        return;
    }
    let place = damage_place(random, tokens);
    match random.below(16) {
        0 | 1 => {
            tokens.remove(place);
        }
        2 => tokens.insert(place, tokens[place].clone()),
        3..=6 => tokens[place] = any_token(random),
        7..=9 => tokens.insert(place, any_token(random)),
        10 => {
            if place + 1 < tokens.len() {
                tokens.swap(place, place + 1);
            }
        }
        11 => {
            let other = damage_place(random, tokens);
            tokens.swap(place, other);
        }
        12 => {
            // The text stops here, with every open bracket closed.
            tokens.truncate(place);
            close_brackets(tokens);
        }
        13 => {
            // A part taken out, whole brackets only.
            let end = balanced_end(tokens, place);
            tokens.drain(place..end);
        }
        14 => {
            // A part put in brackets, or an empty pair put in.
            let end = if random.one_in(3) { place } else { balanced_end(tokens, place) };
            let (open, close) = if random.one_in(2) { ("(", ")") } else { ("$(", "$)") };
            tokens.insert(end, token(close.as_bytes()));
            tokens.insert(place, token(open.as_bytes()));
        }
        _ => {
            // A part of the program said again elsewhere.
            let end = balanced_end(tokens, place);
            let part = tokens[place..end].to_vec();
            let other = damage_place(random, tokens);
            tokens.splice(other..other, part);
        }
    }
}

/// The end of one token, or of the bracketed part that it opens; a closing bracket counts as nothing.
fn balanced_end(tokens: &[Token], place: usize) -> usize {
    let mut open = 0;
    for (index, token) in tokens.iter().enumerate().skip(place) {
        match token.kind {
            OPEN | BEGIN => open += 1,
            CLOSE | END if open == 0 => return index,
            CLOSE | END => open -= 1,
            _ => {}
        }
        if open == 0 {
            return index + 1;
        }
    }
    tokens.len()
}

fn close_brackets(tokens: &mut Vec<Token>) {
    let mut wanted = Vec::new();
    for token in tokens.iter() {
        match token.kind {
            OPEN => wanted.push(")"),
            BEGIN => wanted.push("$)"),
            CLOSE | END => _ = wanted.pop(),
            _ => {}
        }
    }
    for close in wanted.into_iter().rev() {
        tokens.push(token(close.as_bytes()));
    }
}

// ---------------------------------------------------------------------------------------------------------------------
// Programs with a doubtful phrase: what is nearly grammatical, or only just

const DECLARATION_PHRASES: [&str; 32] = [
    "GLOBAL $( $)",
    "MANIFEST $( $)",
    "GLOBAL $( ; $)",
    "GLOBAL $( A = 1 $)",
    "MANIFEST $( A : 1 $)",
    "GLOBAL $( A : 1 ; ; $)",
    "MANIFEST $( A = 1 ; $) ;",
    "GLOBAL $( A : 1 B : 2 $)",
    "MANIFEST $( A = - - 1 $)",
    "MANIFEST $( A = + 1 $)",
    "MANIFEST $( A = ( 1 ) $)",
    "MANIFEST $( A = 1 + 1 $)",
    "MANIFEST $( A = \"S\" $)",
    "MANIFEST $( A = - TRUE ; B = - A ; C = FALSE $)",
    "MANIFEST $( A , B = 1 , 2 $)",
    "GLOBAL A : 1",
    "GLOBAL ( A : 1 )",
    "LET A = 1",
    "LET A , B = 1 , 2",
    "LET V = VEC 3",
    "LET A ( ) = 1 ; AND B ( ) = 2",
    "LET A ( ) = 1 AND B ( ) BE BREAK",
    "LET A ( ) = 1 AND LET B ( ) = 2",
    "LET A ( 1 ) = 2",
    "LET A ( B , ) = 1",
    "LET A ( ) ( ) = 1",
    "LET A ( ) := 1",
    "LET A ( ) BE",
    "LET A ( ) =",
    "AND A ( ) = 1",
    "A ( )",
    ";",
];

const COMMAND_PHRASES: [&str; 88] = [
    "LET A , B = VEC 3",
    "LET V = VEC 3 , 4",
    "LET V = VEC",
    "LET V = VEC - 3",
    "LET V = VEC - A ( B ) := 1",
    "LET V = VEC + 3",
    "LET V = VEC ( 3 )",
    "LET A , B = 1",
    "LET A = 1 , 2",
    "LET A , B = 1 , 2 , 3",
    "LET A , B = 1 , VEC 3",
    "LET A , B = VALOF C := 1 , 2",
    "LET A , B = VALOF C ( ) , 2",
    "LET A = B - C := 1",
    "LET A = B @ C := 1",
    "LET A = B NOT C := 1",
    "LET A ( ) = 1",
    "LET A = 1 AND B = 2",
    "LET A BE BREAK",
    "LET 1 = A",
    "LET A := 1",
    "SWITCHON A INTO $( $)",
    "SWITCHON A INTO $( ; $)",
    "SWITCHON A INTO $( BREAK ; $)",
    "SWITCHON A INTO $( LET A = 1 ; CASE 1 : $)",
    "SWITCHON A INTO $( CASE 1 : ; ; $)",
    "SWITCHON A INTO BREAK",
    "SWITCHON A INTO CASE 1 :",
    "CASE 1 : REPEAT",
    "IF A DO CASE 1 : REPEAT",
    "A := VALOF DEFAULT : REPEATWHILE B",
    "CASE 1 : ;",
    "CASE ( 1 ) : BREAK",
    "CASE - - 1 :",
    "CASE + 1 :",
    "CASE \"S\" :",
    "CASE A ! 1 :",
    "CASE 1 BREAK",
    "DEFAULT 1 :",
    "DEFAULT BREAK",
    "A , B := 1",
    "A := 1 , 2",
    "A , B := 1 , 2 , 3",
    "A",
    "A = 1",
    "A + F ( )",
    "( F ( ) )",
    "( F ) ( )",
    "( F ( ) ) := 1",
    "F ( ) G ( )",
    "- F ( )",
    "F ( ) ! A",
    "A ! F ( )",
    "F ( ) , A",
    "F ( ) , A := 1 , 2",
    "F ( ) := 1",
    "$( ; $)",
    "$( ; BREAK $)",
    "$( ; ; $)",
    "$( LET A = 1 ; ; $)",
    "$( LET A = 1 ; ; BREAK $)",
    "$( LET A = 1 ; ; LET B = 2 $)",
    "$( BREAK ; ; $)",
    "$( BREAK ; LET A = 1 $)",
    "TEST A DO BREAK",
    "TEST A DO BREAK OR",
    "TEST A DO BREAK ; OR LOOP",
    "TEST A DO TEST B DO BREAK OR LOOP",
    "TEST A DO CASE 1 : OR DEFAULT :",
    "IF A BREAK",
    "IF A DO",
    "IF A DO BREAK OR LOOP",
    "FOR I = 1 TO 2 BY A + 1 DO BREAK",
    "FOR I = 1 TO 2 BY - A DO BREAK",
    "FOR I = 1 BY 2 TO 3 DO BREAK",
    "FOR 1 = 1 TO 2 DO BREAK",
    "FOR A ! I = 1 TO 2 DO BREAK",
    "RESULTIS",
    "BREAK LOOP",
    "REPEAT",
    "BREAK REPEATWHILE",
    "BREAK REPEAT WHILE A DO LOOP",
    "GLOBAL $( A : 1 $)",
    "VALOF BREAK",
    "VALOF BREAK ( 1 )",
    "VALOF F ( ) ( 1 )",
    "VALOF CASE 1 : := 2",
    "VALOF CASE 1 : , A := 1 , 2",
];

const EXPRESSION_PHRASES: [&str; 40] = [
    "A < B < C",
    "A << B < C",
    "A < B << C < D",
    "A < B << C",
    "NOT A < B < C",
    "NOT A << B = C",
    "NOT A << B = C = D",
    "A * NOT B < C < D",
    "A = NOT B = C",
    "A = NOT B = C = D",
    "A << NOT B = C",
    "- A < B < C",
    "VALOF F ( ) + 1",
    "VALOF A := 1 + 1",
    "VALOF BREAK + 1",
    "G ( VALOF F ( ) , 3 )",
    "G ( VALOF F ( ) )",
    "G ( VALOF A := 1 , 2 )",
    "G ( VALOF A , B := 1 , 2 )",
    "VALOF RESULTIS A = B = C",
    "VALOF",
    "VALOF CASE 1 :",
    "VALOF CASE 1 : * 2",
    "VALOF CASE 1 : - 2",
    "VALOF IF A DO LOOP ( 3 )",
    "( )",
    "( A , B )",
    "A B",
    "F ( , )",
    "F ( A , )",
    "* A",
    "A !",
    "A NOT B",
    "A @ B",
    "NOT",
    "A | NOT - + ! @ B",
    "1 ( 2 ) ! TRUE ( )",
    "VEC 3",
    "A := 1",
    "A DO",
];

fn doubtful(seed: u64) -> Case {
    let mut random = Random::new(seed);
    let mut all = program(&mut random);
    let (phrases, places): (&[&str], Vec<usize>) = match random.below(5) {
        0 => (&DECLARATION_PHRASES, (0..=all.len()).filter(|&place| declaration_begins(&all, place)).collect()),
        1 | 2 => (&EXPRESSION_PHRASES, (0..all.len()).filter(|&place| is_operand(&all[place])).collect()),
        _ => (&COMMAND_PHRASES, (1..=all.len()).filter(|&place| may_precede_command(&all[place - 1])).collect()),
    };
    let phrase = tokens(random.pick(phrases));
    if places.is_empty() {
        all = tokens("LET F ( ) BE $( A := VALOF $(");
        all.extend(phrase);
        all.extend(tokens("$) $)"));
    } else {
        let place = random.pick(&places);
        let end = if place < all.len() && is_operand(&all[place]) { place + 1 } else { place };
        let before = all.splice(place..end, phrase.iter().cloned()).count();
        if before == 0 && random.one_in(2) {
            all.insert(place + phrase.len(), token(b";"));
        }
    }
    let careless = random.one_in(6);
    let layout = layout(&mut random, careless);
    Case { text: render(&mut random, &all, &layout), expected: None }
}

fn declaration_begins(tokens: &[Token], place: usize) -> bool {
    let open = |token: &&Token| token.kind == BEGIN;
    let close = |token: &&Token| token.kind == END;
    let outermost = tokens[..place].iter().filter(open).count() == tokens[..place].iter().filter(close).count();
    outermost && tokens.get(place).is_none_or(|token| matches!(token.kind, LET | GLOBAL | MANIFEST))
}

fn is_operand(token: &Token) -> bool {
    matches!(token.kind, NUMBER | STRING | TRUE | FALSE)
}

fn may_precede_command(token: &Token) -> bool {
    matches!(token.kind, BEGIN | SEMICOLON | DO | OR | BE | COLON | VALOF)
}

// ---------------------------------------------------------------------------------------------------------------------
// Programs damaged at bytes

fn damaged_at_bytes(seed: u64) -> Case {
    let mut random = Random::new(seed);
    let tokens = program(&mut random);
    let layout = layout(&mut random, false);
    let mut text = render(&mut random, &tokens, &layout);
    for _ in 0..if random.one_in(4) { 1 + random.below(4) } else { 1 } {
        damage_bytes(&mut random, &mut text);
    }
    if random.one_in(20) {
        let length = random.pick(&[16_383, 16_384, 16_385, 16_384, 16_385, 20_000]);
        stretch(&mut random, &mut text, length);
    }
    Case { text, expected: None }
}

/// Makes a text exactly so long, by blanks or comments in front or behind, or by one long word.
fn stretch(random: &mut Random, text: &mut Vec<u8>, length: usize) {
    text.truncate(length);
    let more = length - text.len();
    let filler = match random.below(5) {
        0 => vec![b' '; more],
        1 => vec![b'\n'; more],
        2 => b"// comment\n".iter().copied().cycle().take(more).collect(),
        3 => vec![b'A'; more],
        _ => vec![b'/'; more],
    };
    let place = if random.one_in(2) { 0 } else { text.len() };
    text.splice(place..place, filler);
}

/// Constants and signs that are good, bad, or bad only where the text ends.
const PIECES: [&str; 64] = [
    "''",
    "'''",
    "'AB'",
    "'*Q'",
    "'*n'",
    "'*'",
    "'*",
    "'",
    "'A",
    "'*N",
    "'\t'",
    "'\n'",
    "'\u{7f}'",
    "'*''",
    "'\"'",
    "'*\"'",
    "\"",
    "\"A",
    "\"*",
    "\"*\"",
    "\"*q\"",
    "\"A\nB\"",
    "\"\t\"",
    "\"\u{7f}\"",
    "\"\u{1f}\"",
    "\"'\"",
    "\"*'\"",
    "\"\"",
    "\"*N*S*T*B*P*C***'*\"\"",
    "\"//\"",
    "'/'",
    "#",
    "#8",
    "#178",
    "#200000",
    "#177777",
    "#0000000000000000177777",
    "#1000000000000000000000000000001",
    "32767",
    "32768",
    "032767",
    "65536",
    "99999999999999999999999999999",
    "12A",
    "A.1",
    ".",
    ".A",
    "1.5",
    "~",
    "~=",
    "~~=",
    "$",
    "$$(",
    "$ (",
    "%",
    "^",
    "_",
    "?",
    "[",
    "\\",
    "//",
    "/ /",
    "a",
    "\u{b}",
];

fn damage_bytes(random: &mut Random, text: &mut Vec<u8>) {
    let place = random.below(text.len() + 1);
    match random.below(15) {
        0 => {
            let end = (place + 1 + random.below(3)).min(text.len());
            text.drain(place..end);
        }
        1 => text.insert(place, random.byte()),
        2 if place < text.len() => text[place] = random.byte(),
        3 if place < text.len() => text.insert(place, text[place]),
        4 | 5 => text.insert(place, random.pick(b"\0\x01\x08\x0b\x0c\x1f\x7f\x80\xa0\xff\t\r\n '\"*#~$%a{z`")),
        6 => text.truncate(place),
        7 => {
            // Cut just after a byte of one sort, so that every half-read form meets the end.
            let sort = random.pick(b"$'\"*#:/<>~(=\n0A.");
            let places: Vec<usize> = (0..text.len()).filter(|&index| text[index] == sort).collect();
            if !places.is_empty() {
                let cut = random.pick(&places);
                text.truncate(cut + 1);
            }
        }
        8 => {
            // A bad byte within quotes, if there are any.
            let quotes: Vec<usize> = (0..text.len()).filter(|&index| matches!(text[index], b'"' | b'\'')).collect();
            if !quotes.is_empty() {
                let quote = random.pick(&quotes);
                let byte = if random.one_in(2) { random.byte() } else { random.pick(b"*'\"\n\t\x1f\x7f\x80\xff") };
                text.insert(quote + 1, byte);
            }
        }
        9 => {
            // Strings about the longest; an escape is one character, and a closing quote may fail.
            let length = LONGEST_STRING - 1 + random.below(3);
            let mut piece = match random.below(3) {
                0 => [b"\"".to_vec(), b"*N".repeat(length), b"\"".to_vec()].concat(),
                1 => [b"\"".to_vec(), b"Z".repeat(length), b"\"".to_vec()].concat(),
                _ => quoted(random, b'"', length),
            };
            if random.one_in(6) {
                piece.pop();
            }
            text.splice(place..place, piece);
        }
        10 => {
            text.truncate(place);
            text.extend_from_slice(random.pick(&PIECES).as_bytes());
        }
        11 if !text.is_empty() => {
            // Numbers changed in their digits only.
            let digits: Vec<usize> = (0..text.len()).filter(|&index| text[index].is_ascii_digit()).collect();
            if !digits.is_empty() {
                let digit = random.pick(&digits);
                let more = random.pick(&["99", "32768", "8", "7", "00000", "65535"]);
                text.splice(digit..digit, more.bytes());
            }
        }
        _ => {
            let piece = random.pick(&PIECES);
            let blanks = random.pick(&["", " ", "\n"]);
            text.splice(place..place, format!("{blanks}{piece}{blanks}").into_bytes());
        }
    }
}

// ---------------------------------------------------------------------------------------------------------------------
// Nests

/// What stands around a part within a part: the symbols before it, those after it, the levels that the first ones open
/// and still hold, and whether the part is a command. Neither before nor after it are more than three levels open at once,
/// and nothing after it could be taken into the part.
pub struct Wrap {
    before: &'static str,
    after: &'static str,
    levels: usize,
    holds_command: bool,
}

const fn wrap(before: &'static str, after: &'static str, levels: usize, holds_command: bool) -> Wrap {
    Wrap { before, after, levels, holds_command }
}

const ROUND_BRACKET: Wrap = wrap("(", ")", 1, false);
const PLAIN_BLOCK: Wrap = wrap("$(", "$)", 1, true);

/// The first of these bind so tightly that they may follow a monadic operator without ending its level.
const TIGHT_WRAPS: usize = 11;
pub const EXPRESSION_WRAPS: [Wrap; 37] = [
    ROUND_BRACKET,
    wrap("F (", ")", 1, false),
    wrap("A ! F ( 1 ,", ")", 1, false),
    wrap("-", "", 1, false),
    wrap("+", "", 1, false),
    wrap("!", "", 1, false),
    wrap("@", "", 1, false),
    wrap("NOT", "", 1, false),
    wrap("A ! NOT", "", 1, false),
    wrap("VALOF", "", 1, true),
    wrap("VALOF $( $) ( VALOF", ")", 2, true),
    wrap("1 + ( 2 ) * (", ")", 1, false),
    wrap("A * -", "", 1, false),
    wrap("A | VALOF", "", 1, true),
    // Here a monadic operator's level ends before the operator after its operand,
    wrap("! A * (", ")", 1, false),
    wrap("@ A + (", ")", 1, false),
    wrap("! A = @", "", 1, false),
    wrap("- 1 + (", ")", 1, false),
    wrap("+ A >> (", ")", 1, false),
    wrap("- A ~= VALOF", "", 1, true),
    wrap("A ! - B - (", ")", 1, false),
    wrap("NOT A & @", "", 1, false),
    wrap("NOT A << B | (", ")", 1, false),
    wrap("A * NOT B & VALOF", "", 1, true),
    // and here it goes on.
    wrap("! A ! (", ")", 2, false),
    wrap("@ A (", ")", 2, false),
    wrap("A + ! B ! C (", ")", 2, false),
    wrap("- A * (", ")", 2, false),
    wrap("+ A REM VALOF", "", 2, true),
    wrap("A * - B / (", ")", 2, false),
    wrap("NOT A + (", ")", 2, false),
    wrap("NOT A < -", "", 2, false),
    wrap("NOT A >= B << (", ")", 2, false),
    wrap("A ! NOT B >> VALOF", "", 2, true),
    wrap("A = NOT B = (", ")", 2, false),
    wrap("A = NOT B * C << (", ")", 2, false),
    wrap("NOT A & NOT B + @", "", 2, false),
];

pub const COMMAND_WRAPS: [Wrap; 30] = [
    wrap("A :=", "", 1, false),
    wrap("A , B := 1 ,", "", 1, false),
    wrap("RESULTIS", "", 1, false),
    wrap("F (", ")", 2, false),
    wrap("F ( ) (", ")", 2, false),
    wrap("( A ) := (", ")", 2, false),
    wrap("- A := NOT", "", 2, false),
    wrap("IF", "DO BREAK", 1, false),
    wrap("UNTIL", "THEN $( $)", 1, false),
    wrap("FOR I =", "TO 2 DO LOOP", 1, false),
    wrap("FOR I = 1 TO", "BY - 1 DO CASE 1 :", 1, false),
    wrap("SWITCHON", "INTO $( DEFAULT : $)", 1, false),
    wrap("BREAK REPEATWHILE", "", 1, false),
    wrap("BREAK REPEAT REPEATUNTIL", "REPEAT", 1, false),
    wrap("$( LET A =", "$)", 1, false),
    wrap("$( LET V = VEC - 1 LET A , B = 1 ,", "; BREAK $)", 1, false),
    wrap("TEST A DO F ( ) OR RESULTIS", "", 2, false),
    wrap("IF A DO", "", 1, true),
    wrap("UNLESS A DO", "", 1, true),
    wrap("UNTIL A THEN", "", 1, true),
    wrap("WHILE - A DO CASE 1 :", "", 1, true),
    wrap("TEST A DO", "OR BREAK", 1, true),
    wrap("TEST A DO BREAK OR", "", 1, true),
    wrap("FOR I = 1 TO 2 BY - 1 DO", "", 1, true),
    wrap("SWITCHON A INTO $(", "$)", 1, true),
    wrap("SWITCHON A INTO $( CASE 1 : CASE - 2 :", "; DEFAULT : BREAK ; $)", 1, true),
    PLAIN_BLOCK,
    wrap("$( LET A = ( 1 ) ;", "; $)", 1, true),
    wrap("$( LET V = VEC - 1 ;", "$)", 1, true),
    wrap("$( F ( ) ; DEFAULT :", "; F ( 1 ) $)", 1, true),
];

/// Parts that open so many levels at most, the deepest being their own.
const EXPRESSION_LEAVES: [(&str, usize); 9] = [
    ("A", 0),
    ("1", 0),
    ("\"S\"", 0),
    ("A ! 2 + 3", 0),
    ("F ( )", 1),
    ("- 1", 1),
    ("VALOF CASE 1 :", 1),
    ("( - A )", 2),
    ("VALOF CASE - 1 :", 2),
];
const COMMAND_LEAVES: [(&str, usize); 10] = [
    ("CASE 1 :", 0),
    ("DEFAULT : CASE A :", 0),
    ("CASE - 1 :", 1),
    ("BREAK", 1),
    ("A := 1", 1),
    ("DEFAULT : $( $)", 1),
    ("F ( )", 2),
    ("A ! - 1 := 2", 2),
    ("$( LET V = VEC - 1 $)", 2),
    ("CASE - 1 : FOR I = 1 TO 2 BY - 1 DO CASE 3 :", 2),
];

fn nest(seed: u64) -> Case {
    let mut random = Random::new(seed);
    let mut deepest = 0;
    let mut all = tokens("LET F ( ) BE $(");
    let many = if random.one_in(3) { 2 + random.below(3) } else { 1 };
    for index in 0..many {
        // All but the last are mostly good, so that the last is reached with their levels given back.
        let levels = match random.below(10) {
            0..=2 => 63,
            3..=5 => 64,
            6..=8 if index + 1 == many || random.one_in(8) => 65,
            6..=8 => 64,
            _ => random.pick(&[1, 2, 5, 32, 62, 64, 66, 70, 130]),
        };
        if index > 0 {
            all.extend(tokens(";"));
        }
        all.extend(nested(&mut random, levels - 1));
        deepest = deepest.max(levels);
    }
    all.extend(tokens("$)"));
    if random.one_in(4) {
        // From the outermost level, where no command is open yet.
        let levels = random.pick(&[63, 64, 65]);
        all.extend(tokens("LET G ( A , B ) ="));
        all.extend(nested_in(&mut random, levels, false));
        deepest = deepest.max(levels);
    }
    let damaged = random.one_in(4);
    if damaged {
        damage_tokens(&mut random, &mut all);
    }
    let layout = layout(&mut random, damaged);
    let text = render(&mut random, &all, &layout);
    let expected = if deepest > 64 { 7 } else { 0 };
    let expected = if text.len() > LONGEST_TEXT { 1 } else { expected };
    Case { text, expected: if damaged { None } else { Some(expected) } }
}

/// A command that opens exactly so many levels.
fn nested(random: &mut Random, levels: usize) -> Vec<Token> {
    nested_in(random, levels, true)
}

fn nested_in(random: &mut Random, levels: usize, command: bool) -> Vec<Token> {
    // Either one form of each sort over and over, or all of them mixed.
    let only = random.one_in(2).then(|| (random.below(EXPRESSION_WRAPS.len()), random.below(COMMAND_WRAPS.len())));
    let innermost = random.below(3);
    nest_of(random, levels, command, only, innermost)
}

/// A command or an expression that opens exactly so many levels, its innermost part no more than two of them. `only` gives
/// one wrap of each sort, expressions' first, to use over and over.
pub fn nest_of(
    random: &mut Random,
    levels: usize,
    mut command: bool,
    only: Option<(usize, usize)>,
    innermost: usize,
) -> Vec<Token> {
    let mut before: Vec<Token> = Vec::new();
    let mut after = Vec::new();
    let mut left = levels;
    while left > innermost {
        // What the other wraps hold beside the part may open more levels than are left.
        let plain = left <= 2;
        let wrap = if command && plain {
            &PLAIN_BLOCK
        } else if plain {
            &ROUND_BRACKET
        } else if command {
            &COMMAND_WRAPS[only.map_or_else(|| random.below(COMMAND_WRAPS.len()), |(_, index)| index)]
        } else {
            let monadic = before.last().is_some_and(|token| matches!(token.kind, PLUS | MINUS | SHRIEK | AT | NOT));
            let most = if monadic { TIGHT_WRAPS } else { EXPRESSION_WRAPS.len() };
            &EXPRESSION_WRAPS[only.map_or_else(|| random.below(most), |(index, _)| index % most)]
        };
        before.extend(tokens(wrap.before));
        after.push(tokens(wrap.after));
        left -= wrap.levels;
        command = wrap.holds_command;
    }
    let leaves: &[(&str, usize)] = if command { &COMMAND_LEAVES } else { &EXPRESSION_LEAVES };
    let fitting: Vec<&str> = leaves.iter().filter(|(_, levels)| *levels == left).map(|(leaf, _)| *leaf).collect();
    before.extend(tokens(random.pick(&fitting)));
    before.extend(after.into_iter().rev().flatten());
    before
}

// ---------------------------------------------------------------------------------------------------------------------
// Chains

/// A beginning, parts any of which may follow any other, and an end.
pub struct Chain {
    head: &'static str,
    pub links: &'static [&'static str],
    tail: &'static str,
}

pub const CHAINS: [Chain; 26] = [
    Chain { head: "LET F() = 1", links: &["+1"], tail: "" },
    Chain { head: "LET F() = A", links: &["*2", "/B", " REM C"], tail: "" },
    Chain { head: "LET F() = A", links: &["&B", "|C", "<<1", ">>2", "&D=1", "|NOT E", "+ - 1", "*@A"], tail: "" },
    Chain { head: "LET F() = A", links: &["+1", "-A", "*2", "/B", " REM C", "!I", "(X)", "()", "(1,2)"], tail: "" },
    Chain { head: "LET F() BE F()", links: &["()"], tail: "" },
    Chain { head: "LET F() BE F", links: &["(1)", "(1,A)", "!F", "()"], tail: "(0)" },
    Chain { head: "LET F() BE A", links: &["!1", "!A", "\n!B", "!(1)"], tail: ":= 1" },
    Chain { head: "LET F() BE F()", links: &[" REPEAT"], tail: "" },
    Chain { head: "LET F() BE BREAK", links: &[" REPEAT", " REPEATWHILE A", " REPEATUNTIL 1=2"], tail: "" },
    Chain { head: "LET F() BE $( ", links: &["CASE 1:", "DEFAULT:", "CASE A:", "CASE -1:"], tail: "$)" },
    Chain { head: "LET F() BE SWITCHON A INTO $(", links: &["CASE 1:", "BREAK;", "DEFAULT:;"], tail: "FINISH $)" },
    Chain { head: "LET F() BE $( ", links: &["LET A=1 ", "LET B=A;", "LET V=VEC 9\n", "LET A,B=1,2 "], tail: "$)" },
    Chain { head: "LET F() BE $( ", links: &["A:=1;", "F();", "$( $);", "F(A)\n", "BREAK\n", "LOOP\n"], tail: "$)" },
    Chain { head: "LET F() BE F(1", links: &[",1", ",A", ",\"\"", ",(1)"], tail: ")" },
    Chain { head: "LET F(A", links: &[",A", ",B1"], tail: ") = 1" },
    Chain { head: "", links: &["LET F() = 1 ", "LET G(A) BE BREAK;", "LET H() = A\n"], tail: "" },
    Chain { head: "LET F() = 1", links: &[" AND F() = 1", "\nAND G(X,Y) BE X:=Y"], tail: "" },
    Chain { head: "GLOBAL $( A:1", links: &[";A:1", "\nB : -1", ";C:TRUE"], tail: " $)" },
    Chain { head: "MANIFEST $( A=1", links: &[";A=1", "\nB='*N'", ";C=A"], tail: ";$)" },
    Chain { head: "", links: &["GLOBAL $( A:1 $)", "MANIFEST$(A=1$);", "LET A()=1\n"], tail: "" },
    Chain { head: "LET F() = \"\"", links: &["+\"\"", "+\"A\"", "+\"*N\""], tail: "" },
    Chain { head: "LET F() = 1", links: &["+((1))", "-(-1)", "*(NOT A)", "&(VALOF BREAK)"], tail: "" },
    Chain { head: "LET F() BE $( A := VALOF $( $)", links: &["+VALOF $( $)", "()", "!VALOF RETURN"], tail: "$)" },
    Chain { head: "LET F() BE $( F()", links: &["\nF()", "\n(F)(1)", "\nA!1:=2", "\n\nRETURN"], tail: "$)" },
    Chain { head: "//", links: &["/", " LET", "$(", "\""], tail: "\nLET F() = 1" },
    Chain { head: "LET A", links: &["A", "1", "."], tail: "() = 1" },
];

pub const CHAIN_FAULTS: [&str; 11] = [" 1", ")", " $)", ";;", " %", "32768", " AND", ",", " :=", " LET", "'"];

fn chain(seed: u64) -> Case {
    let mut random = Random::new(seed);
    let limit = match random.below(4) {
        0 => 1 + random.below(400),
        1 => LONGEST_TEXT,
        _ => 1 + random.below(LONGEST_TEXT),
    };
    let listed = random.one_in(8);
    let mut text = if listed { equal_lists(&mut random, limit) } else { links(&mut random, limit) };
    let mut expected = if text.len() > LONGEST_TEXT { Some(1) } else { Some(0) };
    match random.below(4) {
        0 => {
            // A fault that only a reader of the whole chain meets.
            let fault = random.pick(&CHAIN_FAULTS);
            text.extend_from_slice(fault.as_bytes());
            expected = None;
        }
        1 if text.len() < LONGEST_TEXT => text.resize(LONGEST_TEXT, b' '),
        2 if random.one_in(2) => {
            damage_bytes(&mut random, &mut text);
            expected = None;
        }
        _ => {}
    }
    Case { text, expected }
}

fn links(random: &mut Random, limit: usize) -> Vec<u8> {
    let chain = &CHAINS[random.below(CHAINS.len())];
    let links = if random.one_in(2) { chain.links } else { &chain.links[..1] };
    chain.text(limit, |_| random.pick(links))
}

impl Chain {
    /// The chain with as many links as its length allows, each chosen by its number.
    pub fn text(&self, limit: usize, mut link: impl FnMut(usize) -> &'static str) -> Vec<u8> {
        let mut text = self.head.as_bytes().to_vec();
        for number in 0.. {
            let link = link(number);
            if text.len() + link.len() + self.tail.len() > limit {
                break;
            }
            text.extend_from_slice(link.as_bytes());
        }
        text.extend_from_slice(self.tail.as_bytes());
        text
    }
}

/// An assignment or local declaration of many names and as many values.
fn equal_lists(random: &mut Random, limit: usize) -> Vec<u8> {
    let many = (limit / 4).saturating_sub(20) + 1;
    equal_list(many, random.one_in(2)).into_bytes()
}

pub fn equal_list(many: usize, assigned: bool) -> String {
    let names = vec!["A"; many].join(",");
    let values = vec!["1"; many].join(",");
    if assigned {
        format!("LET F() BE {names} := {values}")
    } else {
        format!("LET F() BE $( LET {names} = {values} $)")
    }
}
