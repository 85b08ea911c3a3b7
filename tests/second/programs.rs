//! Makes programs to be run: every form of the language, mostly with an end within some thousand steps and without an
//! undefined act, some with one; and damages them for the refusals of names, places and labels. Each follows from its seed
//! alone. What a name stands for is known while the program is made, so that only what is stored is read, only vectors and
//! strings are indexed, and loops and recursion have a bound. Two sweeps leave nothing to chance: one program damaged
//! everywhere, and sources of one form over and over.

use crate::chained::chained;
use crate::random::Random;
use crate::sources::{layout, quoted, render, token, tokens, Token};
use crate::symbols::kind::*;

/// A program's text that is accepted.
pub fn good(seed: u64) -> Vec<u8> {
    let mut random = Random::new(seed);
    let made = Maker::new(&mut random).program();
    written(&mut random, &made)
}

/// A program with a few damages, perhaps refused.
pub fn damaged(seed: u64) -> Vec<u8> {
    let mut random = Random::new(seed);
    let mut made = Maker::new(&mut random).program();
    for _ in 0..random.pick(&[1, 1, 1, 2, 3]) {
        damage(&mut random, &mut made);
    }
    written(&mut random, &made)
}

pub fn input(random: &mut Random) -> Vec<u8> {
    let length = random.pick(&[0, 0, 1, 3, 20]);
    random.bytes(length)
}

fn written(random: &mut Random, made: &[Token]) -> Vec<u8> {
    let layout = layout(random, false);
    render(random, made, &layout)
}

// ---------------------------------------------------------------------------------------------------------------------
// What names stand for

#[derive(Clone, Copy)]
enum Sort {
    /// A stored word of which nothing is known.
    Word,
    /// A stored word that keeps a loop or recursion bounded: it is read only.
    Control,
    /// The address of stored words, with the largest index.
    Vector(usize),
    /// The same of a string; its first word is read only.
    Text(usize),
    /// A manifest, with its value as a signed word.
    Number(i64),
    /// The entry of a function.
    Entry(usize),
    /// Nothing that an expression needs.
    Other,
}

struct Known {
    name: String,
    sort: Sort,
}

#[derive(Clone, Copy)]
enum Parameter {
    Word,
    /// What bounds a recursion; always first.
    Depth,
    Vector(usize),
    Text,
    /// Stored by the function before it is read, so that its argument may be missing; always last.
    Late,
}

struct Shape {
    name: String,
    parameters: Vec<Parameter>,
    gives_value: bool,
    /// About how many steps a call takes; none as long as the function is not made.
    cost: Option<usize>,
}

#[derive(Clone, Copy, Default)]
struct Around {
    routine: bool,
    valof: bool,
    in_loop: bool,
    in_switch: bool,
}

/// A function's cost, and all calls of it from one place, must stay below.
const MOST_COST: usize = 1500;
const MOST_TURNS: usize = 100;
const DEPTHS: usize = 4;

/// Binding levels, loosest first, as places in the operators' table; after them the operands.
const OPERATORS: [&[&str]; 6] =
    [&["|"], &["&"], &["<<", ">>"], &["=", "~=", "<", "<=", ">", ">="], &["+", "-"], &["*", "/", "REM"]];
const SHIFTS: usize = 2;
const RELATION: usize = 3;
const SUM: usize = 4;
const PRODUCT: usize = 5;

/// Labels of a SWITCHON and their values.
const LABELS: [(&str, i64); 8] =
    [("0", 0), ("1", 1), ("2", 2), ("3", 3), ("- 1", -1), ("'A'", 65), ("#100000", -32_768), ("32767", 32_767)];

struct Maker<'a> {
    random: &'a mut Random,
    tokens: Vec<Token>,
    /// Names in scope, innermost last, and where the innermost block begins.
    known: Vec<Known>,
    block: usize,
    shapes: Vec<Shape>,
    around: Around,
    names: usize,
    /// Turns of all the loops around, and the steps of the function so far.
    turns: usize,
    cost: usize,
    /// Undefined acts may be put in.
    wild: bool,
    reader: String,
    writer: String,
}

impl Maker<'_> {
    fn new(random: &mut Random) -> Maker<'_> {
        let wild = random.one_in(6);
        let (reader, writer) = random.pick(&[("RDCH", "WRCH"), ("RDCH", "WRCH"), ("IN", "OUT.1")]);
        Maker {
            random,
            tokens: Vec::new(),
            known: Vec::new(),
            block: 0,
            shapes: Vec::new(),
            around: Around::default(),
            names: 0,
            turns: 1,
            cost: 0,
            wild,
            reader: reader.to_string(),
            writer: writer.to_string(),
        }
    }

    fn add(&mut self, written: &str) {
        self.tokens.extend(tokens(written));
    }

    fn one_of(&mut self, choices: &[&str]) {
        let chosen = self.random.pick(choices);
        self.add(chosen);
    }

    // Names

    /// A name that is new in the innermost block, sometimes hiding one outside.
    fn new_name(&mut self) -> String {
        if self.block > 0 && self.random.one_in(8) {
            let outside = self.known[self.random.below(self.block)].name.clone();
            let needed = outside == self.reader || outside == self.writer;
            if !needed && self.known[self.block..].iter().all(|known| known.name != outside) {
                return outside;
            }
        }
        self.names += 1;
        let forms = ["A", "B.", "COUNT", "X.Y", "V1.", "REPEATS", "T."];
        format!("{}{}", self.random.pick(&forms), self.names)
    }

    fn know(&mut self, name: &str, sort: Sort) {
        self.known.push(Known { name: name.to_string(), sort });
    }

    /// A word is stored from now on.
    fn store(&mut self, name: &str) {
        if let Some(known) = self.known.iter_mut().rev().find(|known| known.name == name) {
            known.sort = Sort::Word;
        }
    }

    /// A name in scope and what is wanted of its sort, if there is one.
    fn find<T>(&mut self, wanted: impl Fn(Sort) -> Option<T>) -> Option<(String, T)> {
        let mut found = Vec::new();
        for (index, known) in self.known.iter().enumerate() {
            let hidden = self.known[index + 1..].iter().any(|later| later.name == known.name);
            if !hidden && wanted(known.sort).is_some() {
                found.push(index);
            }
        }
        if found.is_empty() {
            return None;
        }
        // Inner names more often than outer ones.
        let choice = self.random.below(found.len()).max(self.random.below(found.len()));
        let known = &self.known[found[choice]];
        wanted(known.sort).map(|part| (known.name.clone(), part))
    }

    fn a_word(&mut self) -> Option<String> {
        self.find(|sort| matches!(sort, Sort::Word).then_some(())).map(|(name, ())| name)
    }

    /// A manifest and its value, if there is one as wanted.
    fn a_manifest(&mut self, wanted: impl Fn(i64) -> bool) -> Option<(String, i64)> {
        self.find(|sort| match sort {
            Sort::Number(value) if wanted(value) => Some(value),
            _ => None,
        })
    }

    /// A part in a block of its own: its names are forgotten.
    fn scoped(&mut self, part: impl FnOnce(&mut Self)) {
        let (names, outside) = (self.known.len(), self.block);
        self.block = names;
        part(self);
        self.known.truncate(names);
        self.block = outside;
    }

    fn within(&mut self, around: Around, part: impl FnOnce(&mut Self)) {
        let outside = std::mem::replace(&mut self.around, around);
        part(self);
        self.around = outside;
    }

    // Outermost declarations

    fn program(mut self) -> Vec<Token> {
        let start = self.random.pick(&["START", "START", "MAIN.1"]);
        let mut functions = 1 + self.random.below(5);
        let in_globals = self.random.below(functions + 1);
        if self.random.one_in(2) {
            self.manifests();
        }
        self.globals(start, in_globals);
        if self.random.one_in(3) {
            self.manifests();
        }
        if self.random.one_in(3) {
            self.writes();
        }
        while functions > 0 {
            let many = (1 + self.random.below(3)).min(functions);
            functions -= many;
            self.group(many);
            if self.random.one_in(6) {
                self.manifests();
            }
        }
        self.start(start);
        if self.random.one_in(4) {
            self.group(1);
        }
        self.tokens
    }

    fn manifests(&mut self) {
        self.add("MANIFEST $(");
        for index in 0..1 + self.random.below(3) {
            if index > 0 {
                self.add(";");
            }
            let name = self.new_name();
            self.add(&name);
            self.add("=");
            let value = self.constant();
            self.know(&name, Sort::Number(value));
        }
        self.add("$)");
    }

    /// A constant's tokens, and its value as a signed word.
    fn constant(&mut self) -> i64 {
        let before = self.a_manifest(|_| true);
        let negated = self.random.one_in(4);
        if negated {
            self.add("-");
        }
        let value = match (before, self.random.below(8)) {
            (Some((name, value)), 0..=2) => {
                self.add(&name);
                value
            }
            (_, 3) => {
                self.add("TRUE");
                -1
            }
            (_, 4) => {
                self.add("FALSE");
                0
            }
            (_, 5) => {
                let word = self.random.word();
                self.add(&format!("#{word:o}"));
                i64::from(word as i16)
            }
            _ => {
                let most = self.random.pick(&[4, 10, 300, 32_768]);
                let value = self.random.below(most);
                self.add(&value.to_string());
                value as i64
            }
        };
        i64::from((if negated { -value } else { value }) as i16)
    }

    /// START, the two functions of the machine, some words and names for functions.
    fn globals(&mut self, start: &str, in_globals: usize) {
        let (reader, writer) = (self.reader.clone(), self.writer.clone());
        let first = self.random.pick(&[2, 20, 60, 390]);
        self.add(&format!("GLOBAL $( {start} : 1 ; {reader} : 13 ; {writer} : 14"));
        for (name, sort) in [(start, Sort::Other), (&reader, Sort::Other), (&writer, Sort::Other)] {
            self.know(name, sort);
        }
        let words = 1 + self.random.below(4);
        for index in 0..words + in_globals {
            let name = self.new_name();
            self.add(&format!("; {name} : {}", first + index));
            self.know(&name, if index < words { Sort::Word } else { Sort::Other });
            if index >= words {
                self.shapes.push(Shape { name, parameters: Vec::new(), gives_value: false, cost: None });
            }
        }
        self.add("$)");
    }

    /// A routine that writes a string.
    fn writes(&mut self) {
        let name = self.new_name();
        let writer = self.writer.clone();
        self.add(&format!(
            "LET {name} ( S ) BE FOR I = 1 TO S ! 0 >> 8 DO {writer} ( S ! ( I >> 1 ) >> 8 * ( 1 - ( I & 1 ) ) )"
        ));
        let parameters = vec![Parameter::Text];
        self.know(&name, Sort::Entry(self.shapes.len()));
        self.shapes.push(Shape { name, parameters, gives_value: false, cost: Some(200) });
    }

    // Functions

    /// Functions joined by AND. Their names are known in all of the group.
    fn group(&mut self, many: usize) {
        let planned: Vec<usize> = (0..many).map(|_| self.plan()).collect();
        let mut costs = Vec::new();
        for (place, &index) in planned.iter().enumerate() {
            self.add(if place == 0 { "LET" } else { "AND" });
            let partner = self.random.pick(&planned);
            costs.push(self.function(index, partner));
        }
        // Only now may they be called otherwise than by a bounded recursion.
        for (index, cost) in planned.into_iter().zip(costs) {
            self.shapes[index].cost = Some(cost);
        }
        if self.random.one_in(2) {
            self.add(";");
        }
    }

    /// The shape of a function to be made, perhaps one whose name is a global's.
    fn plan(&mut self) -> usize {
        let parameters = self.parameters();
        let gives_value = self.random.one_in(2);
        let awaited = self.shapes.iter().position(|shape| shape.cost.is_none() && !self.is_planned(shape));
        let awaited = awaited.filter(|_| self.random.one_in(2));
        let name = match awaited {
            Some(index) => self.shapes[index].name.clone(),
            None => self.new_name(),
        };
        let shape = Shape { name: name.clone(), parameters, gives_value, cost: None };
        let index = awaited.unwrap_or(self.shapes.len());
        if awaited.is_some() {
            self.shapes[index] = shape;
        } else {
            self.shapes.push(shape);
        }
        self.know(&name, Sort::Entry(index));
        index
    }

    /// Whether a function of this shape's name has been planned already.
    fn is_planned(&self, shape: &Shape) -> bool {
        self.known.iter().any(|known| matches!(known.sort, Sort::Entry(_)) && known.name == shape.name)
    }

    fn parameters(&mut self) -> Vec<Parameter> {
        let mut parameters = Vec::new();
        if self.random.one_in(2) {
            parameters.push(Parameter::Depth);
        }
        for _ in 0..self.random.below(4) {
            let most = self.random.below(4);
            parameters.push(match self.random.below(6) {
                0 | 1 => Parameter::Vector(most),
                2 => Parameter::Text,
                _ => Parameter::Word,
            });
        }
        if self.random.one_in(4) {
            parameters.push(Parameter::Late);
        }
        parameters
    }

    /// A function that may call its partner of the group once more; its cost.
    fn function(&mut self, index: usize, partner: usize) -> usize {
        let name = self.shapes[index].name.clone();
        let parameters = self.shapes[index].parameters.clone();
        let gives_value = self.shapes[index].gives_value;
        (self.turns, self.cost) = (1, 0);
        self.add(&name);
        self.scoped(|maker| {
            let [depth, late] = maker.named_parameters(&parameters);
            if !gives_value && late.is_none() && maker.random.one_in(8) {
                maker.add("=");
                return maker.no_value();
            }
            maker.add(if gives_value { "=" } else { "BE" });
            let around = Around { routine: !gives_value, ..Around::default() };
            maker.within(around, |maker| maker.body(gives_value, depth, late, partner));
        });
        let recursive = matches!(parameters.first(), Some(Parameter::Depth));
        self.cost.max(1) * if recursive { DEPTHS } else { 1 }
    }

    /// Names for a list of parameters; those of the depth and the late one, if there are such.
    fn named_parameters(&mut self, parameters: &[Parameter]) -> [Option<String>; 2] {
        let (mut depth, mut late) = (None, None);
        self.add("(");
        for (place, &parameter) in parameters.iter().enumerate() {
            if place > 0 {
                self.add(",");
            }
            let name = self.new_name();
            self.add(&name);
            let sort = match parameter {
                Parameter::Word => Sort::Word,
                Parameter::Depth => Sort::Control,
                Parameter::Vector(most) => Sort::Vector(most),
                Parameter::Text => Sort::Text(0),
                Parameter::Late => Sort::Other,
            };
            self.know(&name, sort);
            match parameter {
                Parameter::Depth => depth = Some(name),
                Parameter::Late => late = Some(name),
                _ => {}
            }
        }
        self.add(")");
        [depth, late]
    }

    /// An expression that may have no value and hands that on.
    fn no_value(&mut self) {
        let around = Around { valof: true, ..Around::default() };
        self.within(around, |maker| {
            if maker.random.one_in(2) {
                maker.add("VALOF");
                if maker.random.one_in(2) {
                    return maker.block(2);
                }
                maker.add("RESULTIS");
            }
            if !maker.call(false, 0) {
                maker.add("( VALOF $( $) )");
            }
        });
    }

    fn body(&mut self, gives_value: bool, depth: Option<String>, late: Option<String>, partner: usize) {
        if gives_value && depth.is_none() && late.is_none() && self.random.one_in(3) {
            return self.expression(3);
        }
        if gives_value {
            self.add("VALOF");
            self.around.valof = true;
        }
        self.add("$(");
        self.scoped(|maker| {
            if let Some(late) = late {
                maker.add(&format!("{late} :="));
                maker.expression(2);
                maker.add(";");
                maker.store(&late);
            }
            match depth {
                Some(depth) if maker.is_recursive(partner) => maker.recursion(&depth, partner),
                _ => maker.commands(3),
            }
            if gives_value {
                maker.add("; RESULTIS");
                maker.expression(2);
            }
        });
        self.add("$)");
    }

    /// Whether a function has a depth that bounds its recursion, and no parameter hides its name.
    fn is_recursive(&self, index: usize) -> bool {
        let Shape { name, parameters, .. } = &self.shapes[index];
        let known = self.known.iter().rev().find(|known| known.name == *name);
        let named = known.is_some_and(|known| matches!(known.sort, Sort::Entry(found) if found == index));
        named && matches!(parameters.first(), Some(Parameter::Depth))
    }

    /// One more call, unless the depth is used up.
    fn recursion(&mut self, depth: &str, partner: usize) {
        if self.random.one_in(2) {
            self.commands(1);
            self.add(";");
        }
        self.add(&format!("IF {depth} > 0 DO $("));
        let name = self.shapes[partner].name.clone();
        let word = self.a_word();
        if let (Some(word), true) = (word, self.shapes[partner].gives_value) {
            self.add(&format!("{word} :="));
        }
        self.add(&name);
        self.add("(");
        self.arguments(partner, Some(depth));
        self.add(")");
        if self.random.one_in(2) {
            self.add(";");
            self.commands(1);
        }
        self.add("$)");
    }

    /// START's parameter, if it has one, is stored before it is read.
    fn start(&mut self, name: &str) {
        (self.turns, self.cost) = (1, 0);
        self.add(&format!("LET {name} ("));
        self.scoped(|maker| {
            let parameter = maker.random.one_in(5).then(|| maker.new_name());
            if let Some(name) = &parameter {
                maker.add(name);
                maker.know(name, Sort::Other);
            }
            maker.add(")");
            let gives_value = maker.random.one_in(6);
            maker.within(Around { routine: !gives_value, ..Around::default() }, |maker| {
                if gives_value {
                    maker.add("=");
                    return maker.body(true, None, parameter, 0);
                }
                maker.add("BE $(");
                if let Some(name) = &parameter {
                    maker.add(&format!("{name} := 1 ;"));
                    maker.store(name);
                }
                maker.block(4);
                maker.add(";");
                maker.commands(4);
                maker.add("$)");
            });
        });
    }

    // Calls

    /// A function that may be called here, by a name that holds its entry.
    fn callee(&mut self, gives_value: bool) -> Option<(String, usize)> {
        let room = MOST_COST.saturating_sub(self.cost) / self.turns;
        let (name, index) = self.find(|sort| match sort {
            Sort::Entry(index) => Some(index),
            _ => None,
        })?;
        let shape = &self.shapes[index];
        let fits = shape.cost.is_some_and(|cost| cost <= room) && shape.gives_value >= gives_value;
        fits.then_some((name, index))
    }

    fn call(&mut self, gives_value: bool, depth: usize) -> bool {
        let Some((name, index)) = self.callee(gives_value) else { return false };
        self.cost += self.turns * self.shapes[index].cost.unwrap_or(0);
        let form = self.random.below(if gives_value && depth > 0 { 12 } else { 1 });
        self.function_name(&name, form, depth);
        self.add("(");
        self.arguments(index, None);
        self.add(")");
        true
    }

    /// The function of a call: its name, or an expression of the same value.
    fn function_name(&mut self, name: &str, form: usize, depth: usize) {
        match form {
            1 => self.add(&format!("( {name} )")),
            2 => self.add(&format!("( VALOF RESULTIS {name} )")),
            3 => {
                self.add(&format!("( {name} + 0 * ("));
                self.expression(depth - 1);
                self.add(") )");
            }
            _ => self.add(name),
        }
    }

    /// Arguments as a shape wants them, at times more of them; `depth` is the name whose value bounds the recursion.
    fn arguments(&mut self, index: usize, depth: Option<&str>) {
        let mut parameters = self.shapes[index].parameters.clone();
        if matches!(parameters.last(), Some(Parameter::Late)) && self.random.one_in(2) {
            parameters.pop();
        }
        if self.wild && self.random.one_in(20) {
            parameters.pop();
        }
        if self.random.one_in(8) {
            parameters.resize(self.shapes[index].parameters.len() + 1 + self.random.below(2), Parameter::Word);
        }
        for (place, parameter) in parameters.into_iter().enumerate() {
            if place > 0 {
                self.add(",");
            }
            match parameter {
                Parameter::Word | Parameter::Late => self.expression(1),
                Parameter::Depth => match depth {
                    Some(name) => self.add(&format!("{name} - 1")),
                    None => {
                        let depths = self.random.below(DEPTHS);
                        self.add(&depths.to_string());
                    }
                },
                Parameter::Vector(most) => self.vector(most),
                Parameter::Text => self.text(),
            }
        }
    }

    /// The address of so many stored words at least; the globals and the program's own words are always there.
    fn vector(&mut self, most: usize) {
        let known = self.find(|sort| match sort {
            Sort::Vector(here) if here >= most => Some(here),
            _ => None,
        });
        match known {
            Some((name, here)) => {
                let from = self.random.below(here - most + 1);
                match self.random.below(3) {
                    0 if from == 0 => self.add(&name),
                    1 => self.add(&format!("{name} + {from}")),
                    _ => self.add(&format!("@ {name} ! {from}")),
                }
            }
            // Globals that no function stands in.
            None if most > 0 => self.add("250"),
            None => match self.a_word() {
                Some(name) => self.one_of(&[&format!("@ {name}"), &format!("( @ {name} )")]),
                None => self.add("300"),
            },
        }
    }

    fn text(&mut self) {
        let known = self.find(|sort| matches!(sort, Sort::Text(_)).then_some(()));
        match known {
            Some((name, ())) if self.random.one_in(2) => self.add(&name),
            _ => {
                self.string();
            }
        }
    }

    /// A string, and the largest index of its words.
    fn string(&mut self) -> usize {
        let most = self.random.pick(&[1, 4, 4, 12, 60]);
        let length = self.random.below(most);
        let string = quoted(self.random, b'"', length);
        self.tokens.push(token(&string));
        length / 2
    }

    // Expressions: each gives a value

    fn expression(&mut self, depth: usize) {
        let loosest = self.random.below(OPERATORS.len() + 1);
        self.at_level(loosest, depth);
    }

    fn at_level(&mut self, level: usize, depth: usize) {
        if level == OPERATORS.len() {
            return self.operand(depth);
        }
        // Here nothing but & and | follows, as nothing else can.
        if level == SHIFTS && depth > 0 && self.random.one_in(12) {
            self.add("NOT");
            return self.at_level(SHIFTS, depth - 1);
        }
        let more = match self.random.below(12) {
            _ if depth == 0 => 0,
            0 if level != RELATION => 2,
            0..=3 => 1,
            _ => 0,
        };
        self.at_level(level + 1, depth);
        for _ in 0..more {
            let operator = self.random.pick(OPERATORS[level]);
            self.add(operator);
            let divides = matches!(operator, "/" | "REM");
            if divides && !(self.wild && self.random.one_in(3)) {
                self.nonzero(depth - 1);
            } else {
                // The right operand of a shift is a sum.
                self.at_level(if level == SHIFTS { SUM } else { level + 1 }, depth - 1);
            }
        }
    }

    fn nonzero(&mut self, depth: usize) {
        match self.random.below(3) {
            0 => self.one_of(&["7", "( - 2 )", "TRUE", "#100000", "( - 1 )"]),
            _ => {
                self.add("( (");
                self.expression(depth);
                self.add(") | 1 )");
            }
        }
    }

    fn operand(&mut self, depth: usize) {
        self.cost += self.turns;
        if self.wild && self.random.one_in(60) {
            return self.undefined_value();
        }
        if depth == 0 {
            return self.plain();
        }
        match self.random.below(16) {
            0 | 1 => {
                self.add("(");
                self.expression(depth - 1);
                self.add(")");
            }
            2 => {
                self.one_of(&["-", "+"]);
                self.at_level(PRODUCT, depth - 1);
            }
            3 => {
                self.add("( NOT");
                self.at_level(SHIFTS, depth - 1);
                self.add(")");
            }
            4 => self.valof(depth - 1),
            5..=7 => {
                if !self.call(true, depth) {
                    self.plain();
                }
            }
            8..=10 => self.fetch(depth - 1),
            11 => {
                let reader = self.reader.clone();
                self.add(&format!("{reader} ( )"));
            }
            12 => {
                let most = self.string();
                let index = self.random.below(most + 1);
                self.add(&format!("! {index}"));
            }
            _ => self.plain(),
        }
    }

    fn plain(&mut self) {
        let name = self.find(|sort| (!matches!(sort, Sort::Other)).then_some(()));
        match (name, self.random.below(8)) {
            (Some((name, ())), 0..=4) => self.add(&name),
            (_, 5) => self.one_of(&["TRUE", "FALSE", "0", "1", "32767", "#100000", "#177777"]),
            (_, 6) => {
                let character = quoted(self.random, b'\'', 1);
                self.tokens.push(token(&character));
            }
            _ => {
                let most = self.random.pick(&[10, 10, 300, 32_768]);
                let number = self.random.below(most);
                self.add(&number.to_string());
            }
        }
    }

    /// The command of a VALOF is a block, so that nothing after it is taken into it.
    fn valof(&mut self, depth: usize) {
        let around = Around { valof: true, in_loop: false, in_switch: false, ..self.around };
        self.within(around, |maker| {
            if maker.random.one_in(4) {
                maker.add("( VALOF RESULTIS");
                maker.expression(depth);
                return maker.add(")");
            }
            maker.add("VALOF $(");
            maker.scoped(|maker| {
                maker.locals(1);
                if maker.random.one_in(2) {
                    maker.commands(depth.min(2));
                    maker.add(";");
                }
                maker.add("RESULTIS");
                maker.expression(depth);
            });
            maker.add("$)");
        });
    }

    /// The place of a stored word: `writing` leaves out what must keep its value.
    fn indexed(&mut self, depth: usize, writing: bool) {
        let known = self.find(|sort| match sort {
            Sort::Vector(most) => Some((0, most)),
            Sort::Text(most) if !writing => Some((0, most)),
            Sort::Text(most) if most > 0 => Some((1, most)),
            _ => None,
        });
        let Some((name, (least, most))) = known else {
            return match self.a_word() {
                Some(name) => self.one_of(&[&format!("! @ {name}"), &format!("( @ {name} ) ! 0")]),
                // A global that no function stands in.
                None => self.add("! 300"),
            };
        };
        let index = least + self.random.below(most - least + 1);
        match self.random.below(6) {
            0 if index == 0 => self.add(&format!("! {name}")),
            1 => self.add(&format!("! ( {name} + {index} )")),
            2 => self.add(&format!("{index} ! {name}")),
            3 => self.add(&format!("( @ {name} ! {index} ) ! 0")),
            4 if least == 0 && most > 0 => {
                // The largest mask below the number of words.
                let mask = (most + 1).next_power_of_two() / if (most + 1).is_power_of_two() { 1 } else { 2 } - 1;
                self.add(&format!("{name} ! ( ("));
                self.expression(depth);
                self.add(&format!(") & {mask} )"));
            }
            _ => self.add(&format!("{name} ! {index}")),
        }
    }

    fn fetch(&mut self, depth: usize) {
        self.indexed(depth, false);
    }

    /// Something without a value, or that may not be read, called or divided by.
    fn undefined_value(&mut self) {
        let writer = self.writer.clone();
        match self.random.below(10) {
            0 => self.add("( 1 / 0 )"),
            1 => self.add("( ! 5 )"),
            2 => self.add("( 4000 ( 1 ) )"),
            3 => self.add(&format!("{writer} ( 66 )")),
            4 => self.add("VALOF $( $)"),
            5 => self.add("VALOF $( LET V = VEC 3 ; RESULTIS V ! 1 $)"),
            6 => self.add("( ! VALOF $( LET A = 1 ; RESULTIS @ A $) )"),
            7 => self.add("VALOF $( LET V = VEC 2 ; V ! 3 := 1 ; RESULTIS 1 $)"),
            8 => self.add(&format!("VALOF $( {writer} ( ) ; RESULTIS 1 $)")),
            // Frames without end.
            _ => {
                let start = self.known.iter().find(|known| matches!(known.sort, Sort::Other));
                let start = start.map_or(writer, |start| start.name.clone());
                self.add(&format!("VALOF $( {start} ( ) ; RESULTIS 1 $)"));
            }
        }
    }

    // Commands

    fn commands(&mut self, depth: usize) {
        for index in 0..1 + self.random.below(3) {
            if index > 0 {
                self.add(";");
            }
            self.command(depth);
        }
    }

    fn command(&mut self, depth: usize) {
        self.cost += self.turns;
        let writer = self.writer.clone();
        match self.random.below(if depth == 0 { 10 } else { 24 }) {
            0..=2 => {
                self.add(&format!("{writer} ("));
                self.expression(depth);
                self.add(")");
            }
            3..=5 => self.assignment(depth),
            6..=8 => {
                if !self.call(false, depth) {
                    self.assignment(depth);
                }
            }
            9 => self.leave_perhaps(),
            10..=12 => {
                self.one_of(&["IF", "UNLESS"]);
                self.expression(depth - 1);
                self.one_of(&["DO", "THEN"]);
                self.command(depth - 1);
            }
            13 | 14 => {
                self.add("TEST");
                self.expression(depth - 1);
                self.one_of(&["DO", "THEN"]);
                self.command(depth - 1);
                self.add("OR");
                self.command(depth - 1);
            }
            15 | 16 => self.for_loop(depth - 1),
            17 | 18 => self.counted_loop(depth - 1),
            19 | 20 => self.switch(depth - 1),
            21 => self.table_of_functions(),
            22 | 23 if self.around.in_loop || self.around.in_switch => self.leave_perhaps(),
            _ => self.block(depth - 1),
        }
    }

    fn block(&mut self, depth: usize) {
        self.add("$(");
        self.scoped(|maker| {
            maker.locals(2);
            maker.commands(depth);
        });
        self.add("$)");
    }

    fn assignment(&mut self, depth: usize) {
        let many = self.random.pick(&[1, 1, 1, 2, 3]);
        for index in 0..many {
            if index > 0 {
                self.add(",");
            }
            match self.a_word() {
                Some(name) if !self.random.one_in(4) => {
                    self.one_of(&[&name, &name, &name, &format!("( {name} )"), &format!("! @ {name}")])
                }
                _ => self.indexed(depth.min(1), true),
            }
        }
        self.add(":=");
        for index in 0..many {
            if index > 0 {
                self.add(",");
            }
            self.expression(depth);
        }
    }

    /// A condition, in a loop mostly one that comes to hold.
    fn condition(&mut self) {
        self.one_of(&["IF", "IF", "UNLESS"]);
        let control = self.find(|sort| matches!(sort, Sort::Control).then_some(()));
        match control {
            Some((name, ())) if !self.random.one_in(4) => {
                self.add(&name);
                self.one_of(&["=", "~=", "<", ">"]);
                let number = self.random.between(-3, 4);
                self.number(number);
            }
            _ => self.expression(1),
        }
        self.one_of(&["DO", "THEN"]);
    }

    /// One of the ways out of what stands around, if a condition holds.
    fn leave_perhaps(&mut self) {
        self.condition();
        let Around { routine, valof, in_loop, in_switch } = self.around;
        let mut ways = Vec::new();
        if in_loop {
            ways.extend(["BREAK", "LOOP", "LOOP"]);
        }
        if in_switch {
            ways.extend(["ENDCASE"; 2]);
        }
        if routine {
            ways.push("RETURN");
        }
        if valof {
            ways.extend(["RESULTIS"; 2]);
        }
        if self.random.one_in(6) || ways.is_empty() {
            ways = vec!["FINISH"];
        }
        let way = self.random.pick(&ways);
        self.add(way);
        if way == "RESULTIS" {
            self.expression(1);
        }
    }

    /// A loop's body, begun about so many times.
    fn looped(&mut self, turns: usize, part: impl FnOnce(&mut Self)) {
        let outside = self.turns;
        self.turns *= turns.max(1);
        self.within(Around { in_loop: true, ..self.around }, part);
        self.turns = outside;
    }

    fn may_loop(&self, turns: usize) -> bool {
        self.turns * turns <= MOST_TURNS && self.cost < MOST_COST
    }

    fn for_loop(&mut self, depth: usize) {
        let turns = self.random.below(6);
        if !self.may_loop(turns) {
            return self.assignment(depth);
        }
        let (written, step) = self.random.pick(&[
            ("", 1),
            ("", 1),
            ("BY 2", 2),
            ("BY - 1", -1),
            ("BY TRUE", -1),
            ("BY - 3", -3),
            ("BY 7", 7),
        ]);
        let first = self.random.between(-9, 9);
        let limit = first + step * (turns as i64 - 1);
        let name = self.new_name();
        self.add(&format!("FOR {name} ="));
        self.number(first);
        self.add("TO");
        match self.random.below(4) {
            // So few more turns as the mask lets be.
            0 if step > 0 => {
                self.number(limit);
                self.add("+ ( (");
                self.expression(depth.min(1));
                self.add(") & 1 )");
            }
            _ => self.number(limit),
        }
        self.add(written);
        self.one_of(&["DO", "THEN"]);
        self.scoped(|maker| {
            maker.know(&name, Sort::Control);
            maker.looped(turns, |maker| if maker.random.one_in(3) { maker.command(depth) } else { maker.block(depth) });
        });
    }

    fn number(&mut self, number: i64) {
        if number < 0 {
            self.add("-");
        }
        self.add(&number.abs().to_string());
    }

    /// A loop of any other form, with a counter of its own that falls first of all in each turn.
    fn counted_loop(&mut self, depth: usize) {
        let turns = 1 + self.random.below(5);
        if !self.may_loop(turns) {
            return self.assignment(depth);
        }
        let (before, in_body, after) = self.random.pick(&[
            ("WHILE % > 0 DO", "", ""),
            ("UNTIL % <= 0 DO", "", ""),
            ("", "", "REPEATWHILE % > 0"),
            ("", "", "REPEATUNTIL % <= 0"),
            ("", "IF % < 0 DO BREAK ;", "REPEAT"),
            ("", "UNLESS % DO BREAK ;", "REPEAT REPEATWHILE % > 0"),
        ]);
        self.add("$(");
        self.scoped(|maker| {
            let name = maker.new_name();
            let named = |part: &str| part.replace('%', &name);
            maker.add(&format!("LET {name} = {turns} ;"));
            maker.know(&name, Sort::Control);
            maker.add(&named(before));
            maker.add(&named(&format!("$( % := % - 1 ; {in_body}")));
            maker.looped(turns, |maker| maker.commands(depth));
            maker.add("$)");
            maker.add(&named(after));
        });
        self.add("$)");
    }

    fn switch(&mut self, depth: usize) {
        self.add("SWITCHON");
        if self.random.one_in(3) {
            self.expression(depth.min(1));
        } else {
            self.add("(");
            self.expression(depth.min(1));
            self.add(") & 3");
        }
        self.add("INTO $(");
        let mut labels: Vec<String> = LABELS.iter().map(|(label, _)| format!("CASE {label} :")).collect();
        labels.push("DEFAULT :".to_string());
        let other = |value| LABELS.iter().all(|&(_, taken)| taken != value);
        labels.extend(self.a_manifest(other).map(|(name, _)| format!("CASE {name} :")));
        let around = Around { in_switch: true, ..self.around };
        for index in 0..1 + self.random.below(4) {
            if index > 0 {
                self.add(";");
            }
            let many = self.random.pick(&[0, 1, 1, 1, 2, 3]).min(labels.len());
            for _ in 0..many {
                let label = labels.swap_remove(self.random.below(labels.len()));
                self.add(&label);
            }
            if many > 0 && self.random.one_in(8) {
                continue;
            }
            self.within(around, |maker| maker.commands(depth.min(2)));
            if self.random.one_in(2) {
                self.add("; ENDCASE");
            }
        }
        self.add("$)");
    }

    /// A function called out of a vector, whose index and call need no brackets.
    fn table_of_functions(&mut self) {
        let Some((name, index)) = self.callee(false) else { return self.leave_perhaps() };
        self.cost += self.turns * self.shapes[index].cost.unwrap_or(0);
        let place = self.random.below(3);
        self.add("$(");
        self.scoped(|maker| {
            maker.names += 1;
            let table = format!("TABLE{}", maker.names);
            maker.add(&format!("LET {table} = VEC 2 ; {table} ! {place} := {name} ; {table} ! {place} ("));
            maker.arguments(index, None);
            maker.add(")");
        });
        self.add("$)");
    }

    /// Some declarations; a vector's first words are stored at once, in a loop of its own.
    fn locals(&mut self, most: usize) {
        let mut vectors = Vec::new();
        for _ in 0..self.random.below(most + 1) {
            self.add("LET");
            match self.random.below(5) {
                0 => {
                    let name = self.new_name();
                    let (written, words) = self.vector_size();
                    self.add(&format!("{name} = VEC {written}"));
                    self.know(&name, Sort::Other);
                    vectors.push((self.known.len() - 1, words.min(20)));
                }
                1 => {
                    let name = self.new_name();
                    self.add(&format!("{name} ="));
                    let most = self.string();
                    self.know(&name, Sort::Text(most));
                }
                2 => self.entry(),
                _ => self.values(),
            }
            self.add(";");
        }
        for (place, words) in vectors {
            let name = self.known[place].name.clone();
            // An inner name may have hidden it since; the loop's name hides nothing.
            self.names += 1;
            let index = format!("I{}", self.names);
            self.add(&format!("FOR {index} = 0 TO {words} DO {name} ! {index} := {index} * {words} ;"));
            self.cost += 8 * self.turns * words;
            self.known[place].sort = Sort::Vector(words);
        }
    }

    /// A vector's largest index, written and by its value.
    fn vector_size(&mut self) -> (String, usize) {
        match self.a_manifest(|value| (0..=600).contains(&value)) {
            Some((name, value)) => (name, value as usize),
            None => {
                let words = self.random.pick(&[0, 1, 3, 4, 7, 20, 20, 600]);
                (words.to_string(), words)
            }
        }
    }

    /// A word that holds a function's entry.
    fn entry(&mut self) {
        let name = self.new_name();
        match self.callee(false) {
            Some((function, index)) => {
                self.add(&format!("{name} = {function}"));
                self.know(&name, Sort::Entry(index));
            }
            None => {
                self.add(&format!("{name} ="));
                self.expression(1);
                self.know(&name, Sort::Word);
            }
        }
    }

    fn values(&mut self) {
        let many = self.random.pick(&[1, 1, 2, 3]);
        let mut names: Vec<String> = Vec::new();
        while names.len() < many {
            let name = self.new_name();
            if !names.contains(&name) {
                names.push(name);
            }
        }
        self.add(&names.join(" , "));
        self.add("=");
        for index in 0..many {
            if index > 0 {
                self.add(",");
            }
            self.expression(2);
        }
        for name in names {
            self.know(&name, Sort::Word);
        }
    }
}

// ---------------------------------------------------------------------------------------------------------------------
// Damage

/// Commands that may be wrong where they stand.
const DOUBTFUL_COMMANDS: [&str; 16] = [
    "BREAK",
    "LOOP",
    "ENDCASE",
    "RETURN",
    "RESULTIS 1",
    "CASE 1 : FINISH",
    "DEFAULT :",
    "CASE UNKNOWN :",
    "1 := 2",
    "( UNKNOWN ) := 2",
    "UNKNOWN := 2",
    "UNKNOWN ( 1 )",
    "FOR I = 1 TO 2 BY 0 DO FINISH",
    "$( LET V = VEC 4096 $)",
    "$( LET V = VEC 4095 ; LET W = VEC 4095 ; LET X = 1 $)",
    "SWITCHON 1 INTO $( CASE 1 : CASE TRUE : CASE -1 : DEFAULT : DEFAULT : $)",
];
const DOUBTFUL_NUMBERS: [&str; 12] =
    ["0", "1", "2", "399", "400", "4095", "4096", "8000", "32767", "#177777", "TRUE", "- 1"];

fn damage(random: &mut Random, made: &mut Vec<Token>) {
    match random.below(17) {
        0..=2 => change_name(random, made),
        3 | 4 => change(random, made, |token| token.kind == NUMBER, &DOUBTFUL_NUMBERS),
        5 => double_label(random, made),
        6 => drop_declaration(random, made),
        7 | 16 => double_declaration(random, made),
        8 => {
            made.remove(random.below(made.len()));
        }
        9 => insert_after(random, made, |token| matches!(token.kind, OPEN | COMMA | ASSIGN), &["@", "-", "NOT"]),
        10 => change(random, made, |token| matches!(token.kind, BREAK | LOOP | ENDCASE | RETURN), &LEAVES),
        11 => change(random, made, |token| token.kind == BE || token.kind == EQUAL, &["=", "BE"]),
        _ => {
            let commands = DOUBTFUL_COMMANDS.map(|command| format!("{command} ;"));
            let commands: Vec<&str> = commands.iter().map(String::as_str).collect();
            insert_after(random, made, |token| matches!(token.kind, SEMICOLON | BEGIN), &commands);
        }
    }
}

const LEAVES: [&str; 5] = ["BREAK", "LOOP", "ENDCASE", "RETURN", "FINISH"];

/// A place whose token is as wanted.
fn place(random: &mut Random, made: &[Token], wanted: impl Fn(&Token) -> bool) -> Option<usize> {
    let places: Vec<usize> = (0..made.len()).filter(|&place| wanted(&made[place])).collect();
    if places.is_empty() {
        None
    } else {
        Some(random.pick(&places))
    }
}

fn change(random: &mut Random, made: &mut Vec<Token>, wanted: impl Fn(&Token) -> bool, others: &[&str]) {
    if let Some(place) = place(random, made, wanted) {
        made.splice(place..=place, tokens(random.pick(others)));
    }
}

fn insert_after(random: &mut Random, made: &mut Vec<Token>, wanted: impl Fn(&Token) -> bool, pieces: &[&str]) {
    if let Some(place) = place(random, made, wanted) {
        made.splice(place + 1..place + 1, tokens(random.pick(pieces)));
    }
}

/// A name becomes another of the program, or one that is nowhere declared.
fn change_name(random: &mut Random, made: &mut Vec<Token>) {
    let is_name = |token: &Token| token.kind == NAME;
    let (Some(from), Some(to)) = (place(random, made, is_name), place(random, made, is_name)) else { return };
    made[from] = if random.one_in(4) { token(b"UNKNOWN") } else { made[to].clone() };
}

/// A label is written again before some other command.
fn double_label(random: &mut Random, made: &mut Vec<Token>) {
    let Some(label) = place(random, made, |token| matches!(token.kind, CASE | DEFAULT)) else { return };
    let Some(length) = made[label..].iter().position(|token| token.kind == COLON) else { return };
    let copy = made[label..=label + length].to_vec();
    if let Some(place) = place(random, made, |token| matches!(token.kind, COLON | SEMICOLON)) {
        made.splice(place + 1..place + 1, copy);
    }
}

/// A LET, or an item of GLOBAL or MANIFEST, is taken out up to its semicolon.
fn drop_declaration(random: &mut Random, made: &mut Vec<Token>) {
    let begins = |token: &Token| matches!(token.kind, LET | GLOBAL | MANIFEST);
    let Some(mut first) = place(random, made, begins) else { return };
    if made[first].kind != LET {
        first += 2;
    }
    let Some(length) = made[first..].iter().position(|token| token.kind == SEMICOLON) else { return };
    made.drain(first..=first + length);
}

/// A name is declared at the beginning of a block, in a list of parameters or after another name.
fn double_declaration(random: &mut Random, made: &mut Vec<Token>) {
    let Some(name) = place(random, made, |token| token.kind == NAME) else { return };
    let name = String::from_utf8_lossy(&made[name].text).into_owned();
    let (wanted, piece) = match random.below(4) {
        0 => (OPEN, format!("{name} ,")),
        1 => (BEGIN, format!("{name} : 5 ;")),
        _ => (BEGIN, format!("LET {name} = 1 ;")),
    };
    insert_after(random, made, |token| token.kind == wanted, &[&piece]);
}

// ---------------------------------------------------------------------------------------------------------------------
// One program damaged everywhere

/// Every declaration, every way out and every left side, with names that may be mistaken for each other.
const WHOLE: &str = "
    MANIFEST $( M = 3 ; N = - 1 $)
    GLOBAL $( START : 1 ; WRCH : 14 ; G : 100 ; H : 101 ; K : M $)
    LET F ( A , B ) = VALOF $(
        LET C , D = A , B ; LET V = VEC M ; V ! 0 := C ;
        SWITCHON D INTO $(
            CASE 1 : CASE M : C := D ; ENDCASE ;
            CASE N : DEFAULT : WHILE C DO $( C := C - 1 ; IF C = D DO BREAK ; LOOP $) $) ;
        RESULTIS @ C $)
    AND H ( A ) BE $( FOR I = M TO 1 BY N DO G := @ I ; RETURN $)
    AND E ( ) = F
    LET START ( ) BE $(
        LET A = F ( 1 , 2 ) ; H ( A ) ;
        $( LET A , B = @ G , \"S\" ; ! A , ( A ! 1 ) := B , E ( ) ; K := VALOF RETURN $) ;
        WRCH ( VALOF $( LET A = M ; RESULTIS A $) ) REPEATUNTIL A ; FINISH $)";

/// Every name for every other, every number and way out for every doubtful one, every symbol left out or doubled, and
/// every doubtful piece wherever a command or declaration may begin.
pub fn sweep(each: &mut dyn FnMut(&[u8]) -> Result<(), String>) -> Result<(), String> {
    let whole = tokens(WHOLE);
    let mut names: Vec<String> = vec!["UNKNOWN".to_string()];
    names.extend(whole.iter().filter(|token| token.kind == NAME).map(spelled));
    names.sort_unstable();
    names.dedup();
    let commands = DOUBTFUL_COMMANDS.map(|command| format!("{command} ;"));
    let declarations: Vec<String> = names.iter().map(|name| format!("LET {name} = 1 ;")).collect();
    let lists: Vec<String> = names.iter().map(|name| format!("{name} ,")).collect();
    for (place, token) in whole.iter().enumerate() {
        let mut changed = |pieces: &[String]| change_each(&whole, place, pieces, each);
        let own = spelled(token);
        changed(&[String::new(), format!("{own} {own}"), format!("@ {own}"), format!("( {own} )")])?;
        let after = |pieces: &[String]| pieces.iter().map(|piece| format!("{own} {piece}")).collect::<Vec<String>>();
        match token.kind {
            NAME => changed(&names)?,
            NUMBER => changed(&DOUBTFUL_NUMBERS.map(String::from))?,
            BREAK | LOOP | ENDCASE | RETURN | FINISH => changed(&LEAVES.map(String::from))?,
            SEMICOLON => changed(&after(&commands))?,
            BEGIN => {
                changed(&after(&commands))?;
                changed(&after(&declarations))?;
            }
            OPEN => changed(&after(&lists))?,
            _ => {}
        }
    }
    Ok(())
}

fn spelled(token: &Token) -> String {
    String::from_utf8_lossy(&token.text).into_owned()
}

/// The tokens as a text, with each of the pieces in the place of one of them. A line ends after every semicolon.
fn change_each(
    whole: &[Token],
    place: usize,
    pieces: &[String],
    each: &mut dyn FnMut(&[u8]) -> Result<(), String>,
) -> Result<(), String> {
    for piece in pieces {
        let mut made = whole.to_vec();
        made.splice(place..=place, tokens(piece));
        let mut text = Vec::new();
        for token in made {
            text.extend_from_slice(&token.text);
            text.push(if token.kind == SEMICOLON { b'\n' } else { b' ' });
        }
        each(&text)?;
    }
    Ok(())
}

// ---------------------------------------------------------------------------------------------------------------------
// One form over and over

/// Commands that may follow each other as often as one likes.
const COMMANDS: [&str; 34] = [
    "A:=B",
    "A:=G",
    "A,B:=B,A",
    "A:=A+1",
    "A:=32767",
    "A:=\"\"",
    "A:=\"AB\"",
    "A:=-A",
    "A:=NOT A",
    "A:=@A",
    "A:=V!1",
    "A:=!V",
    "!V:=A",
    "V!1:=A",
    "V!(B-B):=A",
    "A:=@V!1",
    "A:=B+(A-(B+A))",
    "F(A)",
    "A:=F(A,B)",
    "$($)",
    "$(LET C=A$)",
    "$(LET W=VEC 9$)",
    "IF A DO B:=1",
    "IF A=0 DO RETURN",
    "UNLESS A DO B:=1",
    "TEST A DO B:=1 OR B:=2",
    "WHILE A DO A:=0",
    "UNTIL A DO A:=1",
    "A:=1 REPEATUNTIL A",
    "FOR I=1 TO 2 DO B:=I",
    "FOR I=2 TO 1 BY -1 DO LOOP",
    "A:=VALOF RESULTIS B",
    "SWITCHON A INTO $(CASE 1:CASE 2:DEFAULT:$)",
    "SWITCHON A INTO $(CASE 1:A:=2;ENDCASE;DEFAULT:A:=1$)",
];

/// A command's beginning, its links, where `%` is a link's number, and its end.
const CHAINS: [[&str; 3]; 17] = [
    ["A:=A", "+1", ""],
    ["A:=A", "+B", ""],
    ["A:=A", "-(B)", ""],
    ["A:=A", "*(-B)", ""],
    ["A:=A", "&NOT B", ""],
    ["A:=A", "+\"\"", ""],
    ["A:=A", "+V!1", ""],
    ["A:=A", "+F(B)", ""],
    ["A:=A", "+(VALOF RESULTIS 1)", ""],
    ["A:=A", "!0", ""],
    ["A:=F", "()", ""],
    ["F(A", ",A", ")"],
    ["$( IF A DO RETURN $)", " REPEAT", ""],
    ["A:=1", " REPEATUNTIL A", ""],
    ["SWITCHON A INTO $(", "CASE %:", "A:=1 $)"],
    ["SWITCHON A INTO $(", "CASE %:A:=B;", "DEFAULT:$)"],
    ["$(", "LET X%=A;", "$)"],
];

/// A command's beginning, what is opened again and again, the innermost part, and what closes.
const NESTS: [[&str; 4]; 15] = [
    ["", "IF A DO ", "A:=1", ""],
    ["", "UNLESS A DO ", "A:=1", ""],
    ["", "WHILE A DO ", "A:=0", ""],
    ["", "TEST A THEN A:=1 OR ", "A:=1", ""],
    ["", "FOR I=1 TO 1 DO ", "A:=1", ""],
    ["", "$(", "A:=1", "$)"],
    ["", "$(LET C=A;", "A:=1", "$)"],
    ["", "$(", "A:=1", "$)REPEATUNTIL A"],
    ["", "SWITCHON A INTO $(DEFAULT:", "A:=1", "$)"],
    ["", "SWITCHON A INTO $(CASE 1:CASE 2:", "A:=1", "$)"],
    ["A:=", "VALOF RESULTIS ", "1", ""],
    ["A:=", "(1+", "1", ")"],
    ["A:=", "F(", "1", ")"],
    ["A:=", "V!(", "1", ")"],
    ["A:=", "-", "1", ""],
];

/// Sources of one form, as often as it goes into so many bytes, in a small frame and in one whose words are far.
pub fn steepest(bytes: usize, each: &mut dyn FnMut(&[u8]) -> Result<(), String>) -> Result<(), String> {
    let globals = "GLOBAL $( S:1; G:99 $) LET F(A) = A ";
    for size in [2, 700] {
        let head = format!("{globals}LET S() BE $( LET V=VEC {size}; LET A,B=1,2; V!1,!V:=A,B;");
        for command in COMMANDS {
            each(&chained(&head, &format!("{command};"), "A:=1$)", bytes))?;
        }
        for [begin, link, tail] in CHAINS {
            each(&chained(&format!("{head}{begin}"), link, &format!("{tail}$)"), bytes))?;
        }
        for [begin, opening, innermost, closing] in NESTS {
            // 64 levels are the most: of some forms 60 are refused by 7, at the same place.
            for levels in [30, 60] {
                let (opening, closing) = (opening.repeat(levels), closing.repeat(levels));
                each(&chained(&head, &format!("{begin}{opening}{innermost}{closing};"), "A:=1$)", bytes))?;
            }
        }
    }
    each(&chained(globals, "LET F%(A)=A ", "LET S() BE F(1)", bytes))?;
    each(&chained("GLOBAL $( S:1", ";G%:5", "$) LET S()=S", bytes))?;
    each(&chained("MANIFEST $( A=1", ";M%=A", "$) GLOBAL $( S:1 $) LET S()=A", bytes))
}
