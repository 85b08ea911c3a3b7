//! A second compiler: plain code for a resolved program, written from the rules alone. With it what is demanded of a
//! compiler's text, and the programs made for that, can be tried without the proved compiler.

use crate::rules::{judge, Body, Call, Command, Expression, Local, Place, Program, Switch, LINKS};
use crate::symbols::{kind::*, Refusal, LONGEST_TEXT};
use std::fmt::Write;

/// A whole compiler, with the proved one's answers: 0, the text's length, 0; or number, place, line.
pub fn compile(source: &[u8], scratch: &mut [u32], text: &mut [u8], answer: &mut [u64; 3]) {
    text.fill(0);
    *answer = match judged(source, scratch.len()) {
        Err(Refusal { number, place, line }) => [number, place as u64, line as u64],
        Ok(made) if made.len() > text.len() => [15, 0, 1],
        Ok(made) => {
            text[..made.len()].copy_from_slice(&made);
            [0, made.len() as u64, 0]
        }
    };
    scratch.fill(0);
}

/// The text that a source is to get, or its refusal, 15 for scratch included.
fn judged(source: &[u8], scratch: usize) -> Result<Vec<u8>, Refusal> {
    if source.len() <= LONGEST_TEXT && scratch < 8 * source.len() + 64 {
        return Err(Refusal { number: 15, place: 0, line: 1 });
    }
    judge(source).map(|program| text_of(&program))
}

pub fn text_of(program: &Program) -> Vec<u8> {
    let functions = program.functions.len();
    let mut writer = Writer {
        text: String::from("$"),
        functions,
        labels: functions + program.strings.len(),
        exits: Exits::default(),
    };
    for (index, function) in program.functions.iter().enumerate() {
        writer.label(index + 1);
        writer.exits = Exits::default();
        let height = LINKS + function.parameters;
        match &function.body {
            Body::Value(value) => writer.expression(value, height),
            Body::Routine(command) => writer.command(command, height),
        }
        writer.item("X4");
    }
    for (index, characters) in program.strings.iter().enumerate() {
        writer.label(functions + index + 1);
        writer.string(characters);
    }
    for (global, function) in &program.in_globals {
        writer.item(&format!("G{global}L{}", function + 1));
    }
    writer.item("Z");
    writer.text.into_bytes()
}

/// The labels that BREAK, LOOP, ENDCASE and RESULTIS go to.
#[derive(Clone, Copy, Default)]
struct Exits {
    broken: usize,
    next_turn: usize,
    end_of_switch: usize,
    result: usize,
}

struct Writer {
    text: String,
    functions: usize,
    /// The last label in use.
    labels: usize,
    exits: Exits,
}

impl Writer {
    fn item(&mut self, item: &str) {
        let _ = write!(self.text, "\n{item}");
    }

    fn label(&mut self, label: usize) {
        let _ = write!(self.text, "\n{label}:");
    }

    fn new_label(&mut self) -> usize {
        self.labels += 1;
        self.labels
    }

    fn within(&mut self, exits: Exits, part: impl FnOnce(&mut Self)) {
        let outside = std::mem::replace(&mut self.exits, exits);
        part(self);
        self.exits = outside;
    }

    /// A string's characters, those that may not stand by themselves as escapes or by number.
    fn string(&mut self, characters: &[u8]) {
        self.text.push_str("\nC\"");
        for &character in characters {
            match character {
                b'*' | b'"' => self.text.extend(['*', character as char]),
                32..=126 => self.text.push(character as char),
                _ => self.text.push_str(&format!("*{character:03}")),
            }
        }
        self.text.push('"');
    }

    fn stored_at(&mut self, word: usize) {
        self.item(&format!("SP{word}"));
    }

    // Expressions: the value comes into A; words from the height on may be used

    fn expression(&mut self, expression: &Expression, height: usize) {
        match expression {
            Expression::Number(word) => self.item(&format!("L{word}")),
            Expression::String(string) => self.item(&format!("LL{}", self.functions + string + 1)),
            Expression::Function(function) => self.item(&format!("LL{}", function + 1)),
            Expression::Word(Place::Local(word)) => self.item(&format!("LIP{word}")),
            Expression::Word(Place::Global(global)) => self.item(&format!("LIG{global}")),
            Expression::Word(place) => {
                self.address(place, height);
                self.item("X1");
            }
            Expression::Address(place) => self.address(place, height),
            Expression::Valof(command) => {
                let result = self.new_label();
                self.within(Exits { result, ..Exits::default() }, |writer| writer.command(command, height));
                self.label(result);
            }
            Expression::Monadic(operator, operand) => {
                self.expression(operand, height);
                match *operator {
                    PLUS => {}
                    MINUS => self.item("X2"),
                    _ => self.item("X3"),
                }
            }
            Expression::Dyadic(operator, left, right) => self.dyadic(act(*operator), left, right, height),
            Expression::Call(call) => self.call(call, height),
        }
    }

    fn dyadic(&mut self, act: usize, left: &Expression, right: &Expression, height: usize) {
        self.expression(left, height);
        self.stored_at(height);
        self.expression(right, height + 1);
        self.stored_at(height + 1);
        self.item(&format!("LIP{height} LIP{} X{act}", height + 1));
    }

    fn address(&mut self, place: &Place, height: usize) {
        match place {
            Place::Local(word) => self.item(&format!("LP{word}")),
            Place::Global(global) => self.item(&format!("LG{global}")),
            Place::At(address) => self.expression(address, height),
            Place::Indexed(left, right) => self.dyadic(8, left, right, height),
        }
    }

    fn call(&mut self, call: &Call, height: usize) {
        let first = height + LINKS;
        for (index, argument) in call.arguments.iter().enumerate() {
            self.expression(argument, first + index);
            self.stored_at(first + index);
        }
        self.expression(&call.function, first + call.arguments.len());
        self.item(&format!("K{height}"));
    }

    // Commands

    fn command(&mut self, command: &Command, height: usize) {
        match command {
            Command::Empty => {}
            Command::Assign(pairs) => {
                for (left, right) in pairs {
                    self.assign(left, right, height);
                }
            }
            Command::Call(call) => self.call(call, height),
            Command::Test(condition, first, second) => {
                let (other, end) = (self.new_label(), self.new_label());
                self.jump_unless(true, condition, other, height);
                self.command(first, height);
                self.item(&format!("JL{end}"));
                self.label(other);
                self.command(second, height);
                self.label(end);
            }
            Command::When(wanted, condition, command) => {
                let end = self.new_label();
                self.jump_unless(*wanted, condition, end, height);
                self.command(command, height);
                self.label(end);
            }
            Command::While(wanted, condition, body) => {
                let (turn, end) = (self.new_label(), self.new_label());
                self.label(turn);
                self.jump_unless(*wanted, condition, end, height);
                self.body(body, [end, turn], height);
                self.item(&format!("JL{turn}"));
                self.label(end);
            }
            Command::For(control) => {
                self.expression(&control.first, height);
                self.stored_at(height);
                self.expression(&control.limit, height + 1);
                self.stored_at(height + 1);
                let [test, step, end] = [(); 3].map(|()| self.new_label());
                let relation = if (control.step as i16) < 0 { 13 } else { 15 };
                self.label(test);
                self.item(&format!("LIP{height} LIP{} X{relation} FL{end}", height + 1));
                self.body(&control.body, [end, step], height + 2);
                self.label(step);
                self.item(&format!("LIP{height} A{} SP{height} JL{test}", control.step));
                self.label(end);
            }
            Command::Switch(switch) => self.switch(switch, height),
            Command::Result(value) => {
                self.expression(value, height);
                self.item(&format!("JL{}", self.exits.result));
            }
            Command::Break => self.item(&format!("JL{}", self.exits.broken)),
            Command::Loop => self.item(&format!("JL{}", self.exits.next_turn)),
            Command::Endcase => self.item(&format!("JL{}", self.exits.end_of_switch)),
            Command::Return => self.item("X4"),
            Command::Finish => self.item("X22"),
            Command::Block(locals, commands) => self.block(locals, commands, height),
            Command::Repeat(body) => {
                let (turn, end) = (self.new_label(), self.new_label());
                self.label(turn);
                self.body(body, [end, turn], height);
                self.item(&format!("JL{turn}"));
                self.label(end);
            }
            Command::RepeatWhile(wanted, body, condition) => {
                let [turn, test, end] = [(); 3].map(|()| self.new_label());
                self.label(turn);
                self.body(body, [end, test], height);
                self.label(test);
                self.jump_unless(!*wanted, condition, turn, height);
                self.label(end);
            }
        }
    }

    fn jump_unless(&mut self, wanted: bool, condition: &Expression, label: usize, height: usize) {
        self.expression(condition, height);
        self.item(&format!("{}L{label}", if wanted { 'F' } else { 'T' }));
    }

    fn body(&mut self, body: &Command, [broken, next_turn]: [usize; 2], height: usize) {
        self.within(Exits { broken, next_turn, ..self.exits }, |writer| writer.command(body, height));
    }

    fn assign(&mut self, left: &Place, right: &Expression, height: usize) {
        self.expression(right, height);
        match left {
            Place::Local(word) => self.stored_at(*word),
            Place::Global(global) => self.item(&format!("SG{global}")),
            _ => {
                self.stored_at(height);
                self.address(left, height + 1);
                self.stored_at(height + 1);
                self.item(&format!("LIP{height} SIP{}", height + 1));
            }
        }
    }

    fn switch(&mut self, switch: &Switch, height: usize) {
        let end = self.new_label();
        let first = self.labels + 1;
        self.labels += switch.commands.len();
        self.expression(&switch.value, height);
        self.item(&format!("X23 D{} DL{}", switch.cases.len(), switch.default.map_or(end, |index| first + index)));
        for (word, index) in &switch.cases {
            self.item(&format!("D{word} DL{}", first + index));
        }
        self.within(Exits { end_of_switch: end, ..self.exits }, |writer| {
            for (index, command) in switch.commands.iter().enumerate() {
                writer.label(first + index);
                writer.command(command, height);
            }
        });
        self.label(end);
    }

    fn block(&mut self, locals: &[Local], commands: &[Command], mut height: usize) {
        for local in locals {
            match local {
                Local::Vector(most) => {
                    self.item(&format!("LP{} SP{height}", height + 1));
                    height += most + 2;
                }
                Local::Values(values) => {
                    for value in values {
                        self.expression(value, height);
                        self.stored_at(height);
                        height += 1;
                    }
                }
            }
        }
        for command in commands {
            self.command(command, height);
        }
    }
}

/// The number of the act that does an operator.
fn act(operator: u32) -> usize {
    match operator {
        STAR => 5,
        SLASH => 6,
        REM => 7,
        PLUS => 8,
        MINUS => 9,
        EQUAL => 10,
        UNEQUAL => 11,
        LESS => 12,
        AT_LEAST => 13,
        GREATER => 14,
        AT_MOST => 15,
        LEFT_SHIFT => 16,
        RIGHT_SHIFT => 17,
        BOTH => 18,
        _ => 19,
    }
}
