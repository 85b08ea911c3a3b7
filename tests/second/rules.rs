//! The second program's rules on names and places: which names are known where, constants, heights, refusals 8 to 14 and
//! 16, and the program with every name resolved, as a run needs it. It is written from the rules alone and shares nothing
//! with the proved compiler. Every fault of a text is found; the first of its stage is the one told.

use crate::deep::deep;
use crate::grammar::{self, read_tree, Action, Constant, Declaration, Label, Tree};
use crate::symbols::{constant, kind::*, read_symbols, refusal, Fault, Refusal, Symbol};
use std::collections::BTreeMap;

const MOST_GLOBAL: i16 = 399;
const MOST_VECTOR: i16 = 4095;
const MOST_HEIGHT: usize = 8192;
const START: usize = 1;
/// A frame's link words; the parameters follow them.
pub const LINKS: usize = 2;

/// An accepted source, its names resolved.
pub struct Program {
    /// In source order.
    pub functions: Vec<Function>,
    /// The characters of each, in source order.
    pub strings: Vec<Vec<u8>>,
    /// Which function starts in which global's word: the global's number, then the function's.
    pub in_globals: Vec<(usize, usize)>,
}

pub struct Function {
    pub parameters: usize,
    /// The largest anywhere in its text, run or not.
    pub height: usize,
    pub body: Body,
}

pub enum Body {
    Value(Expression),
    Routine(Command),
}

/// A word that may be stored in and has an address.
pub enum Place {
    /// A parameter or local, by its word of the frame.
    Local(usize),
    Global(usize),
    /// `!E`.
    At(Box<Expression>),
    /// `A!B`.
    Indexed(Box<Expression>, Box<Expression>),
}

/// Round brackets are gone; operators have the kinds of their symbols.
pub enum Expression {
    Number(u16),
    String(usize),
    Function(usize),
    Word(Place),
    Address(Place),
    Valof(Box<Command>),
    Monadic(u32, Box<Expression>),
    Dyadic(u32, Box<Expression>, Box<Expression>),
    Call(Box<Call>),
}

pub struct Call {
    pub function: Expression,
    pub arguments: Vec<Expression>,
}

pub enum Command {
    Empty,
    Assign(Vec<(Place, Expression)>),
    Call(Call),
    Test(Expression, Box<Command>, Box<Command>),
    /// IF (true) or UNLESS (false).
    When(bool, Expression, Box<Command>),
    /// WHILE (true) or UNTIL (false).
    While(bool, Expression, Box<Command>),
    For(Box<For>),
    Switch(Box<Switch>),
    Result(Expression),
    Break,
    Loop,
    Endcase,
    Return,
    Finish,
    Block(Vec<Local>, Vec<Command>),
    Repeat(Box<Command>),
    /// REPEATWHILE (true) or REPEATUNTIL (false).
    RepeatWhile(bool, Box<Command>, Expression),
}

pub struct For {
    pub first: Expression,
    pub limit: Expression,
    pub step: u16,
    pub body: Command,
}

/// Each label has the place of its command in the list.
pub struct Switch {
    pub value: Expression,
    pub cases: BTreeMap<u16, usize>,
    pub default: Option<usize>,
    pub commands: Vec<Command>,
}

/// What takes the next words of the frame.
pub enum Local {
    /// The largest index.
    Vector(usize),
    Values(Vec<Expression>),
}

/// Accepted with its program, or refused, for scratch and text room large enough.
pub type Verdict = Result<Program, Refusal>;

pub fn judge(source: &[u8]) -> Verdict {
    let symbols = read_symbols(source)?;
    let strings = symbols.iter().filter(|symbol| symbol.kind == STRING);
    let strings = strings.map(|string| constant(&source[string.place as usize..]).expect("it was read").0).collect();
    let judged = deep(|| {
        let tree = read_tree(&symbols, source.len())?;
        Resolver::new(source).program(&tree)
    });
    match judged {
        Ok((functions, in_globals)) => Ok(Program { functions, strings, in_globals }),
        Err(fault) => Err(refusal(source, fault)),
    }
}

/// A string's words: byte 0 is the length, high half first, and an unused low half is 0.
pub fn string_words(characters: &[u8]) -> Vec<u16> {
    let bytes: Vec<u8> = std::iter::once(characters.len() as u8).chain(characters.iter().copied()).collect();
    bytes.chunks(2).map(|pair| u16::from(pair[0]) << 8 | u16::from(*pair.get(1).unwrap_or(&0))).collect()
}

#[derive(Clone, Copy)]
enum Meaning {
    Global(usize),
    Manifest(u16),
    Function(usize),
    Local(usize),
}

/// What a command may leave.
#[derive(Clone, Copy)]
struct Around {
    routine: bool,
    valof: bool,
    in_loop: bool,
    in_switch: bool,
}

struct Resolver<'a> {
    source: &'a [u8],
    /// The names of the outermost level and of every block around, innermost last.
    blocks: Vec<Vec<(&'a [u8], Meaning)>>,
    in_globals: Vec<(usize, usize)>,
    functions: Vec<Function>,
    around: Around,
    /// The largest height of the function so far.
    most: usize,
    faults: Vec<Fault>,
    /// Faults 16.
    heights: Vec<Fault>,
}

impl<'a> Resolver<'a> {
    fn new(source: &'a [u8]) -> Self {
        Resolver {
            source,
            blocks: vec![Vec::new()],
            in_globals: Vec::new(),
            functions: Vec::new(),
            around: Around { routine: false, valof: false, in_loop: false, in_switch: false },
            most: 0,
            faults: Vec::new(),
            heights: Vec::new(),
        }
    }

    fn program(mut self, tree: &Tree) -> Result<(Vec<Function>, Vec<(usize, usize)>), Fault> {
        for declaration in &tree.declarations {
            match declaration {
                Declaration::Globals(items) => {
                    for (name, constant) in items {
                        let number = self.bounded(constant, |value| (0..=MOST_GLOBAL).contains(&value));
                        self.declare(name, Meaning::Global(usize::from(number)));
                    }
                }
                Declaration::Manifests(items) => {
                    for (name, constant) in items {
                        let word = self.constant(constant).unwrap_or(0);
                        self.declare(name, Meaning::Manifest(word));
                    }
                }
                Declaration::Functions(group) => self.group(group),
            }
        }
        let first = |faults: &[Fault]| faults.iter().copied().min_by_key(|&(number, place)| (place, number));
        let started = self.in_globals.iter().any(|&(global, _)| global == START);
        let no_start = if started { None } else { Some((14, 0)) };
        match first(&self.faults).or(first(&self.heights)).or(no_start) {
            Some(fault) => Err(fault),
            None => Ok((self.functions, self.in_globals)),
        }
    }

    fn fault(&mut self, number: u64, place: u32) {
        self.faults.push((number, place as usize));
    }

    // Names

    fn text(&self, name: &Symbol) -> &'a [u8] {
        let place = name.place as usize;
        &self.source[place..place + name.value as usize]
    }

    /// The innermost meaning of a name; in one block the latest.
    fn meaning(&self, name: &Symbol) -> Option<Meaning> {
        let wanted = self.text(name);
        for block in self.blocks.iter().rev() {
            for &(known, meaning) in block.iter().rev() {
                if known == wanted {
                    return Some(meaning);
                }
            }
        }
        None
    }

    /// A name declared in the innermost block, once more if it is there already.
    fn declare(&mut self, name: &Symbol, meaning: Meaning) {
        let text = self.text(name);
        let block = self.blocks.last_mut().expect("the outermost block at least");
        let twice = block.iter().any(|&(known, _)| known == text);
        block.push((text, meaning));
        if twice {
            self.fault(9, name.place);
        }
    }

    /// Names of a group are known in all of it.
    fn group(&mut self, group: &[grammar::Function]) {
        let first = self.functions.len();
        for (index, function) in group.iter().enumerate() {
            self.declare_function(&function.name, first + index);
        }
        for function in group {
            let made = self.function(function);
            self.functions.push(made);
        }
    }

    /// A declared global's name still means the global.
    fn declare_function(&mut self, name: &Symbol, function: usize) {
        if let Some(Meaning::Global(global)) = self.meaning(name) {
            if self.in_globals.iter().any(|&(taken, _)| taken == global) {
                self.fault(9, name.place);
            }
            self.in_globals.push((global, function));
        } else {
            self.declare(name, Meaning::Function(function));
        }
    }

    /// A constant's word, unless it is refused.
    fn constant(&mut self, constant: &Constant) -> Option<u16> {
        let word = match constant.symbol.kind {
            TRUE => 65535,
            FALSE => 0,
            NUMBER => constant.symbol.value as u16,
            _ => match self.meaning(&constant.symbol) {
                Some(Meaning::Manifest(word)) => word,
                Some(_) => {
                    self.fault(11, constant.place);
                    return None;
                }
                None => {
                    self.fault(8, constant.symbol.place);
                    return None;
                }
            },
        };
        Some(if constant.negated { word.wrapping_neg() } else { word })
    }

    /// A constant that must be within bounds; 0 stands for a refused one.
    fn bounded(&mut self, constant: &Constant, allowed: impl Fn(i16) -> bool) -> u16 {
        match self.constant(constant) {
            Some(word) if allowed(word as i16) => word,
            Some(_) => {
                self.fault(11, constant.place);
                0
            }
            None => 0,
        }
    }

    // Functions

    fn function(&mut self, function: &grammar::Function) -> Function {
        let parameters = function.parameters.len();
        let height = LINKS + parameters;
        self.most = height;
        self.blocks.push(Vec::new());
        for (index, name) in function.parameters.iter().enumerate() {
            self.declare(name, Meaning::Local(LINKS + index));
        }
        let routine = matches!(function.body, grammar::Body::Routine(_));
        self.around = Around { routine, valof: false, in_loop: false, in_switch: false };
        let body = match &function.body {
            grammar::Body::Value(value) => Body::Value(self.expression(value, height)),
            grammar::Body::Routine(command) => Body::Routine(self.command(command, height)),
        };
        self.blocks.pop();
        if self.most > MOST_HEIGHT {
            self.heights.push((16, function.name.place as usize));
        }
        Function { parameters, height: self.most, body }
    }

    fn reach(&mut self, height: usize) {
        self.most = self.most.max(height);
    }

    /// A part with other things around it that it may leave.
    fn within<T>(&mut self, around: Around, part: impl FnOnce(&mut Self) -> T) -> T {
        let outside = std::mem::replace(&mut self.around, around);
        let made = part(self);
        self.around = outside;
        made
    }

    fn in_loop<T>(&mut self, part: impl FnOnce(&mut Self) -> T) -> T {
        self.within(Around { in_loop: true, ..self.around }, part)
    }

    // Expressions: each at the height at which it is evaluated

    fn expression(&mut self, tree: &grammar::Expression, height: usize) -> Expression {
        self.reach(height);
        match tree {
            grammar::Expression::Plain(symbol) => self.plain(symbol),
            grammar::Expression::Bracketed(_, inner) => self.expression(inner, height),
            grammar::Expression::Valof(_, command) => {
                let around = Around { valof: true, in_loop: false, in_switch: false, ..self.around };
                Expression::Valof(self.within(around, |resolver| resolver.inner(command, height)))
            }
            grammar::Expression::Monadic(AT, _, operand) => Expression::Address(self.place(operand, height)),
            grammar::Expression::Monadic(SHRIEK, ..) | grammar::Expression::Dyadic(SHRIEK, ..) => {
                Expression::Word(self.place(tree, height))
            }
            grammar::Expression::Monadic(operator, _, operand) => {
                Expression::Monadic(*operator, self.boxed(operand, height))
            }
            grammar::Expression::Dyadic(operator, left, right) => {
                Expression::Dyadic(*operator, self.boxed(left, height), self.boxed(right, height + 1))
            }
            grammar::Expression::Call(function, arguments) => {
                Expression::Call(Box::new(self.call(function, arguments, height)))
            }
        }
    }

    fn boxed(&mut self, tree: &grammar::Expression, height: usize) -> Box<Expression> {
        Box::new(self.expression(tree, height))
    }

    fn plain(&mut self, symbol: &Symbol) -> Expression {
        match symbol.kind {
            TRUE => Expression::Number(65535),
            FALSE => Expression::Number(0),
            NUMBER => Expression::Number(symbol.value as u16),
            STRING => Expression::String(symbol.value as usize),
            _ => match self.meaning(symbol) {
                Some(Meaning::Local(word)) => Expression::Word(Place::Local(word)),
                Some(Meaning::Global(global)) => Expression::Word(Place::Global(global)),
                Some(Meaning::Manifest(word)) => Expression::Number(word),
                Some(Meaning::Function(function)) => Expression::Function(function),
                None => {
                    self.fault(8, symbol.place);
                    Expression::Number(0)
                }
            },
        }
    }

    /// A `!` form, a left side or the operand of @; the parts of a `!` form are evaluated from this height on.
    fn place(&mut self, tree: &grammar::Expression, height: usize) -> Place {
        let mut inner = tree;
        while let grammar::Expression::Bracketed(_, within) = inner {
            inner = within;
        }
        match inner {
            grammar::Expression::Monadic(SHRIEK, _, operand) => return Place::At(self.boxed(operand, height)),
            grammar::Expression::Dyadic(SHRIEK, left, right) => {
                return Place::Indexed(self.boxed(left, height), self.boxed(right, height + 1));
            }
            grammar::Expression::Plain(symbol) if symbol.kind == NAME => match self.meaning(symbol) {
                Some(Meaning::Local(word)) => return Place::Local(word),
                Some(Meaning::Global(global)) => return Place::Global(global),
                _ => {}
            },
            _ => {}
        }
        self.fault(10, first_place(tree));
        // For the faults in it.
        self.expression(inner, height);
        Place::Global(0)
    }

    fn call(&mut self, function: &grammar::Expression, arguments: &[grammar::Expression], height: usize) -> Call {
        let first = height + LINKS;
        let numbered = arguments.iter().enumerate();
        let arguments = numbered.map(|(index, argument)| self.expression(argument, first + index)).collect::<Vec<_>>();
        Call { function: self.expression(function, first + arguments.len()), arguments }
    }

    // Commands

    /// A command elsewhere than in the list of a SWITCHON.
    fn command(&mut self, command: &grammar::Command, height: usize) -> Command {
        for label in &command.labels {
            let (Label::Case(place, _) | Label::Default(place)) = label;
            self.fault(12, *place);
        }
        self.action(&command.action, height)
    }

    fn inner(&mut self, command: &grammar::Command, height: usize) -> Box<Command> {
        Box::new(self.command(command, height))
    }

    fn action(&mut self, action: &Action, height: usize) -> Command {
        match action {
            Action::Empty => Command::Empty,
            Action::Assign(left, right) => {
                let pairs = left.iter().zip(right);
                Command::Assign(pairs.map(|(left, right)| self.assignment(left, right, height)).collect())
            }
            Action::Call(grammar::Expression::Call(function, arguments)) => {
                Command::Call(self.call(function, arguments, height))
            }
            Action::Call(_) => unreachable!("a call command is a call"),
            Action::Test(condition, first, second) => {
                Command::Test(self.expression(condition, height), self.inner(first, height), self.inner(second, height))
            }
            Action::When(kind @ (IF | UNLESS), condition, command) => {
                Command::When(*kind == IF, self.expression(condition, height), self.inner(command, height))
            }
            Action::When(kind, condition, command) => {
                let condition = self.expression(condition, height);
                Command::While(*kind == WHILE, condition, self.in_loop(|resolver| resolver.inner(command, height)))
            }
            Action::For(name, first, limit, step, command) => {
                Command::For(Box::new(self.for_loop(name, [first, limit], step.as_ref(), command, height)))
            }
            Action::Switch(value, commands) => Command::Switch(Box::new(self.switch(value, commands, height))),
            Action::Result(place, value) => {
                self.leaves(self.around.valof, *place);
                Command::Result(self.expression(value, height))
            }
            Action::Leave(kind, place) => self.leave(*kind, *place),
            Action::Block(locals, commands) => self.block(locals, commands, height),
            Action::Repeat(body) => Command::Repeat(self.repeated(body, height)),
            Action::RepeatWhen(kind, body, condition) => {
                let body = self.repeated(body, height);
                Command::RepeatWhile(*kind == REPEATWHILE, body, self.expression(condition, height))
            }
        }
    }

    /// The right side keeps a word while the left side's parts are found.
    fn assignment(
        &mut self,
        left: &grammar::Expression,
        right: &grammar::Expression,
        height: usize,
    ) -> (Place, Expression) {
        let right = self.expression(right, height);
        (self.place(left, height + 1), right)
    }

    fn repeated(&mut self, body: &Action, height: usize) -> Box<Command> {
        self.in_loop(|resolver| Box::new(resolver.action(body, height)))
    }

    fn leaves(&mut self, allowed: bool, place: u32) {
        if !allowed {
            self.fault(13, place);
        }
    }

    fn leave(&mut self, kind: u32, place: u32) -> Command {
        let Around { routine, in_loop, in_switch, .. } = self.around;
        let (allowed, command) = match kind {
            BREAK => (in_loop, Command::Break),
            LOOP => (in_loop, Command::Loop),
            ENDCASE => (in_switch, Command::Endcase),
            RETURN => (routine, Command::Return),
            _ => (true, Command::Finish),
        };
        self.leaves(allowed, place);
        command
    }

    /// The name is known in the body alone; the limit's word follows the name's.
    fn for_loop(
        &mut self,
        name: &Symbol,
        [first, limit]: [&grammar::Expression; 2],
        step: Option<&Constant>,
        command: &grammar::Command,
        height: usize,
    ) -> For {
        let first = self.expression(first, height);
        let limit = self.expression(limit, height + 1);
        let step = step.map_or(1, |step| self.bounded(step, |value| value != 0));
        self.reach(height + 2);
        self.blocks.push(Vec::new());
        self.declare(name, Meaning::Local(height));
        let body = self.in_loop(|resolver| resolver.command(command, height + 2));
        self.blocks.pop();
        For { first, limit, step, body }
    }

    fn switch(&mut self, value: &grammar::Expression, list: &[grammar::Command], height: usize) -> Switch {
        let value = self.expression(value, height);
        let mut made = Switch { value, cases: BTreeMap::new(), default: None, commands: Vec::new() };
        for (index, command) in list.iter().enumerate() {
            for label in &command.labels {
                self.label(label, index, &mut made);
            }
            let around = Around { in_switch: true, ..self.around };
            made.commands.push(self.within(around, |resolver| resolver.action(&command.action, height)));
        }
        made
    }

    /// A label whose constant is refused is compared with no other.
    fn label(&mut self, label: &Label, index: usize, switch: &mut Switch) {
        let (doubled, place) = match label {
            Label::Case(place, constant) => match self.constant(constant) {
                Some(word) => (switch.cases.insert(word, index).is_some(), place),
                None => (false, place),
            },
            Label::Default(place) => (switch.default.replace(index).is_some(), place),
        };
        if doubled {
            self.fault(12, *place);
        }
    }

    fn block(&mut self, locals: &[grammar::Local], commands: &[grammar::Command], outside: usize) -> Command {
        let mut height = outside;
        self.blocks.push(Vec::new());
        let mut made = Vec::new();
        for local in locals {
            made.push(self.local(local, &mut height));
            self.reach(height);
        }
        let commands = commands.iter().map(|command| self.command(command, height)).collect();
        self.blocks.pop();
        Command::Block(made, commands)
    }

    /// A local declaration, and the height after it. Its names are known after all of it.
    fn local(&mut self, local: &grammar::Local, height: &mut usize) -> Local {
        let first = *height;
        match local {
            grammar::Local::Vector(name, size) => {
                let most = usize::from(self.bounded(size, |value| (0..=MOST_VECTOR).contains(&value)));
                self.declare(name, Meaning::Local(first));
                *height += most + 2;
                Local::Vector(most)
            }
            grammar::Local::Values(names, values) => {
                let numbered = values.iter().enumerate();
                let values = numbered.map(|(index, value)| self.expression(value, first + index)).collect();
                for (index, name) in names.iter().enumerate() {
                    self.declare(name, Meaning::Local(first + index));
                }
                *height += names.len();
                Local::Values(values)
            }
        }
    }
}

/// The place of an expression's first symbol.
fn first_place(mut tree: &grammar::Expression) -> u32 {
    loop {
        tree = match tree {
            grammar::Expression::Plain(symbol) => return symbol.place,
            grammar::Expression::Bracketed(place, _) => return *place,
            grammar::Expression::Valof(place, _) => return *place,
            grammar::Expression::Monadic(_, place, _) => return *place,
            grammar::Expression::Dyadic(_, left, _) => left,
            grammar::Expression::Call(function, _) => function,
        }
    }
}
