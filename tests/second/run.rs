//! The source run by its definition, over a resolved program: a word of the frames is live only while its name or vector
//! is, a value may be absent, every step is counted, and every undefined act ends the run. It is written from the rules
//! alone and knows nothing of compiled code.

use crate::deep::deep;
use crate::rules::{string_words, Body, Call, Command, Expression, For, Local, Place, Program, Switch, LINKS};
use crate::symbols::kind::*;

const GLOBALS: usize = 16;
pub const GLOBAL_COUNT: usize = 400;
const START: usize = 1;
const RDCH: u16 = 3;
const WRCH: u16 = 5;
const TRUTH: u16 = 65535;
/// No run is followed further: a run may nest as deep as it has steps, and the stack has room for so many.
pub const MOST_STEPS: u64 = 4_000_000;

/// Where a program stands: the functions' entries and the strings' addresses, each in source order, and the first stack
/// word.
pub struct Placement {
    pub entries: Vec<u16>,
    pub strings: Vec<u16>,
    pub first: u16,
}

#[derive(Clone, Copy, Debug, PartialEq, Eq)]
pub enum Undefined {
    ZeroDivisor,
    Address,
    NotStored,
    NoEntry,
    AbsentValue,
    PastMemory,
}

#[derive(Clone, Copy, Debug, PartialEq, Eq)]
pub enum End {
    /// By START's return or FINISH.
    Over,
    Undefined(Undefined),
    /// The steps allowed were too few.
    NotOver,
}

pub struct Ran {
    pub end: End,
    pub steps: u64,
    pub taken: usize,
    pub output: Vec<u8>,
    /// The first word that no frame reached: the largest base and height together.
    pub used: usize,
    pub globals: Vec<u16>,
    pub strings: Vec<Vec<u16>>,
}

/// Runs a program in a memory of so many words, for so many steps at most.
pub fn run(program: &Program, placement: &Placement, length: usize, input: &[u8], budget: u64) -> Ran {
    deep(|| {
        let mut run = Run::new(program, placement, length, input, budget.min(MOST_STEPS));
        let end = match run.start() {
            Ok(_) | Err(Stop::Return | Stop::Finish) => End::Over,
            Err(Stop::Undefined(act)) => End::Undefined(act),
            Err(Stop::Budget) => End::NotOver,
        };
        run.ran(end)
    })
}

/// A word of memory: no named word, named but not stored, or a value.
#[derive(Clone, Copy, PartialEq, Eq)]
enum Cell {
    Gone,
    Unset,
    Holding(u16),
}

/// What leaves expressions too.
enum Stop {
    Return,
    Finish,
    Undefined(Undefined),
    Budget,
}

/// How a command is left for the one around it.
enum Flow {
    Next,
    Break,
    Loop,
    Endcase,
    Result(Value),
}

/// A value, or None where there is none: of a routine, or of a VALOF without RESULTIS.
type Value = Option<u16>;
type Done<T> = Result<T, Stop>;

fn undefined<T>(act: Undefined) -> Done<T> {
    Err(Stop::Undefined(act))
}

/// A value at the moment that it is used.
fn used(value: Value) -> Done<u16> {
    value.ok_or(Stop::Undefined(Undefined::AbsentValue))
}

struct Run<'a> {
    program: &'a Program,
    placement: &'a Placement,
    /// The function at each address up to the last entry, if one's entry is there.
    entered: Vec<Option<usize>>,
    /// Every address's word.
    cells: Vec<Cell>,
    length: usize,
    /// The frame.
    base: usize,
    input: &'a [u8],
    taken: usize,
    output: Vec<u8>,
    used: usize,
    steps: u64,
    budget: u64,
}

impl<'a> Run<'a> {
    fn new(program: &'a Program, placement: &'a Placement, length: usize, input: &'a [u8], budget: u64) -> Self {
        let last = placement.entries.iter().copied().max().unwrap_or(0);
        let mut entered = vec![None; usize::from(last) + 1];
        for (function, &entry) in placement.entries.iter().enumerate() {
            entered[usize::from(entry)] = Some(function);
        }
        let mut cells = vec![Cell::Gone; 1 << 16];
        cells[GLOBALS..GLOBALS + GLOBAL_COUNT].fill(Cell::Holding(0));
        cells[GLOBALS + 13] = Cell::Holding(RDCH);
        cells[GLOBALS + 14] = Cell::Holding(WRCH);
        for &(global, function) in &program.in_globals {
            cells[GLOBALS + global] = Cell::Holding(placement.entries[function]);
        }
        for (&address, characters) in placement.strings.iter().zip(&program.strings) {
            for (index, word) in string_words(characters).into_iter().enumerate() {
                cells[usize::from(address) + index] = Cell::Holding(word);
            }
        }
        let base = usize::from(placement.first);
        let output = Vec::new();
        Run { program, placement, entered, cells, length, base, input, taken: 0, output, used: 0, steps: 0, budget }
    }

    /// START is called two words above the first stack word, with no arguments.
    fn start(&mut self) -> Done<Value> {
        let start = self.read(GLOBALS + START)?;
        self.enter(start, &[], LINKS)
    }

    fn ran(&self, end: End) -> Ran {
        let words = |first: usize, many: usize| self.cells[first..first + many].iter().map(held).collect();
        let strings = self.placement.strings.iter().zip(&self.program.strings);
        Ran {
            end,
            steps: self.steps,
            taken: self.taken,
            output: self.output.clone(),
            used: self.used,
            globals: words(GLOBALS, GLOBAL_COUNT),
            strings: strings.map(|(&first, characters)| words(first.into(), characters.len() / 2 + 1)).collect(),
        }
    }

    fn step(&mut self) -> Done<()> {
        if self.steps == self.budget {
            return Err(Stop::Budget);
        }
        self.steps += 1;
        Ok(())
    }

    // Words

    fn read(&self, address: usize) -> Done<u16> {
        match self.cells[address] {
            Cell::Holding(word) => Ok(word),
            Cell::Unset => undefined(Undefined::NotStored),
            Cell::Gone => undefined(Undefined::Address),
        }
    }

    fn write(&mut self, address: usize, word: u16) -> Done<()> {
        if self.cells[address] == Cell::Gone {
            return undefined(Undefined::Address);
        }
        self.cells[address] = Cell::Holding(word);
        Ok(())
    }

    /// The frame has so many words in use.
    fn reach(&mut self, height: usize) -> Done<()> {
        if self.base + height > self.length {
            return undefined(Undefined::PastMemory);
        }
        self.used = self.used.max(self.base + height);
        Ok(())
    }

    /// Words of the frame are named, from one height to another.
    fn name(&mut self, from: usize, to: usize, cell: Cell) -> Done<()> {
        self.reach(to)?;
        self.cells[self.base + from..self.base + to].fill(cell);
        Ok(())
    }

    /// Words of the frame are named no longer. A part that was left early may not have reached them all.
    fn forget(&mut self, from: usize, to: usize) {
        self.cells[self.base + from..self.base + to].fill(Cell::Gone);
    }

    // Expressions

    fn expression(&mut self, expression: &Expression, height: usize) -> Done<Value> {
        self.step()?;
        self.reach(height)?;
        let word = match expression {
            Expression::Number(word) => *word,
            Expression::String(string) => self.placement.strings[*string],
            Expression::Function(function) => self.placement.entries[*function],
            Expression::Word(place) => {
                let address = self.address(place, height)?;
                self.read(used(address)?.into())?
            }
            Expression::Address(place) => used(self.address(place, height)?)?,
            Expression::Valof(command) => return self.valof(command, height),
            Expression::Monadic(operator, operand) => {
                let word = used(self.expression(operand, height)?)?;
                match *operator {
                    PLUS => word,
                    MINUS => word.wrapping_neg(),
                    _ => !word,
                }
            }
            Expression::Dyadic(operator, left, right) => {
                let left = self.expression(left, height)?;
                let right = self.expression(right, height + 1)?;
                applied(*operator, used(left)?, used(right)?).ok_or(Stop::Undefined(Undefined::ZeroDivisor))?
            }
            Expression::Call(call) => return self.call(call, height),
        };
        Ok(Some(word))
    }

    fn truth(&mut self, condition: &Expression, height: usize) -> Done<bool> {
        let value = self.expression(condition, height)?;
        Ok(used(value)? != 0)
    }

    /// A place's address, if its parts have values; they are evaluated from this height on.
    fn address(&mut self, place: &Place, height: usize) -> Done<Value> {
        match place {
            Place::Local(word) => Ok(Some((self.base + word) as u16)),
            Place::Global(global) => Ok(Some((GLOBALS + global) as u16)),
            Place::At(address) => self.expression(address, height),
            Place::Indexed(left, right) => {
                let left = self.expression(left, height)?;
                let right = self.expression(right, height + 1)?;
                Ok(left.zip(right).map(|(left, right)| left.wrapping_add(right)))
            }
        }
    }

    fn valof(&mut self, command: &Command, height: usize) -> Done<Value> {
        match self.command(command, height)? {
            Flow::Result(value) => Ok(value),
            _ => Ok(None),
        }
    }

    fn call(&mut self, call: &Call, height: usize) -> Done<Value> {
        let first = height + LINKS;
        let mut waiting = Vec::with_capacity(call.arguments.len());
        for argument in &call.arguments {
            let value = self.expression(argument, first + waiting.len())?;
            waiting.push(value);
        }
        let entry = self.expression(&call.function, first + waiting.len())?;
        if waiting.contains(&None) {
            return undefined(Undefined::AbsentValue);
        }
        self.enter(used(entry)?, &waiting, height)
    }

    /// A call with its arguments known; the new frame begins at this height.
    fn enter(&mut self, entry: u16, arguments: &[Value], height: usize) -> Done<Value> {
        if let Some(&Some(function)) = self.entered.get(usize::from(entry)) {
            let outside = self.base;
            self.base += height;
            let value = self.function(function, arguments);
            self.base = outside;
            return value;
        }
        match (entry, arguments) {
            (RDCH, _) => Ok(Some(self.next_byte())),
            (WRCH, [Some(word), ..]) => {
                self.output.push(*word as u8);
                Ok(None)
            }
            (WRCH, _) => undefined(Undefined::NotStored),
            _ => undefined(Undefined::NoEntry),
        }
    }

    fn next_byte(&mut self) -> u16 {
        let byte = self.input.get(self.taken).copied();
        self.taken += usize::from(byte.is_some());
        byte.map_or(TRUTH, u16::from)
    }

    /// A function in its own frame. Parameters without an argument are not stored.
    fn function(&mut self, function: usize, arguments: &[Value]) -> Done<Value> {
        let program = self.program;
        let function = &program.functions[function];
        let height = LINKS + function.parameters;
        self.name(LINKS, height, Cell::Unset)?;
        for (index, &argument) in arguments.iter().take(function.parameters).enumerate() {
            self.cells[self.base + LINKS + index] = Cell::Holding(used(argument)?);
        }
        let value = match &function.body {
            Body::Value(value) => self.expression(value, height),
            Body::Routine(command) => match self.command(command, height) {
                Ok(_) | Err(Stop::Return) => Ok(None),
                Err(stop) => Err(stop),
            },
        };
        self.forget(LINKS, height);
        value
    }

    // Commands

    fn command(&mut self, command: &Command, height: usize) -> Done<Flow> {
        // The command that a REPEAT form repeats is begun at each turn instead.
        if !matches!(command, Command::Empty | Command::Repeat(_) | Command::RepeatWhile(..)) {
            self.step()?;
        }
        match command {
            Command::Empty => {}
            Command::Assign(pairs) => {
                for (left, right) in pairs {
                    self.assign(left, right, height)?;
                }
            }
            Command::Call(call) => {
                self.call(call, height)?;
            }
            Command::Test(condition, first, second) => {
                let chosen = if self.truth(condition, height)? { first } else { second };
                return self.command(chosen, height);
            }
            Command::When(wanted, condition, command) => {
                if self.truth(condition, height)? == *wanted {
                    return self.command(command, height);
                }
            }
            Command::While(wanted, condition, body) => {
                while self.truth(condition, height)? == *wanted {
                    if let Some(left) = self.turn(body, height)? {
                        return Ok(left);
                    }
                }
            }
            Command::For(control) => return self.for_loop(control, height),
            Command::Switch(switch) => return self.switch(switch, height),
            Command::Result(value) => return Ok(Flow::Result(self.expression(value, height)?)),
            Command::Break => return Ok(Flow::Break),
            Command::Loop => return Ok(Flow::Loop),
            Command::Endcase => return Ok(Flow::Endcase),
            Command::Return => return Err(Stop::Return),
            Command::Finish => return Err(Stop::Finish),
            Command::Block(locals, commands) => return self.block(locals, commands, height),
            Command::Repeat(body) => loop {
                if let Some(left) = self.turn(body, height)? {
                    return Ok(left);
                }
            },
            Command::RepeatWhile(wanted, body, condition) => loop {
                if let Some(left) = self.turn(body, height)? {
                    return Ok(left);
                }
                if self.truth(condition, height)? != *wanted {
                    break;
                }
            },
        }
        Ok(Flow::Next)
    }

    /// The right side, then the left side's parts; then the store.
    fn assign(&mut self, left: &Place, right: &Expression, height: usize) -> Done<()> {
        let value = self.expression(right, height)?;
        let address = self.address(left, height + 1)?;
        self.write(used(address)?.into(), used(value)?)
    }

    /// One turn of a loop: None if the loop goes on, or how it is left.
    fn turn(&mut self, body: &Command, height: usize) -> Done<Option<Flow>> {
        self.step()?;
        Ok(match self.command(body, height)? {
            Flow::Next | Flow::Loop => None,
            Flow::Break => Some(Flow::Next),
            left => Some(left),
        })
    }

    fn for_loop(&mut self, control: &For, height: usize) -> Done<Flow> {
        let left = self.for_turns(control, height);
        self.forget(height, height + 1);
        left
    }

    /// The control word is named and stored before the limit is evaluated; the limit's word is never live.
    fn for_turns(&mut self, control: &For, height: usize) -> Done<Flow> {
        self.named_value(&control.first, height)?;
        let limit = used(self.expression(&control.limit, height + 1)?)? as i16;
        self.reach(height + 2)?;
        let word = self.base + height;
        loop {
            let value = self.read(word)?;
            let over = if (control.step as i16) < 0 { (value as i16) < limit } else { (value as i16) > limit };
            if over {
                return Ok(Flow::Next);
            }
            if let Some(left) = self.turn(&control.body, height + 2)? {
                return Ok(left);
            }
            let value = self.read(word)?;
            self.write(word, value.wrapping_add(control.step))?;
        }
    }

    /// A name given its word, with its first value.
    fn named_value(&mut self, value: &Expression, height: usize) -> Done<()> {
        let value = used(self.expression(value, height)?)?;
        self.step()?;
        self.name(height, height + 1, Cell::Holding(value))
    }

    fn switch(&mut self, switch: &Switch, height: usize) -> Done<Flow> {
        let value = used(self.expression(&switch.value, height)?)?;
        let Some(&first) = switch.cases.get(&value).or(switch.default.as_ref()) else { return Ok(Flow::Next) };
        for command in &switch.commands[first..] {
            match self.command(command, height)? {
                Flow::Next => {}
                Flow::Endcase => return Ok(Flow::Next),
                left => return Ok(left),
            }
        }
        Ok(Flow::Next)
    }

    fn block(&mut self, locals: &[Local], commands: &[Command], height: usize) -> Done<Flow> {
        let mut inside = height;
        let left = self.block_parts(locals, commands, &mut inside);
        self.forget(height, inside);
        left
    }

    /// Locals and commands of a block; the height within it is told even where the block is left early.
    fn block_parts(&mut self, locals: &[Local], commands: &[Command], height: &mut usize) -> Done<Flow> {
        for local in locals {
            match local {
                Local::Vector(most) => {
                    self.step()?;
                    let first = (self.base + *height + 1) as u16;
                    let after = *height + most + 2;
                    self.name(*height, after, Cell::Unset)?;
                    self.cells[self.base + *height] = Cell::Holding(first);
                    *height = after;
                }
                Local::Values(values) => {
                    for value in values {
                        self.named_value(value, *height)?;
                        *height += 1;
                    }
                }
            }
        }
        for command in commands {
            match self.command(command, *height)? {
                Flow::Next => {}
                left => return Ok(left),
            }
        }
        Ok(Flow::Next)
    }
}

fn held(cell: &Cell) -> u16 {
    match cell {
        Cell::Holding(word) => *word,
        Cell::Unset | Cell::Gone => 0,
    }
}

/// A dyadic operator's value, unless it divides by zero.
fn applied(operator: u32, left: u16, right: u16) -> Option<u16> {
    let (signed_left, signed_right) = (left as i16, right as i16);
    let truth = |holds: bool| if holds { TRUTH } else { 0 };
    Some(match operator {
        PLUS => left.wrapping_add(right),
        MINUS => left.wrapping_sub(right),
        STAR => left.wrapping_mul(right),
        SLASH | REM if right == 0 => return None,
        SLASH => signed_left.wrapping_div(signed_right) as u16,
        REM => signed_left.wrapping_rem(signed_right) as u16,
        EQUAL => truth(left == right),
        UNEQUAL => truth(left != right),
        LESS => truth(signed_left < signed_right),
        AT_MOST => truth(signed_left <= signed_right),
        GREATER => truth(signed_left > signed_right),
        AT_LEAST => truth(signed_left >= signed_right),
        LEFT_SHIFT => left.checked_shl(right.into()).unwrap_or(0),
        RIGHT_SHIFT => left.checked_shr(right.into()).unwrap_or(0),
        BOTH => left & right,
        EITHER => left | right,
        _ => unreachable!("an operator of the grammar"),
    })
}
