//! The second reader of trees: symbols to a tree, by the grammar as the readings of the rules give it. One symbol is looked
//! at ahead and nothing is taken back, so the first symbol that finds no use is the one that cannot follow.

use crate::symbols::{kind::*, read_symbols, refusal, Fault, Refusal, Symbol, SIGNS, WORDS};

const MOST_LEVELS: u32 = 64;
/// The kind met where the symbols have ended.
const NOTHING: u32 = 0;

/// A place is that of a part's first symbol; a tree has those that refusals of it are told with.
#[derive(Debug, PartialEq)]
pub struct Tree {
    pub declarations: Vec<Declaration>,
}

#[derive(Debug, PartialEq)]
pub enum Declaration {
    Globals(Vec<(Symbol, Constant)>),
    Manifests(Vec<(Symbol, Constant)>),
    Functions(Vec<Function>),
}

#[derive(Debug, PartialEq)]
pub struct Function {
    pub name: Symbol,
    pub parameters: Vec<Symbol>,
    pub body: Body,
}

#[derive(Debug, PartialEq)]
pub enum Body {
    Value(Expression),
    Routine(Command),
}

/// A number, TRUE, FALSE or a name, or one of these negated.
#[derive(Debug, PartialEq)]
pub struct Constant {
    pub place: u32,
    pub negated: bool,
    pub symbol: Symbol,
}

#[derive(Debug, PartialEq)]
pub struct Command {
    pub labels: Vec<Label>,
    pub action: Action,
}

#[derive(Debug, PartialEq)]
pub enum Label {
    Case(u32, Constant),
    Default(u32),
}

#[derive(Debug, PartialEq)]
pub enum Action {
    /// Nothing; only after a label.
    Empty,
    Assign(Vec<Expression>, Vec<Expression>),
    Call(Expression),
    Test(Expression, Box<Command>, Box<Command>),
    /// IF, UNLESS, WHILE or UNTIL.
    When(u32, Expression, Box<Command>),
    For(Symbol, Expression, Expression, Option<Constant>, Box<Command>),
    Switch(Expression, Vec<Command>),
    Result(u32, Expression),
    /// BREAK, LOOP, ENDCASE, RETURN or FINISH, and its place.
    Leave(u32, u32),
    Block(Vec<Local>, Vec<Command>),
    Repeat(Box<Action>),
    /// REPEATWHILE or REPEATUNTIL.
    RepeatWhen(u32, Box<Action>, Expression),
}

#[derive(Debug, PartialEq)]
pub enum Local {
    Vector(Symbol, Constant),
    Values(Vec<Symbol>, Vec<Expression>),
}

#[derive(Debug, PartialEq)]
pub enum Expression {
    /// A number, string, TRUE, FALSE or name.
    Plain(Symbol),
    Bracketed(u32, Box<Expression>),
    Valof(u32, Box<Command>),
    /// The operator and its place.
    Monadic(u32, u32, Box<Expression>),
    Dyadic(u32, Box<Expression>, Box<Expression>),
    Call(Box<Expression>, Vec<Expression>),
}

/// Symbols and tree of a text: refusals 1 to 7.
pub fn read_source(text: &[u8]) -> Result<Tree, Refusal> {
    let symbols = read_symbols(text)?;
    read_tree(&symbols, text.len()).map_err(|fault| refusal(text, fault))
}

/// The tree of a text's symbols, or 6 or 7 with its place.
pub fn read_tree(symbols: &[Symbol], text_length: usize) -> Result<Tree, Fault> {
    Reader { symbols, next: 0, text_length, levels: 0 }.program()
}

struct Reader<'a> {
    symbols: &'a [Symbol],
    next: usize,
    text_length: usize,
    /// How many levels are open.
    levels: u32,
}

type Read<T> = Result<T, Fault>;

impl Reader<'_> {
    fn kind(&self) -> u32 {
        self.symbols.get(self.next).map_or(NOTHING, |symbol| symbol.kind)
    }

    fn place(&self) -> usize {
        self.symbols.get(self.next).map_or(self.text_length, |symbol| symbol.place as usize)
    }

    fn unexpected<T>(&self) -> Read<T> {
        Err((6, self.place()))
    }

    fn take(&mut self, kind: u32) -> bool {
        let found = self.kind() == kind;
        if found {
            self.next += 1;
        }
        found
    }

    fn want(&mut self, kind: u32) -> Read<Symbol> {
        if self.take(kind) {
            Ok(self.symbols[self.next - 1])
        } else {
            self.unexpected()
        }
    }

    /// Reads a part within a level that opens at the next symbol, which is known to be one that may stand here.
    fn level<T>(&mut self, part: impl FnOnce(&mut Self) -> Read<T>) -> Read<T> {
        if self.levels == MOST_LEVELS {
            return Err((7, self.place()));
        }
        self.levels += 1;
        let made = part(self)?;
        self.levels -= 1;
        Ok(made)
    }

    /// One part or more, with commas between them.
    fn list<T>(&mut self, part: impl Fn(&mut Self) -> Read<T>) -> Read<Vec<T>> {
        let mut parts = vec![part(self)?];
        while self.take(COMMA) {
            parts.push(part(self)?);
        }
        Ok(parts)
    }

    /// A list in round brackets, perhaps empty; the bracket is a level.
    fn bracketed_list<T>(&mut self, part: impl Fn(&mut Self) -> Read<T>) -> Read<Vec<T>> {
        if self.kind() != OPEN {
            return self.unexpected();
        }
        self.level(|reader| {
            reader.want(OPEN)?;
            let parts = if reader.kind() == CLOSE { Vec::new() } else { reader.list(part)? };
            reader.want(CLOSE)?;
            Ok(parts)
        })
    }

    fn name(&mut self) -> Read<Symbol> {
        self.want(NAME)
    }

    fn program(&mut self) -> Read<Tree> {
        let mut declarations = Vec::new();
        while self.kind() != NOTHING {
            declarations.push(self.declaration()?);
            self.take(SEMICOLON);
        }
        Ok(Tree { declarations })
    }

    fn declaration(&mut self) -> Read<Declaration> {
        if self.take(GLOBAL) {
            Ok(Declaration::Globals(self.constants(COLON)?))
        } else if self.take(MANIFEST) {
            Ok(Declaration::Manifests(self.constants(EQUAL)?))
        } else {
            self.want(LET)?;
            let mut functions = vec![self.function()?];
            while self.take(AND) {
                functions.push(self.function()?);
            }
            Ok(Declaration::Functions(functions))
        }
    }

    /// The list of GLOBAL or MANIFEST, which is not empty.
    fn constants(&mut self, between: u32) -> Read<Vec<(Symbol, Constant)>> {
        self.want(BEGIN)?;
        let mut items = Vec::new();
        loop {
            let name = self.name()?;
            self.want(between)?;
            items.push((name, self.constant()?));
            let more = self.take(SEMICOLON);
            if self.take(END) {
                return Ok(items);
            }
            if !more {
                return self.unexpected();
            }
        }
    }

    fn constant(&mut self) -> Read<Constant> {
        if self.kind() == MINUS {
            return self.level(|reader| {
                let place = reader.want(MINUS)?.place;
                Ok(Constant { place, negated: true, symbol: reader.constant_symbol()? })
            });
        }
        let symbol = self.constant_symbol()?;
        Ok(Constant { place: symbol.place, negated: false, symbol })
    }

    fn constant_symbol(&mut self) -> Read<Symbol> {
        match self.kind() {
            kind @ (NUMBER | TRUE | FALSE | NAME) => self.want(kind),
            _ => self.unexpected(),
        }
    }

    fn function(&mut self) -> Read<Function> {
        let name = self.name()?;
        let parameters = self.bracketed_list(Self::name)?;
        let body = if self.take(EQUAL) {
            Body::Value(self.expression()?)
        } else {
            self.want(BE)?;
            Body::Routine(self.command()?)
        };
        Ok(Function { name, parameters, body })
    }

    fn command(&mut self) -> Read<Command> {
        let mut labels = Vec::new();
        loop {
            let place = self.place() as u32;
            if self.take(CASE) {
                labels.push(Label::Case(place, self.constant()?));
            } else if self.take(DEFAULT) {
                labels.push(Label::Default(place));
            } else {
                break;
            }
            self.want(COLON)?;
        }
        let action = if begins_action(self.kind()) {
            self.level(Self::repeated)?
        } else if labels.is_empty() {
            return self.unexpected();
        } else {
            Action::Empty
        };
        Ok(Command { labels, action })
    }

    fn inner_command(&mut self) -> Read<Box<Command>> {
        Ok(Box::new(self.command()?))
    }

    /// An action and the REPEAT forms after it.
    fn repeated(&mut self) -> Read<Action> {
        let mut action = self.action()?;
        loop {
            match self.kind() {
                REPEAT => {
                    self.next += 1;
                    action = Action::Repeat(Box::new(action));
                }
                kind @ (REPEATWHILE | REPEATUNTIL) => {
                    self.next += 1;
                    action = Action::RepeatWhen(kind, Box::new(action), self.expression()?);
                }
                _ => return Ok(action),
            }
        }
    }

    fn action(&mut self) -> Read<Action> {
        let kind = self.kind();
        if begins_expression(kind) {
            return self.call_or_assignment();
        }
        let place = self.place() as u32;
        self.next += 1;
        match kind {
            TEST => {
                let condition = self.condition()?;
                let first = self.inner_command()?;
                self.want(OR)?;
                Ok(Action::Test(condition, first, self.inner_command()?))
            }
            IF | UNLESS | WHILE | UNTIL => Ok(Action::When(kind, self.condition()?, self.inner_command()?)),
            FOR => {
                let name = self.name()?;
                self.want(EQUAL)?;
                let first = self.expression()?;
                self.want(TO)?;
                let limit = self.expression()?;
                let step = if self.take(BY) { Some(self.constant()?) } else { None };
                self.want(DO)?;
                Ok(Action::For(name, first, limit, step, self.inner_command()?))
            }
            SWITCHON => {
                let value = self.expression()?;
                self.want(INTO)?;
                self.want(BEGIN)?;
                Ok(Action::Switch(value, self.commands()?))
            }
            RESULTIS => Ok(Action::Result(place, self.expression()?)),
            BEGIN => self.block(),
            // What is left of the symbols that begin an action.
            _ => Ok(Action::Leave(kind, place)),
        }
    }

    /// An expression and the DO after it.
    fn condition(&mut self) -> Read<Expression> {
        let condition = self.expression()?;
        self.want(DO)?;
        Ok(condition)
    }

    fn call_or_assignment(&mut self) -> Read<Action> {
        let first = self.expression()?;
        if matches!(first, Expression::Call(..)) && !matches!(self.kind(), COMMA | ASSIGN) {
            return Ok(Action::Call(first));
        }
        let mut left = vec![first];
        while self.take(COMMA) {
            left.push(self.expression()?);
        }
        self.want(ASSIGN)?;
        let right = self.right_list(left.len())?;
        Ok(Action::Assign(left, right))
    }

    /// As many expressions as stand on the left; a comma after them is another's.
    fn right_list(&mut self, many: usize) -> Read<Vec<Expression>> {
        let mut right = vec![self.expression()?];
        while right.len() < many {
            self.want(COMMA)?;
            right.push(self.expression()?);
        }
        Ok(right)
    }

    /// A block after its opening bracket.
    fn block(&mut self) -> Read<Action> {
        let mut locals = Vec::new();
        while self.take(LET) {
            locals.push(self.local()?);
            self.take(SEMICOLON);
        }
        if self.take(SEMICOLON) {
            self.want(END)?;
            return Ok(Action::Block(locals, Vec::new()));
        }
        let commands = if self.take(END) { Vec::new() } else { self.commands()? };
        Ok(Action::Block(locals, commands))
    }

    fn local(&mut self) -> Read<Local> {
        let names = self.list(Self::name)?;
        self.want(EQUAL)?;
        if names.len() == 1 && self.take(VEC) {
            return Ok(Local::Vector(names[0], self.constant()?));
        }
        let values = self.right_list(names.len())?;
        Ok(Local::Values(names, values))
    }

    /// One command or more, then the closing bracket.
    fn commands(&mut self) -> Read<Vec<Command>> {
        let mut commands = Vec::new();
        loop {
            commands.push(self.command()?);
            let more = self.take(SEMICOLON);
            if self.take(END) {
                return Ok(commands);
            }
            if !more {
                return self.unexpected();
            }
        }
    }

    fn expression(&mut self) -> Read<Expression> {
        self.dyadic(&[EITHER], Self::conjunction)
    }

    fn inner_expression(&mut self) -> Read<Box<Expression>> {
        Ok(Box::new(self.expression()?))
    }

    /// Operators of one binding, grouping left.
    fn dyadic(&mut self, operators: &[u32], operand: fn(&mut Self) -> Read<Expression>) -> Read<Expression> {
        let first = operand(self)?;
        self.dyadic_after(first, operators, operand)
    }

    fn dyadic_after(
        &mut self,
        first: Expression,
        operators: &[u32],
        operand: fn(&mut Self) -> Read<Expression>,
    ) -> Read<Expression> {
        let mut left = first;
        while operators.contains(&self.kind()) {
            let operator = self.kind();
            self.next += 1;
            left = Expression::Dyadic(operator, Box::new(left), Box::new(operand(self)?));
        }
        Ok(left)
    }

    fn conjunction(&mut self) -> Read<Expression> {
        self.dyadic(&[BOTH], Self::negation)
    }

    /// NOT and its operand, after which only & and | can follow; or a shift expression.
    fn negation(&mut self) -> Read<Expression> {
        match self.kind() {
            NOT => self.monadic(Self::shifts),
            _ => self.shifts(),
        }
    }

    fn shifts(&mut self) -> Read<Expression> {
        let first = self.relation()?;
        self.dyadic_after(first, &[LEFT_SHIFT, RIGHT_SHIFT], Self::sum)
    }

    fn relation(&mut self) -> Read<Expression> {
        let left = self.sum()?;
        match self.kind() {
            operator @ (EQUAL | UNEQUAL | LESS | AT_MOST | GREATER | AT_LEAST) => {
                self.next += 1;
                Ok(Expression::Dyadic(operator, Box::new(left), Box::new(self.sum()?)))
            }
            _ => Ok(left),
        }
    }

    fn sum(&mut self) -> Read<Expression> {
        self.dyadic(&[PLUS, MINUS], Self::product)
    }

    fn product(&mut self) -> Read<Expression> {
        self.dyadic(&[STAR, SLASH, REM], Self::suffixed)
    }

    /// An operand and the calls and indexes after it.
    fn suffixed(&mut self) -> Read<Expression> {
        let mut left = self.operand()?;
        loop {
            match self.kind() {
                OPEN => left = Expression::Call(Box::new(left), self.bracketed_list(Self::expression)?),
                SHRIEK => {
                    self.next += 1;
                    left = Expression::Dyadic(SHRIEK, Box::new(left), Box::new(self.operand()?));
                }
                _ => return Ok(left),
            }
        }
    }

    /// A primary, or a monadic operator or NOT, which may begin any operand; its own operand reaches as far as its binding
    /// lets it, so nothing that binds as tightly is left after it.
    fn operand(&mut self) -> Read<Expression> {
        match self.kind() {
            SHRIEK | AT => self.monadic(Self::suffixed),
            PLUS | MINUS => self.monadic(Self::product),
            NOT => self.monadic(Self::shifts),
            kind @ (NUMBER | STRING | TRUE | FALSE | NAME) => Ok(Expression::Plain(self.want(kind)?)),
            OPEN => self.level(|reader| {
                let place = reader.want(OPEN)?.place;
                let inner = reader.inner_expression()?;
                reader.want(CLOSE)?;
                Ok(Expression::Bracketed(place, inner))
            }),
            VALOF => self.level(|reader| {
                let place = reader.want(VALOF)?.place;
                Ok(Expression::Valof(place, reader.inner_command()?))
            }),
            _ => self.unexpected(),
        }
    }

    fn monadic(&mut self, operand: fn(&mut Self) -> Read<Expression>) -> Read<Expression> {
        self.level(|reader| {
            let operator = reader.want(reader.kind())?;
            Ok(Expression::Monadic(operator.kind, operator.place, Box::new(operand(reader)?)))
        })
    }
}

fn begins_expression(kind: u32) -> bool {
    matches!(kind, NUMBER | STRING | TRUE | FALSE | NAME | OPEN | VALOF | SHRIEK | AT | PLUS | MINUS | NOT)
}

/// Whether a symbol begins a command, labels aside.
fn begins_action(kind: u32) -> bool {
    begins_expression(kind)
        || matches!(kind, TEST | IF | UNLESS | WHILE | UNTIL | FOR | SWITCHON | RESULTIS | BEGIN)
        || matches!(kind, BREAK | LOOP | ENDCASE | RETURN | FINISH)
}

impl Tree {
    /// The tree as a source again, with every operator in brackets and every inner command in a block, so that nothing is
    /// left to binding. `text` is the source that the tree was read from.
    pub fn to_text(&self, text: &[u8]) -> String {
        let writer = Writer { text };
        let declarations = self.declarations.iter().map(|declaration| match declaration {
            Declaration::Globals(items) => format!("GLOBAL $( {} $)", writer.constants(items, ":")),
            Declaration::Manifests(items) => format!("MANIFEST $( {} $)", writer.constants(items, "=")),
            Declaration::Functions(functions) => {
                format!("LET {}", joined(functions, " AND ", |function| writer.function(function)))
            }
        });
        declarations.collect::<Vec<String>>().join("\n")
    }
}

fn joined<T>(parts: &[T], between: &str, told: impl Fn(&T) -> String) -> String {
    parts.iter().map(told).collect::<Vec<String>>().join(between)
}

fn spelled(kind: u32) -> &'static str {
    WORDS.iter().chain(&SIGNS).find(|&&(_, spelled)| spelled == kind).map_or("", |&(spelling, _)| spelling)
}

struct Writer<'a> {
    text: &'a [u8],
}

impl Writer<'_> {
    fn symbol(&self, symbol: &Symbol) -> String {
        let rest = &self.text[symbol.place as usize..];
        match symbol.kind {
            NUMBER if symbol.value > 32_767 => format!("#{:o}", symbol.value),
            NUMBER => symbol.value.to_string(),
            NAME => String::from_utf8_lossy(&rest[..symbol.value as usize]).into_owned(),
            STRING => {
                let mut length = 1;
                while rest[length] != b'"' {
                    length += if rest[length] == b'*' { 2 } else { 1 };
                }
                String::from_utf8_lossy(&rest[..=length]).into_owned()
            }
            kind => spelled(kind).to_string(),
        }
    }

    fn constant(&self, constant: &Constant) -> String {
        format!("{}{}", if constant.negated { "-" } else { "" }, self.symbol(&constant.symbol))
    }

    fn constants(&self, items: &[(Symbol, Constant)], between: &str) -> String {
        joined(items, "; ", |(name, constant)| format!("{}{between}{}", self.symbol(name), self.constant(constant)))
    }

    fn function(&self, function: &Function) -> String {
        let head = format!("{}({})", self.symbol(&function.name), self.names(&function.parameters));
        match &function.body {
            Body::Value(value) => format!("{head} = {}", self.expression(value)),
            Body::Routine(command) => format!("{head} BE {}", self.inner(command)),
        }
    }

    fn names(&self, names: &[Symbol]) -> String {
        joined(names, ", ", |name| self.symbol(name))
    }

    fn expressions(&self, expressions: &[Expression]) -> String {
        joined(expressions, ", ", |expression| self.expression(expression))
    }

    fn expression(&self, expression: &Expression) -> String {
        match expression {
            Expression::Plain(symbol) => self.symbol(symbol),
            // Every other form has brackets of its own or needs none; a call needs them after a `!`.
            Expression::Bracketed(_, inner) => match **inner {
                Expression::Call(..) => format!("({})", self.expression(inner)),
                _ => self.expression(inner),
            },
            Expression::Valof(_, command) => format!("(VALOF {})", self.inner(command)),
            Expression::Monadic(operator, _, operand) => {
                format!("({} {})", spelled(*operator), self.expression(operand))
            }
            Expression::Dyadic(operator, left, right) => {
                format!("({} {} {})", self.expression(left), spelled(*operator), self.expression(right))
            }
            Expression::Call(function, arguments) => {
                format!("{}({})", self.expression(function), self.expressions(arguments))
            }
        }
    }

    fn commands(&self, commands: &[Command]) -> String {
        joined(commands, "; ", |command| self.command(command))
    }

    /// A command within another, as a block.
    fn inner(&self, command: &Command) -> String {
        match command.action {
            Action::Block(..) if command.labels.is_empty() => self.action(&command.action),
            _ => format!("$( {} $)", self.command(command)),
        }
    }

    fn command(&self, command: &Command) -> String {
        let labels = joined(&command.labels, "", |label| match label {
            Label::Case(_, constant) => format!("CASE {}: ", self.constant(constant)),
            Label::Default(_) => "DEFAULT: ".to_string(),
        });
        labels + &self.action(&command.action)
    }

    fn action(&self, action: &Action) -> String {
        match action {
            Action::Empty => String::new(),
            Action::Assign(left, right) => format!("{} := {}", self.expressions(left), self.expressions(right)),
            Action::Call(call) => self.expression(call),
            Action::Test(condition, first, second) => {
                format!("TEST {} DO {} OR {}", self.expression(condition), self.inner(first), self.inner(second))
            }
            Action::When(kind, condition, command) => {
                format!("{} {} DO {}", spelled(*kind), self.expression(condition), self.inner(command))
            }
            Action::For(name, first, limit, step, command) => {
                let step = step.as_ref().map_or(String::new(), |step| format!("BY {} ", self.constant(step)));
                let (first, limit) = (self.expression(first), self.expression(limit));
                format!("FOR {} = {first} TO {limit} {step}DO {}", self.symbol(name), self.inner(command))
            }
            Action::Switch(value, commands) => {
                format!("SWITCHON {} INTO $( {} $)", self.expression(value), self.commands(commands))
            }
            Action::Result(_, value) => format!("RESULTIS {}", self.expression(value)),
            Action::Leave(kind, _) => spelled(*kind).to_string(),
            Action::Block(locals, commands) => {
                let locals = joined(locals, "", |local| match local {
                    Local::Vector(name, size) => format!("LET {} = VEC {}; ", self.symbol(name), self.constant(size)),
                    Local::Values(names, values) => {
                        format!("LET {} = {}; ", self.names(names), self.expressions(values))
                    }
                });
                format!("$( {locals}{} $)", self.commands(commands))
            }
            Action::Repeat(body) => format!("{} REPEAT", self.repeated(body)),
            Action::RepeatWhen(kind, body, condition) => {
                format!("{} {} {}", self.repeated(body), spelled(*kind), self.expression(condition))
            }
        }
    }

    /// What a REPEAT form repeats, as a block unless it is one already.
    fn repeated(&self, body: &Action) -> String {
        match body {
            Action::Block(..) => self.action(body),
            _ => format!("$( {} $)", self.action(body)),
        }
    }
}
