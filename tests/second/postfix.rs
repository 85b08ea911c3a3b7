//! Takes the tree that the proved reader leaves in scratch apart again, by its layout: in postfix form, a node's parts and
//! then its record of four entries, the size of the parts, a value, a place and the node's kind. An item of a list has two
//! entries in front, the size of what follows and a tag; a suffix has them behind it. Every entry is checked, so two scratches
//! give one tree only if they are the same.

use crate::grammar::{Action, Body, Command, Constant, Declaration, Expression, Function, Label, Local, Tree};
use crate::symbols::{kind::*, Symbol};

/// Kinds of nodes that are no kind of symbol.
const MONADIC: u32 = 128;
const SUFFIXED: u32 = 129;
const CALLED: u32 = 130;
const DYADIC: u32 = 131;
const LABELLED: u32 = 132;
const REPEATED: u32 = 133;

const RECORD: usize = 4;

type Decoded<T> = Result<T, String>;

/// The tree in the entries behind the symbols.
pub fn decode(symbols: &[Symbol], entries: &[u32]) -> Decoded<Tree> {
    let decoder = Decoder { symbols };
    let declarations = items(entries)?.into_iter().map(|(tag, part)| decoder.declaration(tag, part));
    Ok(Tree { declarations: declarations.collect::<Decoded<_>>()? })
}

/// A node: its parts and its record.
#[derive(Clone, Copy)]
struct Node<'a> {
    parts: &'a [u32],
    value: u32,
    place: u32,
    kind: u32,
}

impl Node<'_> {
    fn wants(&self, value: u32, place: u32) -> Decoded<()> {
        if (self.value, self.place) == (value, place) {
            Ok(())
        } else {
            Err(format!("kind {} has value {} and place {}", self.kind, self.value, self.place))
        }
    }
}

/// The node at the end of these entries, and what stands before it.
fn last(entries: &[u32]) -> Decoded<(&[u32], Node<'_>)> {
    let wrong = || format!("no node ends {entries:?}");
    let parts_end = entries.len().checked_sub(RECORD).ok_or_else(wrong)?;
    let [size, value, place, kind] = entries[parts_end..] else { return Err(wrong()) };
    let start = parts_end.checked_sub(size as usize).ok_or_else(wrong)?;
    Ok((&entries[..start], Node { parts: &entries[start..parts_end], value, place, kind }))
}

/// The one node that these entries are.
fn only(entries: &[u32]) -> Decoded<Node<'_>> {
    match last(entries)? {
        ([], node) => Ok(node),
        (before, _) => Err(format!("{} entries before a node", before.len())),
    }
}

/// So many entries, and the rest.
fn split(entries: &[u32], size: usize) -> Decoded<(&[u32], &[u32])> {
    entries.split_at_checked(size).ok_or_else(|| format!("a size of {size} within {} entries", entries.len()))
}

/// The items of a list that these entries are: the tag and the entries of each.
fn items(entries: &[u32]) -> Decoded<Vec<(u32, &[u32])>> {
    let mut found = Vec::new();
    let mut rest = entries;
    while let [size, tag, after @ ..] = rest {
        let (item, further) = split(after, *size as usize)?;
        found.push((*tag, item));
        rest = further;
    }
    match rest {
        [] => Ok(found),
        _ => Err("half an item".to_string()),
    }
}

/// The suffixes that these entries are, from the first: the tag and the entries of each.
fn suffixes(entries: &[u32]) -> Decoded<Vec<(u32, &[u32])>> {
    let mut found = Vec::new();
    let mut rest = entries;
    while let [before @ .., size, tag] = rest {
        let start = before.len().checked_sub(*size as usize).ok_or_else(|| format!("a suffix of size {size}"))?;
        let (further, suffix) = before.split_at(start);
        found.push((*tag, suffix));
        rest = further;
    }
    found.reverse();
    match rest {
        [] => Ok(found),
        _ => Err("half a suffix".to_string()),
    }
}

/// The items of a list without tags.
fn untagged(entries: &[u32]) -> Decoded<Vec<&[u32]>> {
    let plain = |(tag, item)| if tag == 0 { Ok(item) } else { Err(format!("an item has the tag {tag}")) };
    items(entries)?.into_iter().map(plain).collect()
}

/// How tightly a dyadic operator binds.
fn binding(operator: u32) -> Option<u32> {
    match operator {
        STAR | SLASH | REM => Some(1),
        PLUS | MINUS => Some(2),
        EQUAL..=AT_LEAST => Some(3),
        LEFT_SHIFT | RIGHT_SHIFT => Some(4),
        BOTH => Some(5),
        EITHER => Some(6),
        _ => None,
    }
}

struct Decoder<'a> {
    symbols: &'a [Symbol],
}

impl Decoder<'_> {
    /// The symbol at a place. An inserted semicolon has the place of the symbol after it.
    fn at(&self, place: u32) -> Decoded<Symbol> {
        let past = self.symbols.partition_point(|symbol| symbol.place <= place);
        let found = past.checked_sub(1).map(|index| self.symbols[index]).filter(|symbol| symbol.place == place);
        found.ok_or_else(|| format!("no symbol at {place}"))
    }

    /// The symbol that a leaf stands for: TRUE and FALSE are numbers there.
    fn symbol(&self, kind: u32, value: u32, place: u32) -> Decoded<Symbol> {
        let symbol = self.at(place)?;
        let leaf = match symbol.kind {
            TRUE => (NUMBER, 65_535),
            FALSE => (NUMBER, 0),
            kind => (kind, symbol.value),
        };
        match leaf == (kind, value) {
            true => Ok(symbol),
            false => Err(format!("kind {kind} with value {value} for {symbol:?}")),
        }
    }

    /// The place, at which a symbol of this kind must stand.
    fn stands(&self, kind: u32, place: u32) -> Decoded<u32> {
        match self.at(place)?.kind == kind {
            true => Ok(place),
            false => Err(format!("no symbol of kind {kind} at {place}")),
        }
    }

    fn leaf(&self, node: Node) -> Decoded<Symbol> {
        match node.parts {
            [] => self.symbol(node.kind, node.value, node.place),
            _ => Err(format!("kind {} has parts", node.kind)),
        }
    }

    fn name(&self, entries: &[u32]) -> Decoded<Symbol> {
        match only(entries)? {
            node @ Node { kind: NAME, .. } => self.leaf(node),
            node => Err(format!("kind {} for a name", node.kind)),
        }
    }

    fn names(&self, entries: &[u32]) -> Decoded<Vec<Symbol>> {
        entries.chunks(RECORD).map(|entries| self.name(entries)).collect()
    }

    fn constant(&self, entries: &[u32]) -> Decoded<Constant> {
        let node = only(entries)?;
        if node.kind != MINUS {
            let symbol = match node.kind {
                NUMBER | NAME => self.leaf(node)?,
                kind => return Err(format!("kind {kind} for a constant")),
            };
            return Ok(Constant { place: symbol.place, negated: false, symbol });
        }
        let place = self.stands(MINUS, node.place)?;
        let symbol = if node.parts.is_empty() {
            // A number's own place is not there: it is the symbol after the minus.
            let next = self.symbols.partition_point(|symbol| symbol.place <= place);
            let number = self.symbols.get(next).ok_or("a minus without its number")?;
            self.symbol(NUMBER, node.value, number.place)?
        } else {
            node.wants(0, place)?;
            self.name(node.parts)?
        };
        Ok(Constant { place, negated: true, symbol })
    }

    fn declaration(&self, tag: u32, part: &[u32]) -> Decoded<Declaration> {
        match tag {
            GLOBAL => Ok(Declaration::Globals(self.constants(part)?)),
            MANIFEST => Ok(Declaration::Manifests(self.constants(part)?)),
            LET => {
                let functions = untagged(part)?.into_iter().map(|item| self.function(item));
                Ok(Declaration::Functions(functions.collect::<Decoded<_>>()?))
            }
            _ => Err(format!("a declaration has the tag {tag}")),
        }
    }

    fn constants(&self, part: &[u32]) -> Decoded<Vec<(Symbol, Constant)>> {
        let constants = untagged(part)?.into_iter().map(|item| {
            let (name, constant) = split(item, RECORD)?;
            Ok((self.name(name)?, self.constant(constant)?))
        });
        constants.collect()
    }

    fn function(&self, item: &[u32]) -> Decoded<Function> {
        let node = only(item)?;
        node.wants(node.value, 0)?;
        let (name, rest) = split(node.parts, RECORD)?;
        let (parameters, body) = split(rest, node.value as usize)?;
        let body = match node.kind {
            EQUAL => Body::Value(self.expression(body)?),
            BE => Body::Routine(self.command(body)?),
            kind => return Err(format!("kind {kind} for a function")),
        };
        Ok(Function { name: self.name(name)?, parameters: self.names(parameters)?, body })
    }

    fn command(&self, entries: &[u32]) -> Decoded<Command> {
        match only(entries)? {
            node @ Node { kind: LABELLED, .. } => {
                node.wants(node.value, 0)?;
                let (labels, command) = split(node.parts, node.value as usize)?;
                let labels: Vec<Label> =
                    items(labels)?.into_iter().map(|(tag, item)| self.label(tag, item)).collect::<Decoded<_>>()?;
                if labels.is_empty() {
                    return Err("a command with labels has none".to_string());
                }
                let action = if command.is_empty() { Action::Empty } else { self.repeated(command)? };
                Ok(Command { labels, action })
            }
            _ => Ok(Command { labels: Vec::new(), action: self.repeated(entries)? }),
        }
    }

    fn label(&self, tag: u32, item: &[u32]) -> Decoded<Label> {
        let node = only(item)?;
        node.wants(0, self.stands(tag, node.place)?)?;
        match (tag, node.kind) {
            (CASE, CASE) => Ok(Label::Case(node.place, self.constant(node.parts)?)),
            (DEFAULT, DEFAULT) if node.parts.is_empty() => Ok(Label::Default(node.place)),
            (_, kind) => Err(format!("kind {kind} for a label of tag {tag}")),
        }
    }

    /// A command without labels, and the REPEAT forms after it.
    fn repeated(&self, entries: &[u32]) -> Decoded<Action> {
        let node = only(entries)?;
        if node.kind != REPEATED {
            return self.action(node, entries);
        }
        node.wants(node.value, 0)?;
        let (body, forms) = split(node.parts, node.value as usize)?;
        let forms = items(forms)?;
        if forms.is_empty() {
            return Err("a repeated command has no form".to_string());
        }
        forms.into_iter().try_fold(self.action(only(body)?, body)?, |action, (tag, form)| match tag {
            REPEAT if form.is_empty() => Ok(Action::Repeat(Box::new(action))),
            REPEATWHILE | REPEATUNTIL => Ok(Action::RepeatWhen(tag, Box::new(action), self.expression(form)?)),
            _ => Err(format!("{} entries of tag {tag} for a REPEAT form", form.len())),
        })
    }

    fn action(&self, node: Node, entries: &[u32]) -> Decoded<Action> {
        match node.kind {
            ASSIGN => {
                let (left, right) = split(node.parts, node.place as usize)?;
                let (first, further) = split(left, node.value as usize)?;
                let mut left = vec![self.expression(first)?];
                left.extend(self.expressions(further)?);
                Ok(Action::Assign(left, self.expressions(right)?))
            }
            TEST => {
                node.wants(0, 0)?;
                let (rest, second) = last_entries(node.parts)?;
                let (condition, first) = last_entries(rest)?;
                let (first, second) = (self.command(first)?, self.command(second)?);
                Ok(Action::Test(self.expression(condition)?, Box::new(first), Box::new(second)))
            }
            IF | UNLESS | WHILE | UNTIL => {
                node.wants(0, 0)?;
                let (condition, command) = last_entries(node.parts)?;
                Ok(Action::When(node.kind, self.expression(condition)?, Box::new(self.command(command)?)))
            }
            FOR => {
                node.wants(node.value, 0)?;
                let (rest, command) = last_entries(node.parts)?;
                let step_start = rest.len().checked_sub(node.value as usize).ok_or("a step without its entries")?;
                let (rest, step) = rest.split_at(step_start);
                let step = if step.is_empty() { None } else { Some(self.constant(step)?) };
                let (rest, limit) = last_entries(rest)?;
                let (name, first) = last_entries(rest)?;
                let (first, limit) = (self.expression(first)?, self.expression(limit)?);
                Ok(Action::For(self.name(name)?, first, limit, step, Box::new(self.command(command)?)))
            }
            SWITCHON => {
                node.wants(node.value, 0)?;
                let (value, commands) = split(node.parts, node.value as usize)?;
                Ok(Action::Switch(self.expression(value)?, self.commands(commands)?))
            }
            RESULTIS => {
                node.wants(0, self.stands(RESULTIS, node.place)?)?;
                Ok(Action::Result(node.place, self.expression(node.parts)?))
            }
            BREAK | LOOP | ENDCASE | RETURN | FINISH if node.parts.is_empty() => {
                node.wants(0, self.stands(node.kind, node.place)?)?;
                Ok(Action::Leave(node.kind, node.place))
            }
            BEGIN => {
                node.wants(node.value, 0)?;
                let (locals, commands) = split(node.parts, node.value as usize)?;
                let locals = items(locals)?.into_iter().map(|(tag, item)| self.local(tag, item));
                Ok(Action::Block(locals.collect::<Decoded<_>>()?, self.commands(commands)?))
            }
            CALLED => Ok(Action::Call(self.expression(entries)?)),
            kind => Err(format!("kind {kind} for a command")),
        }
    }

    fn commands(&self, entries: &[u32]) -> Decoded<Vec<Command>> {
        untagged(entries)?.into_iter().map(|item| self.command(item)).collect()
    }

    fn local(&self, tag: u32, item: &[u32]) -> Decoded<Local> {
        let node = only(item)?;
        node.wants(node.value, 0)?;
        let (names, given) = split(node.parts, node.value as usize)?;
        match (tag, node.kind) {
            (LET, VEC) => Ok(Local::Vector(self.name(names)?, self.constant(given)?)),
            (LET, LET) => Ok(Local::Values(self.names(names)?, self.expressions(given)?)),
            (_, kind) => Err(format!("kind {kind} for a local of tag {tag}")),
        }
    }

    fn expressions(&self, entries: &[u32]) -> Decoded<Vec<Expression>> {
        untagged(entries)?.into_iter().map(|item| self.expression(item)).collect()
    }

    fn expression(&self, entries: &[u32]) -> Decoded<Expression> {
        let node = only(entries)?;
        match node.kind {
            NUMBER | STRING | NAME => Ok(Expression::Plain(self.leaf(node)?)),
            OPEN => {
                node.wants(0, self.stands(OPEN, node.place)?)?;
                Ok(Expression::Bracketed(node.place, Box::new(self.expression(node.parts)?)))
            }
            VALOF => {
                node.wants(0, self.stands(VALOF, node.place)?)?;
                Ok(Expression::Valof(node.place, Box::new(self.command(node.parts)?)))
            }
            MONADIC => {
                let place = self.stands(node.value, node.place)?;
                Ok(Expression::Monadic(node.value, place, Box::new(self.expression(node.parts)?)))
            }
            SUFFIXED | CALLED => self.suffixed(node),
            DYADIC => self.dyadic(node),
            kind => Err(format!("kind {kind} for an expression")),
        }
    }

    /// A primary and all its calls and indexes; the kind says whether the last of these is a call.
    fn suffixed(&self, node: Node) -> Decoded<Expression> {
        let (primary, after) = split(node.parts, node.value as usize)?;
        node.wants(node.value, only(primary)?.place)?;
        let suffixes = suffixes(after)?;
        let calls = suffixes.last().is_some_and(|&(tag, _)| tag == OPEN);
        if calls != (node.kind == CALLED) {
            return Err(format!("kind {} for suffixes", node.kind));
        }
        if suffixes.is_empty() || matches!(only(primary)?.kind, MONADIC | SUFFIXED | CALLED | DYADIC) {
            return Err("suffixes that are none, or not of a primary".to_string());
        }
        suffixes.into_iter().try_fold(self.expression(primary)?, |left, (tag, suffix)| match tag {
            OPEN => Ok(Expression::Call(Box::new(left), self.expressions(suffix)?)),
            SHRIEK => Ok(Expression::Dyadic(SHRIEK, Box::new(left), Box::new(self.expression(suffix)?))),
            _ => Err(format!("a suffix has the tag {tag}")),
        })
    }

    /// All the operators of one binding that follow one another.
    fn dyadic(&self, node: Node) -> Decoded<Expression> {
        let (first, operations) = split(node.parts, node.value as usize)?;
        node.wants(node.value, only(first)?.place)?;
        let operations = items(operations)?;
        let bindings = || operations.iter().map(|&(operator, _)| binding(operator));
        let common = bindings().next().flatten().ok_or("operations that are none")?;
        if bindings().any(|binding| binding != Some(common)) || operations_binding(first)? == Some(common) {
            return Err(format!("operators that do not bind as {common}, or not all that do"));
        }
        operations.into_iter().try_fold(self.expression(first)?, |left, (operator, right)| {
            Ok(Expression::Dyadic(operator, Box::new(left), Box::new(self.expression(right)?)))
        })
    }
}

/// The entries of the last node, and what stands before them.
fn last_entries(entries: &[u32]) -> Decoded<(&[u32], &[u32])> {
    let (before, _) = last(entries)?;
    Ok(entries.split_at(before.len()))
}

/// The binding of an expression's own operators, if it has any.
fn operations_binding(entries: &[u32]) -> Decoded<Option<u32>> {
    let node = only(entries)?;
    if node.kind != DYADIC {
        return Ok(None);
    }
    let (_, operations) = split(node.parts, node.value as usize)?;
    Ok(items(operations)?.first().and_then(|&(operator, _)| binding(operator)))
}
