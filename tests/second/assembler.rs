//! The second assembler: MINICODE text to a memory image. It is written from the rules alone and shares nothing with the
//! proved assembler, so that a slip in either shows as a difference. Items are read one by one, laid out as they come,
//! and filled in only when the whole text is known to be good; each rule then stands in one place.

use std::collections::{HashMap, HashSet};

const GLOBALS: usize = 16;
const PROGRAM: usize = 416;
const START_WORDS: [u16; 8] = [5121, 49154, 57366, 57371, 57348, 6146, 57372, 57348];

/// A refusal: its number, its byte place from 0 and its line from 1.
#[derive(Clone, Copy, Debug, PartialEq, Eq)]
pub struct Refusal {
    pub number: u64,
    pub place: usize,
    pub line: usize,
}

/// What the assembler answers. The memory and the label table have the lengths asked for, whatever the answer.
pub struct Assembly {
    pub refusal: Option<Refusal>,
    pub memory: Vec<u16>,
    /// A label's number and its address, in text order, then zeros.
    pub labels: Vec<(u16, u16)>,
    /// The address after the program; 0 when refused.
    pub first_stack_word: u16,
}

/// A refusal's number and place; the line follows from the place.
type Fault = (u64, usize);

pub fn assemble(text: &[u8], memory_len: usize, label_room: usize) -> Assembly {
    let made = lay_out(text, memory_len, label_room).and_then(|layout| {
        let memory = fill_in(&layout, memory_len)?;
        Ok((layout, memory))
    });
    match made {
        Ok((layout, memory)) => {
            let mut labels = layout.labels;
            labels.resize(label_room, (0, 0));
            Assembly { refusal: None, memory, labels, first_stack_word: layout.end as u16 }
        }
        Err((number, place)) => {
            let line = 1 + text[..place].iter().filter(|&&byte| byte == b'\n').count();
            Assembly {
                refusal: Some(Refusal { number, place, line }),
                memory: vec![0; memory_len],
                labels: vec![(0, 0); label_room],
                first_stack_word: 0,
            }
        }
    }
}

enum Operand {
    /// A decimal as written, or a quoted character's code.
    Number(i64),
    Label(i64),
}

enum Item {
    Begin,
    End,
    Label(i64),
    /// The word holds the function and its I, P and G bits.
    Instruction(u16, Operand),
    Data(Operand),
    Text(Vec<u8>),
    Global(i64, i64),
}

/// A good text's items, each with its place in the text and its address in memory.
struct Layout {
    items: Vec<(usize, usize, Item)>,
    labels: Vec<(u16, u16)>,
    end: usize,
}

/// Every fault but 22, which comes only when there is no other.
fn lay_out(text: &[u8], memory_len: usize, label_room: usize) -> Result<Layout, Fault> {
    if !(512..=32768).contains(&memory_len) {
        return Err((24, 0));
    }
    let mut layout = Layout { items: Vec::new(), labels: Vec::new(), end: PROGRAM };
    let mut defined = HashSet::new();
    let mut begun = false;
    let mut place = skip(text, 0);
    while place < text.len() {
        let (item, after) = read_item(text, place).ok_or((20, place))?;
        if matches!(item, Item::Begin) == begun {
            return Err((20, place));
        }
        begun = true;
        if !in_range(&item) {
            return Err((23, place));
        }
        if let Item::Label(label) = item {
            if !defined.insert(label) {
                return Err((21, place));
            }
            if layout.labels.len() == label_room {
                return Err((25, place));
            }
            layout.labels.push((label as u16, layout.end as u16));
        }
        let address = layout.end;
        layout.end += words(&item);
        if layout.end > memory_len {
            return Err((24, place));
        }
        let ended = matches!(item, Item::End);
        layout.items.push((place, address, item));
        place = skip(text, after);
        if ended {
            return if place == text.len() { Ok(layout) } else { Err((20, place)) };
        }
    }
    Err((20, text.len()))
}

/// The memory of a text without other faults, or 22 at the first use of a label that is nowhere defined.
fn fill_in(layout: &Layout, memory_len: usize) -> Result<Vec<u16>, Fault> {
    let addresses: HashMap<u16, u16> = layout.labels.iter().copied().collect();
    let mut memory = vec![0; memory_len];
    memory[..START_WORDS.len()].copy_from_slice(&START_WORDS);
    memory[GLOBALS + 13] = 3;
    memory[GLOBALS + 14] = 5;
    for (place, address, item) in &layout.items {
        let find = |label: i64| addresses.get(&(label as u16)).copied().ok_or((22, *place));
        match item {
            Item::Begin | Item::End | Item::Label(_) => {}
            Item::Instruction(word, Operand::Number(number)) if short(*number) => {
                memory[*address] = word | *number as u16
            }
            Item::Instruction(word, operand) => {
                memory[*address] = word | 512;
                memory[*address + 1] = match operand {
                    Operand::Number(number) => *number as u16,
                    Operand::Label(label) => find(*label)?,
                };
            }
            Item::Data(Operand::Number(number)) => memory[*address] = *number as u16,
            Item::Data(Operand::Label(label)) => memory[*address] = find(*label)?,
            Item::Text(characters) => {
                memory[*address] = (characters.len() as u16) << 8;
                for (index, &character) in characters.iter().enumerate() {
                    let byte = index + 1;
                    let shift = if byte % 2 == 0 { 8 } else { 0 };
                    memory[*address + byte / 2] |= u16::from(character) << shift;
                }
            }
            Item::Global(global, label) => memory[GLOBALS + *global as usize] = find(*label)?,
        }
    }
    Ok(memory)
}

fn short(number: i64) -> bool {
    (0..=511).contains(&number)
}

/// How many program words an item takes.
fn words(item: &Item) -> usize {
    match item {
        Item::Begin | Item::End | Item::Label(_) | Item::Global(..) => 0,
        Item::Instruction(_, Operand::Number(number)) if short(*number) => 1,
        Item::Instruction(..) => 2,
        Item::Data(_) => 1,
        Item::Text(characters) => characters.len() / 2 + 1,
    }
}

/// Whether all of an item's numbers are within their bounds.
fn in_range(item: &Item) -> bool {
    let label_fits = |label: &i64| (1..=32767).contains(label);
    match item {
        Item::Begin | Item::End | Item::Text(_) => true,
        Item::Label(label) => label_fits(label),
        Item::Instruction(_, Operand::Number(number)) | Item::Data(Operand::Number(number)) => {
            (-32768..=65535).contains(number)
        }
        Item::Instruction(_, Operand::Label(label)) | Item::Data(Operand::Label(label)) => label_fits(label),
        Item::Global(global, label) => (0..=399).contains(global) && label_fits(label),
    }
}

/// The first place from `place` on that is no blank, newline or comment.
fn skip(text: &[u8], mut place: usize) -> usize {
    while place < text.len() {
        match text[place] {
            b' ' | b'\n' => place += 1,
            b'/' => {
                while place < text.len() && text[place] != b'\n' {
                    place += 1;
                }
            }
            _ => break,
        }
    }
    place
}

/// The item at a place and the place after it, if it can be read and ends as an item must.
fn read_item(text: &[u8], place: usize) -> Option<(Item, usize)> {
    let mut reader = Reader { text, place };
    let item = reader.item()?;
    let ends = matches!(item, Item::Label(_)) || matches!(reader.peek(), None | Some(b' ' | b'\n' | b'/'));
    ends.then_some((item, reader.place))
}

struct Reader<'a> {
    text: &'a [u8],
    place: usize,
}

impl Reader<'_> {
    fn peek(&self) -> Option<u8> {
        self.text.get(self.place).copied()
    }

    fn next(&mut self) -> Option<u8> {
        let byte = self.peek()?;
        self.place += 1;
        Some(byte)
    }

    fn take(&mut self, wanted: u8) -> bool {
        let found = self.peek() == Some(wanted);
        if found {
            self.place += 1;
        }
        found
    }

    fn item(&mut self) -> Option<Item> {
        if self.peek()?.is_ascii_digit() {
            let label = self.digits()?;
            return self.take(b':').then_some(Item::Label(label));
        }
        let letter = self.next()?;
        match letter {
            b'$' => Some(Item::Begin),
            b'Z' => Some(Item::End),
            b'D' => Some(Item::Data(self.operand()?)),
            b'C' => Some(Item::Text(self.string()?)),
            b'G' => {
                let global = self.digits()?;
                Some(Item::Global(global, self.label_use()?))
            }
            _ => {
                let function = b"LSAJTFKX".iter().position(|&name| name == letter)?;
                let mut word = function as u16 * 8192;
                if self.take(b'I') {
                    word += 4096;
                }
                if self.take(b'P') {
                    word += 2048;
                } else if self.take(b'G') {
                    word += 1024;
                }
                Some(Item::Instruction(word, self.operand()?))
            }
        }
    }

    fn operand(&mut self) -> Option<Operand> {
        match self.peek()? {
            b'L' => Some(Operand::Label(self.label_use()?)),
            b'\'' => {
                self.next();
                let character = self.character(b'\'')?;
                self.take(b'\'').then_some(Operand::Number(i64::from(character)))
            }
            b'-' => {
                self.next();
                Some(Operand::Number(-self.digits()?))
            }
            _ => Some(Operand::Number(self.digits()?)),
        }
    }

    fn label_use(&mut self) -> Option<i64> {
        if self.take(b'L') {
            self.digits()
        } else {
            None
        }
    }

    /// One digit or more. The value stops growing once it is out of every range, since digits may be many.
    fn digits(&mut self) -> Option<i64> {
        let first = self.place;
        let mut value = 0;
        while let Some(digit @ b'0'..=b'9') = self.peek() {
            value = (value * 10 + i64::from(digit - b'0')).min(1_000_000);
            self.place += 1;
        }
        (self.place > first).then_some(value)
    }

    fn digit(&mut self) -> Option<u32> {
        char::from(self.next()?).to_digit(10)
    }

    fn string(&mut self) -> Option<Vec<u8>> {
        if !self.take(b'"') {
            return None;
        }
        let mut characters = Vec::new();
        while !self.take(b'"') {
            characters.push(self.character(b'"')?);
        }
        (characters.len() <= 255).then_some(characters)
    }

    /// One character or escape between quotes; the quote itself needs its escape.
    fn character(&mut self, quote: u8) -> Option<u8> {
        match self.next()? {
            b'*' => match self.next()? {
                b'N' => Some(10),
                b'S' => Some(32),
                b'T' => Some(9),
                b'B' => Some(8),
                b'P' => Some(12),
                b'C' => Some(13),
                itself @ (b'*' | b'\'' | b'"') => Some(itself),
                hundreds @ b'0'..=b'9' => {
                    let (tens, units) = (self.digit()?, self.digit()?);
                    u8::try_from(u32::from(hundreds - b'0') * 100 + tens * 10 + units).ok()
                }
                _ => None,
            },
            byte @ 32..=126 if byte != quote => Some(byte),
            _ => None,
        }
    }
}
