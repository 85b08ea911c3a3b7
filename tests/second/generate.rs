//! Makes texts and images for the comparison. Every case follows from its seed alone, so a case that differs can be made
//! again. Three kinds: good texts, damaged texts, and images to run.

use crate::assembler;
use crate::random::Random;

/// A text to assemble, with the memory length and the label records it is given.
pub struct TextCase {
    pub text: Vec<u8>,
    pub memory_len: usize,
    pub label_room: usize,
}

/// A memory image to run. The output's length is its room, its bytes are what stands there before the run.
pub struct ImageCase {
    pub memory: Vec<u16>,
    pub first: u16,
    pub input: Vec<u8>,
    pub output: Vec<u8>,
    pub budget: u64,
}

const MEMORY_LENGTHS: [usize; 10] = [0, 1, 415, 416, 511, 512, 513, 32768, 32769, 65536];

// ---------------------------------------------------------------------------------------------------------------------
// Good texts

/// A text as items, before blanks and comments come between them.
struct Draft {
    items: Vec<Vec<u8>>,
    /// The numbers of the labels defined, each once.
    labels: Vec<i64>,
    /// How many program words the items take.
    words: usize,
}

pub fn good_text(seed: u64) -> TextCase {
    let mut random = Random::new(seed);
    let draft = draft(&mut random);
    let text = render(&mut random, &draft.items);
    let memory_len = fitting_memory(&mut random, draft.words);
    let label_room = fitting_room(&mut random, draft.labels.len());
    TextCase { text, memory_len, label_room }
}

/// A memory length in which the program fits, often only just.
fn fitting_memory(random: &mut Random, words: usize) -> usize {
    let least = (416 + words).max(512);
    match random.below(8) {
        0 | 1 => least,
        2 => (least + 1).min(32768),
        3 if random.one_in(4) => 32768,
        4 => random.between(least as i64, 32768.min(least as i64 + 2000)) as usize,
        _ => (least + random.below(64)).min(32768),
    }
}

/// A number of label records that is enough, often only just.
fn fitting_room(random: &mut Random, labels: usize) -> usize {
    match random.below(4) {
        0 | 1 => labels,
        2 => labels + 1,
        _ => labels + random.below(40),
    }
}

fn draft(random: &mut Random) -> Draft {
    let size = match random.below(10) {
        0 => random.below(3),
        1 => 40 + random.below(120),
        _ => 1 + random.below(24),
    };
    let mut labels: Vec<i64> = Vec::new();
    let wanted_labels = if random.one_in(12) { 20 + random.below(40) } else { random.below(7) };
    while labels.len() < wanted_labels {
        let number = match random.below(3) {
            0 => random.between(1, 9),
            1 => random.pick(&[1, 2, 255, 256, 399, 400, 499, 511, 512, 32766, 32767]),
            _ => random.between(1, 32767),
        };
        // Few small numbers are to be had, so that a doubled one is simply drawn again.
        if !labels.contains(&number) {
            labels.push(number);
        }
    }
    let mut draft = Draft { items: vec![b"$".to_vec()], labels: labels.clone(), words: 0 };
    for _ in 0..size {
        let (item, words) = good_item(random, &labels);
        draft.items.push(item);
        draft.words += words;
    }
    if let Some(&start) = labels.first() {
        if !random.one_in(4) {
            draft.items.push(format!("G1L{start}").into_bytes());
        }
    }
    for number in labels {
        let zeros = zeros(random);
        let place = 1 + random.below(draft.items.len());
        draft.items.insert(place, format!("{zeros}{number}:").into_bytes());
    }
    draft.items.push(b"Z".to_vec());
    draft
}

/// Leading zeros: mostly none, now and then hundreds.
fn zeros(random: &mut Random) -> String {
    let count = match random.below(40) {
        0 => 1 + random.below(300),
        1 | 2 => 1 + random.below(6),
        _ => 0,
    };
    "0".repeat(count)
}

/// An item and its number of program words.
fn good_item(random: &mut Random, labels: &[i64]) -> (Vec<u8>, usize) {
    match random.below(20) {
        0 | 1 => string_item(random),
        2 | 3 if !labels.is_empty() => {
            let global = match random.below(3) {
                0 => random.pick(&[0, 1, 13, 14, 398, 399]),
                1 => random.between(0, 5),
                _ => random.between(0, 399),
            };
            let item = format!("G{}{global}L{}{}", zeros(random), zeros(random), random.pick(labels));
            (item.into_bytes(), 0)
        }
        4..=6 => {
            let mut item = b"D".to_vec();
            operand(random, labels, &mut item);
            (item, 1)
        }
        _ => {
            let mut item = vec![random.pick(b"LSAJTFKXLSAX")];
            if random.one_in(3) {
                item.push(b'I');
            }
            match random.below(3) {
                0 => item.push(b'P'),
                1 if random.one_in(2) => item.push(b'G'),
                _ => {}
            }
            let words = if item == b"X" && !random.one_in(5) {
                // Mostly acts that are listed, so that the images made from texts run for a while.
                item.extend_from_slice(random.between(1, 35).to_string().as_bytes());
                1
            } else {
                operand(random, labels, &mut item)
            };
            (item, words)
        }
    }
}

/// Writes an operand; the words of an instruction with it.
fn operand(random: &mut Random, labels: &[i64], item: &mut Vec<u8>) -> usize {
    match random.below(10) {
        0..=2 if !labels.is_empty() => {
            item.extend_from_slice(format!("L{}{}", zeros(random), random.pick(labels)).as_bytes());
            2
        }
        3 | 4 => {
            item.push(b'\'');
            character(random, b'\'', item);
            item.push(b'\'');
            1
        }
        _ => {
            let number = match random.below(8) {
                0 => random
                    .pick(&[0, 1, 510, 511, 512, 513, 32767, 32768, 65534, 65535, -1, -2, -511, -512, -32767, -32768]),
                1 => random.between(0, 65535),
                2 => random.between(-32768, -1),
                3 => random.between(0, 511),
                _ => random.between(0, 12),
            };
            let sign = if number < 0 || number == 0 && random.one_in(4) { "-" } else { "" };
            item.extend_from_slice(format!("{sign}{}{}", zeros(random), number.abs()).as_bytes());
            if (0..=511).contains(&number) {
                1
            } else {
                2
            }
        }
    }
}

/// Texts with a character by number: every number of three digits, every byte in the place of each digit, and all of them cut short.
pub fn numbered_texts() -> Vec<TextCase> {
    let mut written: Vec<Vec<u8>> = (0..1000).map(|number| format!("*{number:03}").into_bytes()).collect();
    for byte in 0..=255 {
        written.extend([vec![b'*', byte, b'2', b'5'], vec![b'*', b'1', byte, b'5'], vec![b'*', b'1', b'2', byte]]);
    }
    let mut texts = Vec::new();
    for character in written {
        for (before, after) in [(&b"$ D1 D'"[..], &b"' Z"[..]), (b"$ D1 C\"", b"\" Z"), (b"$ C\"A", b"7\" Z")] {
            let text = [before, &character, after].concat();
            let shortest = before.len();
            texts.extend((shortest..=text.len()).map(|end| text[..end].to_vec()));
        }
    }
    texts.into_iter().map(|text| TextCase { text, memory_len: 512, label_room: 1 }).collect()
}

/// Writes one character or escape, as it stands between the given quotes.
fn character(random: &mut Random, quote: u8, item: &mut Vec<u8>) {
    if random.one_in(4) {
        item.push(b'*');
        item.push(random.pick(b"NSTBPC*'\""));
        return;
    }
    if random.one_in(6) {
        item.extend(format!("*{:03}", random.below(256)).bytes());
        return;
    }
    let byte = if random.one_in(4) { random.pick(b" /'\"$Z:~}") } else { random.between(32, 126) as u8 };
    item.push(if byte == quote || byte == b'*' { b'A' } else { byte });
}

fn string_item(random: &mut Random) -> (Vec<u8>, usize) {
    let length = match random.below(8) {
        0 => random.pick(&[0, 1, 2, 3, 253, 254, 255]),
        1 => random.below(256),
        _ => random.below(16),
    };
    (string_of(random, length), length / 2 + 1)
}

fn string_of(random: &mut Random, length: usize) -> Vec<u8> {
    let mut item = b"C\"".to_vec();
    for _ in 0..length {
        character(random, b'"', &mut item);
    }
    item.push(b'"');
    item
}

/// The items with blanks, newlines and comments between them, before the first and after the last.
fn render(random: &mut Random, items: &[Vec<u8>]) -> Vec<u8> {
    let mut text = Vec::new();
    if random.one_in(3) {
        gap(random, &mut text);
    }
    for (index, item) in items.iter().enumerate() {
        text.extend_from_slice(item);
        let last = index + 1 == items.len();
        // A label needs nothing after it, and nor does the text's end.
        let free = last || item.ends_with(b":");
        if !free || random.one_in(3) {
            gap(random, &mut text);
        }
        if last && random.one_in(6) {
            text.extend_from_slice(b"/ the end");
        }
    }
    text
}

fn gap(random: &mut Random, text: &mut Vec<u8>) {
    let pieces = if random.one_in(4) { 1 + random.below(5) } else { 1 };
    for _ in 0..pieces {
        match random.below(12) {
            0..=7 => text.push(b' '),
            8 | 9 => text.push(b'\n'),
            _ => {
                text.push(b'/');
                for _ in 0..random.below(10) {
                    let byte = if random.one_in(2) { random.pick(b"$Z'\"/:L1* ") } else { random.byte() };
                    text.push(if byte == b'\n' { b'.' } else { byte });
                }
                text.push(b'\n');
            }
        }
    }
}

// ---------------------------------------------------------------------------------------------------------------------
// Damaged texts

pub fn damaged_text(seed: u64) -> TextCase {
    let mut random = Random::new(seed);
    if random.one_in(25) {
        return text_without_plan(&mut random);
    }
    let mut draft = draft(&mut random);
    let mut memory_len = fitting_memory(&mut random, draft.words + 8);
    let mut label_room = fitting_room(&mut random, draft.labels.len() + 1);
    let faults = if random.one_in(3) { 2 + random.below(4) } else { 1 };
    let mut byte_faults = 0;
    for _ in 0..faults {
        match random.below(20) {
            0..=10 => damage_items(&mut random, &mut draft),
            11 | 12 => {
                let least = (416 + draft.words).max(512);
                memory_len = match random.below(6) {
                    0 => random.pick(&MEMORY_LENGTHS),
                    1 => {
                        fill(&mut random, &mut draft);
                        memory_len
                    }
                    2 => 512,
                    _ => (least - 1 - random.below(3)).clamp(512, 32768),
                };
            }
            13 | 14 => {
                if draft.labels.is_empty() {
                    insert(&mut random, &mut draft, b"77:".to_vec());
                    draft.labels.push(77);
                }
                label_room = random.below(draft.labels.len());
            }
            _ => byte_faults += 1,
        }
    }
    let mut text = render(&mut random, &draft.items);
    for _ in 0..byte_faults {
        damage_bytes(&mut random, &mut text);
    }
    TextCase { text, memory_len, label_room }
}

/// A text of no plan at all, from the letters of MINICODE or from all bytes.
fn text_without_plan(random: &mut Random) -> TextCase {
    let length = random.below(40);
    let mut text = if random.one_in(5) { Vec::new() } else { b"$ ".to_vec() };
    for _ in 0..length {
        let byte = if random.one_in(60) {
            random.byte()
        } else {
            random.pick(b"$Z  \n LSAJTFKXDIPGC0123456789:::'\"*-/LLL111   ")
        };
        text.push(byte);
    }
    TextCase { text, memory_len: random.pick(&MEMORY_LENGTHS[4..9]), label_room: random.below(4) }
}

/// Puts an item between `$` and `Z`, wherever these stand.
fn insert(random: &mut Random, draft: &mut Draft, item: Vec<u8>) {
    let last = draft.items.len().saturating_sub(1);
    let place = if last == 0 { draft.items.len() } else { 1 + random.below(last) };
    draft.items.insert(place, item);
}

/// Enough strings for any memory, or for a small one.
fn fill(random: &mut Random, draft: &mut Draft) {
    let strings = if random.one_in(20) { 253 + random.below(3) } else { 1 + random.below(6) };
    let item = string_of(random, 255);
    for _ in 0..strings {
        insert(random, draft, item.clone());
        draft.words += 128;
    }
}

fn damage_items(random: &mut Random, draft: &mut Draft) {
    let hundreds = |random: &mut Random| {
        let digits = 5 + random.below(400);
        (0..digits).map(|_| char::from(b'1' + random.below(9) as u8)).collect::<String>()
    };
    match random.below(16) {
        0 => draft.items.retain(|item| item != b"$"),
        1 => insert(random, draft, b"$".to_vec()),
        2 => draft.items.retain(|item| item != b"Z"),
        3 => insert(random, draft, b"Z".to_vec()),
        4 => {
            let after = random.pick(&["Z", "$", "L1", "1:", "\t", "x", "\"", "Z Z"]);
            draft.items.push(after.as_bytes().to_vec());
        }
        5 | 6 => {
            // A label twice.
            let number = if draft.labels.is_empty() { 5 } else { random.pick(&draft.labels) };
            insert(random, draft, format!("{number}:").into_bytes());
            if draft.labels.is_empty() {
                insert(random, draft, format!("0{number}:").into_bytes());
            }
            draft.labels.push(number);
        }
        7 | 8 => {
            // A label that is used and nowhere defined.
            let number = random.between(10_000, 20_000);
            let item = random.pick(&["JL", "LIL", "SPL", "DL", "G7L", "G1L", "KIGL"]);
            insert(random, draft, format!("{item}{number}").into_bytes());
            draft.words += 2;
        }
        9 => {
            let labelled: Vec<usize> =
                (0..draft.items.len()).filter(|&index| draft.items[index].ends_with(b":")).collect();
            if !labelled.is_empty() {
                draft.items.remove(random.pick(&labelled));
            }
        }
        10 => {
            let number = if random.one_in(3) {
                hundreds(random)
            } else {
                random.pick(&["0", "000", "32768", "65536", "65537"]).to_string()
            };
            let item = match random.below(4) {
                0 => format!("{number}:"),
                1 => format!("JL{number}"),
                2 => format!("DL{number}"),
                _ => format!("G3L{number}"),
            };
            insert(random, draft, item.into_bytes());
        }
        11 => {
            let letter = random.pick(&["L", "D", "XIP", "KG"]);
            let item = match random.below(5) {
                0 => format!("{letter}{}", hundreds(random)),
                1 => format!("{letter}-{}", hundreds(random)),
                2 => format!("{letter}{}", random.pick(&["65536", "065536", "-32769", "65545", "-65536"])),
                3 => format!("G{}L1", random.pick(&["400", "0400", "65535", "65536", "511"])),
                _ => format!("G{}L1", hundreds(random)),
            };
            insert(random, draft, item.into_bytes());
        }
        12 => {
            let length = 256 + random.below(3) * random.below(30);
            let item = string_of(random, length);
            insert(random, draft, item);
        }
        13 => {
            let item = random.pick(&[
                "DI5", "DP1", "D", "L", "SI", "LIPG1", "LPI1", "L-", "L--1", "L+1", "X+", "XR", "C", "C5", "C'A'",
                "L\"A\"", "L''", "L'''", "L'*'", "L'AB'", "L'*Q'", "L'*", "L'\n'", "C\"*Q\"", "C\"\n\"", "C\"A\"B",
                "G1", "GL1", "G1L", "G-1L2", "G1L-2", "G1 L2", "JL", "JL-5", "-5:", "5", "5 :", "5/:", ":", "::", "H1",
                "l1", "\t", "\r", "LIP2:", "L1L2", "L1\t", "ZZ", "Z$", "$Z", "L99999x", "0x:", "DL0x", "IP2", "P2",
                "L'\u{7f}'", "L'\u{1f}'", "C\"\u{7f}\"", "C\"\u{80}\"",
            ]);
            insert(random, draft, item.as_bytes().to_vec());
        }
        14 => {
            // Two items without anything between them.
            if draft.items.len() >= 2 {
                let first = random.below(draft.items.len() - 1);
                let second = draft.items.remove(first + 1);
                draft.items[first].extend_from_slice(&second);
            }
        }
        _ => {
            let (one, other) = (random.below(draft.items.len().max(1)), random.below(draft.items.len().max(1)));
            if !draft.items.is_empty() {
                draft.items.swap(one, other);
            }
        }
    }
}

fn damage_bytes(random: &mut Random, text: &mut Vec<u8>) {
    if text.is_empty() {
        return;
    }
    let place = random.below(text.len());
    match random.below(8) {
        0 => {
            let end = (place + 1 + random.below(3)).min(text.len());
            text.drain(place..end);
        }
        1 => text.insert(place, text[place]),
        2 | 3 => text[place] = random.byte(),
        4 => text.insert(place, random.byte()),
        5 => text.truncate(place),
        6 => {
            // Cut just after a byte of one sort, so that every half-read form meets the end.
            let sort = random.pick(b"$Z'\"*-L:GCDIP/X\n");
            let places: Vec<usize> = (0..text.len()).filter(|&index| text[index] == sort).collect();
            if !places.is_empty() {
                let cut = random.pick(&places);
                text.truncate(cut + 1);
            }
        }
        _ => {
            text.truncate(place);
            let tail = random.pick(&[
                " L'", " L'A", " L'*", " L'*N", " C\"", " C\"AB", " C\"*", " D-", " JL", " G1L", " 12", " /", " C",
                " LI", " Z", "Z'",
            ]);
            text.extend_from_slice(tail.as_bytes());
        }
    }
}

// ---------------------------------------------------------------------------------------------------------------------
// Images

/// Words where sums, signs and shifts turn over.
const TURNS: [u16; 16] = [0, 1, 2, 7, 10, 15, 16, 17, 255, 256, 32767, 32768, 32769, 65533, 65534, 65535];

pub fn image(seed: u64) -> ImageCase {
    let mut random = Random::new(seed);
    let input_len = random.pick(&[0, 0, 1, 2, 5, 300]);
    let output_len = random.pick(&[0, 0, 1, 2, 3, 10, 300]);
    let input = random.bytes(input_len);
    let output = random.bytes(output_len);
    let len = memory_len(&mut random);
    let mut image = ImageCase { memory: vec![0; len], first: 0, input, output, budget: 0 };
    image.first = stack(&mut random, len);
    image.budget = match random.below(16) {
        0 => 0,
        1 => 1,
        2 | 3 => random.between(2, 12) as u64,
        4..=7 => random.between(10, 400) as u64,
        _ => random.between(400, 4000) as u64,
    };
    match random.below(16) {
        0 => image.memory.fill_with(|| random.word()),
        1..=4 => likely_code(&mut random, &mut image),
        5..=7 => assembled(&mut random, &mut image),
        8..=10 => single_acts(&mut random, &mut image),
        11 | 12 => switches(&mut random, &mut image),
        13 => calls(&mut random, &mut image),
        14 => memory_end(&mut random, &mut image),
        _ => copier(&mut random, &mut image),
    }
    if random.one_in(25) {
        let len = random.pick(&[0, 1, 2, 415, 416, 510, 511, 32769, 32770, 40000, 65535, 65536, 65537]);
        image.memory.resize(len, 57366);
    }
    image
}

fn memory_len(random: &mut Random) -> usize {
    match random.below(20) {
        0..=7 => 512,
        8 => 513,
        9 => 32768,
        10 => 32767,
        11 => random.between(512, 32768) as usize,
        _ => random.between(512, 1100) as usize,
    }
}

/// A first stack word: mostly one with room above it, else any at all.
fn stack(random: &mut Random, len: usize) -> u16 {
    match random.below(8) {
        0 => random.word(),
        1 => random.pick(&TURNS),
        2 => (len - 4 + random.below(7)) as u16,
        3 => random.below(len) as u16,
        4 | 5 => (len - 96 + random.below(60)) as u16,
        _ => (len / 2 + random.below(40)) as u16,
    }
}

/// An address: one in `wild` is far away or at the memory's end, the others are in the code or anywhere in the memory.
fn address(random: &mut Random, len: usize, wild: usize) -> u16 {
    if random.one_in(wild) {
        return match random.below(3) {
            0 => random.word(),
            1 => (len - 3 + random.below(6)) as u16,
            _ => random.pick(&TURNS),
        };
    }
    let bound = if random.one_in(2) { 64 } else { len };
    random.below(bound) as u16
}

/// Writes one likely instruction at a place, or two of which the first sets A for the second. Answers how many words it
/// took. The larger `wild`, the longer such code runs.
fn instruction(random: &mut Random, memory: &mut [u16], place: usize, wild: usize) -> usize {
    let len = memory.len();
    let function = random.pick(&[0, 0, 0, 1, 2, 3, 4, 5, 6, 7, 7, 7, 7]);
    let mut word = function * 8192;
    let mut operand = match function {
        7 => act_number(random, wild),
        6 => random.below(12) as u16,
        0 | 2 if random.one_in(2) => random.pick(&TURNS),
        _ => address(random, len, wild),
    };
    // K goes to A, act 1 reads at A.
    let needs_address = function == 6 || function == 7 && operand == 1;
    let mut words = 0;
    if needs_address && place + 2 < len && !random.one_in(wild) {
        memory[place] = 512;
        memory[place + 1] = address(random, len, wild);
        words = 2;
    }
    match random.below(if function >= 6 { 40 } else { 8 }) {
        0 => word += 4096,
        1 => {
            word += random.pick(&[2048, 4096 + 2048]);
            operand = random.below(12) as u16;
        }
        2 => {
            word += random.pick(&[1024, 4096 + 1024]);
            operand = random.below(30) as u16;
        }
        3 if random.one_in(3) => {
            word += 2048 + 1024 + random.pick(&[0, 4096]);
            // The sum wraps back to a small address now and then.
            operand = if random.one_in(2) { 65000u16.wrapping_add(random.below(600) as u16) } else { operand };
        }
        _ => {}
    }
    if operand <= 511 && !random.one_in(10) {
        memory[place + words] = word + operand;
        return words + 1;
    }
    // With D the address bits mean nothing, whatever they hold.
    memory[place + words] = word + 512 + if random.one_in(4) { random.below(512) as u16 } else { 0 };
    if place + words + 1 < len {
        memory[place + words + 1] = operand;
    }
    words + 2
}

/// An X number: one in `wild` any at all, the others listed ones.
fn act_number(random: &mut Random, wild: usize) -> u16 {
    if random.one_in(wild) {
        return if random.one_in(4) { random.word() } else { random.below(36) as u16 };
    }
    match random.below(40) {
        0 => 22,
        1 => 23,
        2..=5 => random.pick(&[27, 28]),
        6..=9 => 4,
        _ => random.pick(&[1, 2, 3, 5, 6, 7, 8, 9, 10, 11, 12, 13, 14, 15, 16, 17, 18, 19]),
    }
}

/// Likely instructions all over the memory, or from 0 to some place.
fn likely_code(random: &mut Random, image: &mut ImageCase) {
    let len = image.memory.len();
    let end = if random.one_in(2) { len } else { 1 + random.below(200) };
    let wild = random.pick(&[12, 60, 1000]);
    if random.one_in(4) {
        image.memory.fill_with(|| random.word());
    }
    let mut place = 0;
    while place < end.min(len) {
        place += instruction(random, &mut image.memory, place, wild);
    }
}

/// Code from a random good text, run as the assembler leaves it or from another stack word.
fn assembled(random: &mut Random, image: &mut ImageCase) {
    let draft = draft(random);
    let len = image.memory.len().max(416 + draft.words).min(32768);
    let text = render(random, &draft.items);
    let assembly = assembler::assemble(&text, len, draft.labels.len());
    image.memory = assembly.memory;
    if !random.one_in(4) {
        image.first = assembly.first_stack_word;
    }
}

/// Values into B and A, then an act, over and over, each result stored.
fn single_acts(random: &mut Random, image: &mut ImageCase) {
    let mut code = Vec::new();
    let value = |random: &mut Random| if random.one_in(2) { random.pick(&TURNS) } else { random.word() };
    let chain = 1 + random.below(40);
    for index in 0..chain {
        let small = random.one_in(3);
        for _ in 0..2 {
            let value = if small { random.below(20) as u16 } else { value(random) };
            code.extend([512, value]);
        }
        let number = match random.below(12) {
            0 => random.below(36) as u16,
            1 => random.pick(&[36, 64, 255, 511, 512, 1000, 32768, 65535]),
            _ => random.pick(&[2, 3, 5, 6, 7, 8, 9, 10, 11, 12, 13, 14, 15, 16, 17, 18, 19]),
        };
        if number > 511 || random.one_in(6) {
            code.extend([57344 + 512, number]);
        } else {
            code.push(57344 + number);
        }
        code.push(8192 + 300 + index as u16);
    }
    code.push(if random.one_in(8) { random.word() } else { 57366 });
    image.memory[..code.len()].copy_from_slice(&code);
}

/// Switches with tables short and long, near and past the memory's end.
fn switches(random: &mut Random, image: &mut ImageCase) {
    let len = image.memory.len();
    let pairs = random.below(8);
    let value = random.below(10) as u16;
    let mut code = vec![57367];
    let said = match random.below(8) {
        0 => random.word(),
        1 => 65535,
        2 => (pairs + 1 + random.below(400)) as u16,
        _ => pairs as u16,
    };
    code.push(said);
    code.push(address(random, len, 4));
    for _ in 0..pairs {
        code.push(if random.one_in(3) { value } else { random.below(10) as u16 });
        code.push(address(random, len, 4));
    }
    let whole = code.len();
    let place = match random.below(3) {
        0 => len - 1 - random.below(whole),
        1 => len - whole,
        _ => 3 + random.below(300),
    };
    if random.one_in(2) {
        // The rest of the memory never equals the value, so a long table is read to the end.
        image.memory.fill(value + 1);
    }
    for (index, word) in code.into_iter().enumerate() {
        if place + index < len {
            image.memory[place + index] = word;
        }
    }
    image.memory[..3].copy_from_slice(&[value, 24576 + 512, place as u16]);
}

/// Calls that go up the stack until it meets the memory's end, with returns between.
fn calls(random: &mut Random, image: &mut ImageCase) {
    let len = image.memory.len();
    let mut code = Vec::new();
    for _ in 0..1 + random.below(12) {
        let (target, step) = (random.below(30) as u16, random.below(9) as u16);
        match random.below(8) {
            0 => code.push(57348),
            1 => code.extend([49152 + 512, address(random, len, 3).wrapping_sub(image.first)]),
            2 => code.extend([512, address(random, len, 4)]),
            3 => code.extend([49152 + 2048 + step, 57348]),
            _ => code.extend([target, 49152 + step]),
        }
    }
    code.push(random.pick(&[57348, 57366, 24576]));
    image.memory[..code.len()].copy_from_slice(&code);
    if random.one_in(3) {
        image.first = (len - 2 - random.below(40)) as u16;
    }
}

/// Jumps to the last words of the memory, to its length, and to where C would wrap.
fn memory_end(random: &mut Random, image: &mut ImageCase) {
    let len = image.memory.len();
    let target = match random.below(3) {
        0 => (len - 1 - random.below(4)) as u16,
        1 => random.pick(&[len as u16, 65535, 65534, 32768]),
        _ => address(random, len, 4),
    };
    let load = [random.pick(&[512, 4096 + 512]), address(random, len, 4)];
    image.memory[..2].copy_from_slice(&load);
    let jump = random.pick(&[3, 4, 5]) * 8192;
    image.memory[2..4].copy_from_slice(&[jump + 512, target]);
    for place in [4, 5, 6, 7] {
        instruction(random, &mut image.memory, place, 6);
    }
    for place in len - 4..len {
        instruction(random, &mut image.memory, place, 6);
    }
}

/// Copies input to output: X27 A1 F7 A-1 X28 J0 X22, one word each but A-1. It ends by itself, so any budget will do.
fn copier(random: &mut Random, image: &mut ImageCase) {
    image.memory[..8].copy_from_slice(&[57371, 16385, 40967, 16896, 65535, 57372, 24576, 57366]);
    if random.one_in(3) {
        image.budget = u64::MAX - random.below(2) as u64;
    }
}
