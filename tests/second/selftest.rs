//! Hand-checked answers of the second program: what the rules and their readings say in so many words.
//! Built with `rustc --test`.

mod assembler;
mod grammar;
mod machine;
mod postfix;
mod symbols;

use assembler::{assemble, Assembly};
use grammar::read_source;
use machine::{resume, run, Ran, Registers, Store};
use std::path::{Path, PathBuf};
use symbols::{compared, kind::*, read_symbols, Refusal, Symbol};

const PROGRAM: usize = 416;

fn accepted(text: &str) -> Assembly {
    let assembly = assemble(text.as_bytes(), 1024, 64);
    assert_eq!(assembly.refusal, None, "{text:?}");
    assembly
}

/// The program words of an accepted text.
fn words(text: &str) -> Vec<u16> {
    let assembly = accepted(text);
    let end = usize::from(assembly.first_stack_word);
    assert!(assembly.memory[end..].iter().all(|&word| word == 0));
    assembly.memory[PROGRAM..end].to_vec()
}

/// A refusal's number, place and line, memory and table being zeros as they must.
fn refused_in(text: &[u8], memory_len: usize, label_room: usize) -> (u64, usize, usize) {
    let assembly = assemble(text, memory_len, label_room);
    let refusal = assembly.refusal.unwrap_or_else(|| panic!("accepted {:?}", text.escape_ascii().to_string()));
    assert_eq!(assembly.memory, vec![0; memory_len]);
    assert_eq!(assembly.labels, vec![(0, 0); label_room]);
    assert_eq!(assembly.first_stack_word, 0);
    (refusal.number, refusal.place, refusal.line)
}

fn refused(text: &str) -> (u64, usize, usize) {
    refused_in(text.as_bytes(), 1024, 64)
}

/// Runs program words that stand at 0, in 512 words of memory with the stack at 100.
fn ran(words: &[u16], input: &[u8], room: usize, budget: u64) -> (Ran, Vec<u16>, Vec<u8>) {
    let mut memory = vec![0; 512];
    memory[..words.len()].copy_from_slice(words);
    let mut output = vec![170; room];
    let ran = run(&mut memory, 100, input, &mut output, budget);
    (ran, memory, output)
}

/// A after `B act A`.
fn act(number: u16, b: u16, a: u16) -> u16 {
    let (ran, _, _) = ran(&[512, b, 512, a, 57344 + number, 57366], &[], 0, 100);
    assert_eq!((ran.stop, ran.count, ran.registers.b), (30, 4, b), "act {number}");
    ran.registers.a
}

#[test]
fn proved_table() {
    assert_eq!(words("$ LIP2 Z"), [6146]);
    assert_eq!(words("$ K4 Z"), [49156]);
    assert_eq!(words("$ A-1 Z"), [16896, 65535]);
    assert_eq!(words("$ C\"HELLO\" Z"), [1352, 17740, 19535]);
    assert_eq!((act(6, 7, 65534), act(7, 7, 65534)), (65533, 1));
    let (stopped, _, _) = ran(&[57366], &[], 0, 0);
    assert_eq!((stopped.stop, stopped.count), (31, 0));
}

#[test]
fn start_words_and_globals() {
    let assembly = accepted("$ 5:X22 G1L5 G399L5 G0L7 7:Z");
    assert_eq!(assembly.memory[..8], [5121, 49154, 57366, 57371, 57348, 6146, 57372, 57348]);
    assert_eq!(assembly.memory[8..16], [0; 8]);
    assert_eq!(assembly.memory[16..18], [417, 416]);
    assert_eq!((assembly.memory[29], assembly.memory[30], assembly.memory[415]), (3, 5, 416));
    assert_eq!(assembly.labels[..3], [(5, 416), (7, 417), (0, 0)]);
    assert_eq!(assembly.first_stack_word, 417);
    // The start words are LIG1 K2 X22, X27 X4 and LIP2 X28 X4, as they assemble themselves.
    assert_eq!(words("$ LIG1 K2 X22 X27 X4 LIP2 X28 X4 Z"), assembly.memory[..8]);
    // The last G for a number counts, over the start's own too.
    let again = accepted("$ G14L2 G14L1 1:D0 2:D0 Z");
    assert_eq!(again.memory[30], 416);
}

#[test]
fn operands() {
    assert_eq!(words("$ L511 L512 L0 L-0 L65535 L-32768 Z"), [511, 512, 512, 0, 0, 512, 65535, 512, 32768]);
    assert_eq!(words("$ SIG000000000000000000000000000007 Z"), [8192 + 4096 + 1024 + 7]);
    assert_eq!(words("$ D-1 D'A' D65535 D00 DL3 3:Z"), [65535, 65, 65535, 0, 421]);
    assert_eq!(words("$ 3:JIPL3 Z"), [24576 + 4096 + 2048 + 512, 416]);
    assert_eq!(
        words("$ L' ' L'/' L'\"' D'*N' D'*S' D'*T' D'*B' D'*P' D'*C' D'**' D'*'' D'*\"' Z"),
        [32, 47, 34, 10, 32, 9, 8, 12, 13, 42, 39, 34]
    );
    assert_eq!(words("$ C\"*000*255*0651\" D'*200' L'*010' Z"), [4 * 256, 255 * 256 + 65, 49 * 256, 200, 10]);
    assert_eq!(words("$ C\"\" C\"/ '*\"\" Z"), [0, 4 * 256 + 47, 32 * 256 + 39, 34 * 256]);
    let longest = format!("$ C\"{}\" Z", "*N".repeat(255));
    assert_eq!(words(&longest), [vec![255 * 256 + 10], vec![2570; 127]].concat());
}

#[test]
fn reading_m7_begin_and_end() {
    assert!(accepted("/ $ Z\n \n $/\nZ/").first_stack_word == 416);
    assert!(accepted("$ Z \n/ after").first_stack_word == 416);
    assert_eq!(refused(""), (20, 0, 1));
    assert_eq!(refused(" /x\n\n"), (20, 5, 3));
    assert_eq!(refused("$"), (20, 1, 1));
    assert_eq!(refused("$ D1\n"), (20, 5, 2));
    assert_eq!(refused("\nD1 $ Z"), (20, 1, 2));
    assert_eq!(refused("1:$ Z"), (20, 0, 1));
    assert_eq!(refused("$ $ Z"), (20, 2, 1));
    assert_eq!(refused("$$ Z"), (20, 0, 1));
    assert_eq!(refused("$1:Z"), (20, 0, 1));
    assert_eq!(refused("$ Z1"), (20, 2, 1));
    assert_eq!(refused("$ JL9 Z Z"), (20, 8, 1));
    assert_eq!(refused("$ JL9 Z\n/ and\n\t"), (20, 14, 3));
}

#[test]
fn reading_m7a_m8_unreadable_items() {
    for item in [
        "DI5", "DP1", "DG1", "D", "L", "LI", "LIPG1", "LPI1", "L-", "L--1", "L+1", "L1-", "X+", "XR", "C", "C5",
        "CHELLO", "CI\"A\"", "L''", "L'''", "L'*'", "L'A", "L'AB'", "L'*Q'", "L'*n'", "L'\t'", "L'\x7f'", "L'A'B",
        "C\"", "C\"A", "C\"*\"", "C\"*q\"", "C\"\n\"", "C\"A\"B", "G1", "GL1", "G1L", "G-1L2", "G1L-2", "G1 L2", "JL",
        "JL-5", "JLA", "-5:", "5", "5 :", "5/:", ":", "H1", "l1", "LIP2\t", "\t", "\r", "LIP2:", "LIP2$", "LIP2Z",
        "L99999x", "L1L2",
    ] {
        assert_eq!(refused(&format!("$\n{item} Z")), (20, 2, 2), "{item:?}");
    }
    let too_long = format!("$ C\"{}\" Z", "A".repeat(256));
    assert_eq!(refused(&too_long), (20, 2, 1));
    assert_eq!(refused_in(b"$ \xff Z", 512, 0), (20, 2, 1));
    assert_eq!(refused_in(b"$ C\"\x80\" Z", 512, 0), (20, 2, 1));
    assert_eq!(words("$ D'/' / not '/' \n D' ' Z"), [47, 32]);
}

#[test]
fn reading_m9_m10_order() {
    // One item: 23 before 25, 21 before 25, 23 before 24.
    assert_eq!(refused_in(b"$ 1: 0: Z", 512, 1), (23, 5, 1));
    assert_eq!(refused_in(b"$ 1: 1: Z", 512, 1), (21, 5, 1));
    assert_eq!(refused_in(b"$ 1: 2: Z", 512, 1), (25, 5, 1));
    assert_eq!(refused_in(b"$ 1: Z", 512, 0), (25, 2, 1));
    let full = format!("$ C\"{}\" C\"{}\"", "A".repeat(181), "A".repeat(8));
    assert_eq!(refused_in(format!("{full} D65536 Z").as_bytes(), 512, 0), (23, full.len() + 1, 1));
    assert_eq!(refused_in(format!("{full} D65535 Z").as_bytes(), 512, 0), (24, full.len() + 1, 1));
    assert_eq!(refused_in(format!("{full} D6553A Z").as_bytes(), 512, 0), (20, full.len() + 1, 1));
    // A program may fill the memory, and a label may stand at its end.
    let assembly = assemble(format!("{full} 9:Z").as_bytes(), 512, 1);
    assert_eq!((assembly.refusal, assembly.first_stack_word), (None, 512));
    assert_eq!(assembly.labels, [(9, 512)]);
    // 22 last, at the first use, G items too.
    assert_eq!(refused("$ JL1 D65536 Z"), (23, 6, 1));
    assert_eq!(refused("$ D1\nDL2 JL1 1:Z"), (22, 5, 2));
    assert_eq!(refused("$ G1L2 JL3 G1L1 1:Z"), (22, 2, 1));
    assert_eq!(refused("$ JL1"), (20, 5, 1));
    // The memory's length comes before all else.
    for memory_len in [0, 1, 415, 416, 511, 32769, 65536] {
        assert_eq!(refused_in(b"\n\n?", memory_len, 3), (24, 0, 1));
    }
    assert_eq!(refused_in(b"\n\n?", 512, 3), (20, 2, 3));
    assert_eq!(refused_in(b"\n\n?", 32768, 3), (20, 2, 3));
}

#[test]
fn reading_m10a_ranges() {
    for item in [
        "JL0",
        "DL40000",
        "G400L1",
        "G1L0",
        "G1L32768",
        "0:",
        "32768:",
        "99999999999999999999999999:",
        "L65536",
        "L-32769",
        "D65536",
        "D-32769",
        "X-99999999999999999999999999",
        "JL32768",
        "G65536L1",
    ] {
        assert_eq!(refused(&format!("$ {item} 1:Z")), (23, 2, 1), "{item:?}");
    }
    assert_eq!(words("$ 32767:0001:JL1 JL32767 Z"), [25088, 416, 25088, 416]);
}

#[test]
fn reading_m1_to_m5_acts() {
    assert_eq!(act(2, 9, 1), 65535);
    assert_eq!(act(2, 9, 32768), 32768);
    assert_eq!(act(3, 9, 1), 65534);
    assert_eq!(act(5, 300, 300), 24464);
    assert_eq!((act(6, 32768, 65535), act(7, 32768, 65535)), (32768, 0));
    assert_eq!((act(6, 65529, 5), act(7, 65529, 5)), (65535, 65534));
    assert_eq!((act(8, 65535, 2), act(9, 1, 2)), (1, 65535));
    assert_eq!((act(10, 5, 5), act(11, 5, 5), act(10, 5, 6), act(11, 5, 6)), (65535, 0, 0, 65535));
    // Relations are signed: -1 against 1.
    assert_eq!((act(12, 65535, 1), act(13, 65535, 1), act(14, 65535, 1), act(15, 65535, 1)), (65535, 0, 0, 65535));
    assert_eq!((act(12, 1, 1), act(13, 1, 1), act(14, 1, 1), act(15, 1, 1)), (0, 65535, 0, 65535));
    assert_eq!((act(16, 65535, 15), act(16, 65535, 16), act(16, 65535, 65535)), (32768, 0, 0));
    assert_eq!((act(17, 65535, 15), act(17, 65535, 16), act(17, 65535, 65535)), (1, 0, 0));
    assert_eq!((act(18, 6, 3), act(19, 6, 3)), (2, 7));
    assert_eq!(act(1, 9, 2), 512);
}

#[test]
fn reading_m3_calls() {
    // L 400, K near the memory's end: 510 and 511 hold the link, 511 alone stores nothing.
    let (called, memory, _) = ran(&[400, 49152 + 410], &[], 0, 2);
    assert_eq!((called.stop, called.count, called.registers.p, called.registers.c), (31, 2, 510, 400));
    assert_eq!(memory[510..], [100, 2]);
    let (half, memory, _) = ran(&[400, 49152 + 411], &[], 0, 2);
    assert_eq!((half.stop, half.count, half.registers.p, half.registers.c), (32, 1, 100, 1));
    assert_eq!(memory[510..], [0, 0]);
    // A return takes C from P+1 and P from P.
    let (back, _, _) = ran(&[3, 49154, 57366, 57348], &[], 0, 9);
    assert_eq!((back.stop, back.count, back.registers.p, back.registers.c), (30, 4, 100, 3));
}

#[test]
fn reading_m4_switch() {
    // Equal at the second pair; the first number's address word is never read.
    let (second, _, _) = ran(&[7, 57367, 2, 50, 6, 60, 7, 70], &[], 0, 2);
    assert_eq!((second.stop, second.registers.c, second.registers.a), (31, 70, 7));
    let (other, _, _) = ran(&[8, 57367, 2, 50, 6, 60, 7, 70], &[], 0, 2);
    assert_eq!((other.stop, other.registers.c), (31, 50));
    let (none, _, _) = ran(&[8, 57367, 0, 50, 8, 60], &[], 0, 2);
    assert_eq!((none.stop, none.registers.c), (31, 50));
    // A table at the memory's end: an address past it matters only when it is read.
    let end = |value: u16, tail: &[u16]| {
        let mut memory = vec![0; 512];
        memory[..3].copy_from_slice(&[value, 25088, 512 - tail.len() as u16]);
        memory[512 - tail.len()..].copy_from_slice(tail);
        let ran = run(&mut memory, 0, &[], &mut [], 3);
        (ran.stop, ran.count, ran.registers.c)
    };
    assert_eq!(end(7, &[57367, 1, 5, 7]), (32, 2, 508));
    assert_eq!(end(8, &[57367, 1, 5, 7]), (31, 3, 5));
    assert_eq!(end(8, &[57367, 2, 5, 7]), (32, 2, 508));
    assert_eq!(end(8, &[57367, 0]), (32, 2, 510));
    assert_eq!(end(8, &[57367]), (32, 2, 511));
}

#[test]
fn reading_m6_input_and_output() {
    let (read, _, _) = ran(&[57371, 57371, 57371, 57366], &[200, 7], 0, 9);
    assert_eq!((read.stop, read.count, read.taken, read.registers.a, read.registers.b), (30, 4, 2, 65535, 0));
    let (wrote, _, output) = ran(&[512, 0x1241, 57372, 57372, 57372], &[], 3, 3);
    assert_eq!((wrote.stop, wrote.written, output.as_slice()), (31, 2, [0x41, 0x41, 170].as_slice()));
    let (full, _, output) = ran(&[66, 57372, 57372], &[], 1, 9);
    assert_eq!((full.stop, full.count, full.written, full.registers.c), (35, 2, 1, 2));
    assert_eq!(output, [66]);
}

#[test]
fn reading_m6a_m10b_stops() {
    let start = Registers { a: 0, b: 0, c: 0, p: 9, g: 16, last_store: Store::default() };
    for memory_len in [0, 1, 511, 32769] {
        let mut memory = vec![57372; memory_len];
        let mut output = [170; 4];
        let ran = run(&mut memory, 9, b"in", &mut output, 5);
        assert_eq!(ran, Ran { stop: 24, count: 0, taken: 0, written: 0, registers: start });
        assert_eq!((memory, output), (vec![57372; memory_len], [170; 4]));
    }
    // The jump past the memory is done and counted; the next fetch stops.
    let (jumped, _, _) = ran(&[25088, 512], &[], 0, 9);
    assert_eq!((jumped.stop, jumped.count, jumped.registers.c), (32, 1, 512));
    // A zero divisor and an unknown act leave the registers before the instruction.
    let (zero, _, _) = ran(&[5, 0, 57350], &[], 0, 9);
    assert_eq!((zero.stop, zero.count, zero.registers.c, zero.registers.a, zero.registers.b), (33, 2, 2, 0, 5));
    for number in [0, 20, 21, 24, 25, 26, 29, 30, 35, 511] {
        let (unknown, _, _) = ran(&[57344 + number], &[], 0, 9);
        assert_eq!((unknown.stop, unknown.count, unknown.registers.c), (34, 0, 0), "act {number}");
    }
    // The budget is looked at before the fetch; the operand's fetch before the act.
    let (budget, _, _) = ran(&[25088, 60000], &[], 0, 1);
    assert_eq!((budget.stop, budget.count, budget.registers.c), (31, 1, 60000));
    let (operand, _, _) = ran(&[57344 + 4096 + 512, 600], &[], 0, 1);
    assert_eq!((operand.stop, operand.count), (32, 0));
    // Address sums wrap: P 100 and 65436 are 0, which holds the instruction itself.
    let (wrapped, _, _) = ran(&[4096 + 2048 + 512, 65436, 57366], &[], 0, 9);
    assert_eq!((wrapped.stop, wrapped.registers.a, wrapped.registers.c), (30, 6656, 3));
    // The second word of an instruction past the memory is its fetch.
    let mut memory = vec![0; 512];
    memory[0] = 24576 + 511;
    memory[511] = 512;
    let fetch = run(&mut memory, 0, &[], &mut [], 9);
    assert_eq!((fetch.stop, fetch.count, fetch.registers.c), (32, 1, 511));
}

/// Document 02, Req 07.
#[test]
fn last_store() {
    let none = Store { any: false, first: 0, words: 0 };
    let one = Store { any: true, first: 300, words: 1 };
    // L5 S300 L6 X22: at the start, after each, and after the finish.
    let image = [5, 8192 + 300, 6, 57366];
    for (budget, store) in [(0, none), (1, none), (2, one), (3, none), (4, none)] {
        let (now, _, _) = ran(&image, &[], 0, budget);
        assert_eq!((now.count, now.registers.last_store), (budget, store));
    }
    // K2 stores P, here 100, and C at 102 and 103.
    let (called, memory, _) = ran(&[49154], &[], 0, 1);
    assert_eq!(called.registers.last_store, Store { any: true, first: 102, words: 2 });
    assert_eq!(memory[102..104], [100, 1]);
    // S300 and then an instruction that is not done: unknown act, zero divisor, store past the memory, half a K, full output.
    for (met, stop) in [([57364, 0], 34), ([57350, 0], 33), ([8704, 600], 32), ([49152 + 411, 0], 32), ([57372, 0], 35)] {
        let (undone, _, _) = ran(&[8192 + 300, met[0], met[1]], &[], 0, 9);
        assert_eq!((undone.stop, undone.count, undone.registers.last_store), (stop, 1, one));
    }
    // An S through a word.
    let (through, _, _) = ran(&[8192 + 4096 + 2, 57366, 7], &[], 0, 1);
    assert_eq!(through.registers.last_store, Store { any: true, first: 7, words: 1 });
    // Handed in, it stays until an instruction completes.
    let mut memory = vec![57364; 512];
    let given = Registers { a: 1, b: 2, c: 3, p: 4, g: 5, last_store: Store { any: true, first: 6, words: 7 } };
    let stopped = resume(given, 0, 0, &mut memory, &[], &mut [], 9);
    assert_eq!((stopped.stop, stopped.registers), (34, given));
}

#[test]
fn carried_on() {
    // Copies its input: X27 A1 F7 A-1 X28 J0 X22, one word each but A-1.
    let copier = [57371, 16385, 40967, 16896, 65535, 57372, 24576, 57366];
    let mut memory = vec![0; 512];
    memory[..copier.len()].copy_from_slice(&copier);
    let mut output = [0; 8];
    let first = run(&mut memory, 0, b"abc", &mut output, 10);
    assert_eq!((first.stop, first.count, first.taken, first.written), (31, 10, 2, 1));
    let rest = resume(first.registers, first.taken, first.written, &mut memory, b"abc", &mut output, 100);
    assert_eq!((rest.stop, rest.count, rest.taken, rest.written), (30, 12, 3, 3));
    assert_eq!(&output, b"abc\0\0\0\0\0");
    // Places past the end: input reads -1, output is full.
    let past = Registers { a: 0, b: 0, c: 0, p: 0, g: 16, last_store: Store::default() };
    let ended = resume(past, 9, 9, &mut memory, b"abc", &mut output, 100);
    assert_eq!((ended.stop, ended.count, ended.taken, ended.written), (30, 4, 9, 9));
    let write = Registers { c: 5, ..past };
    assert_eq!(resume(write, 0, 9, &mut memory, b"", &mut output, 100).stop, 35);
}

// ---------------------------------------------------------------------------------------------------------------------
// Sources

/// Kind, value and place of each symbol.
fn symbols_of(text: &str) -> Vec<(u32, u32, u32)> {
    let symbols = read_symbols(text.as_bytes()).unwrap_or_else(|refusal| panic!("{text:?} {refusal:?}"));
    symbols.iter().map(|&Symbol { kind, value, place }| (kind, value, place)).collect()
}

fn kinds_of(text: &str) -> Vec<u32> {
    symbols_of(text).iter().map(|symbol| symbol.0).collect()
}

/// Number, place and line of a source's refusal up to 7.
fn refusal_of(text: &[u8]) -> Option<(u64, usize, usize)> {
    read_source(text).err().map(|refusal| (refusal.number, refusal.place, refusal.line))
}

/// A source that is refused where the mark `^` stands; the mark is taken out first.
fn refused_at_mark(number: u64, marked: &str) {
    let place = marked.find('^').unwrap_or_else(|| panic!("no mark in {marked:?}"));
    let text = marked.replacen('^', "", 1);
    let line = 1 + marked[..place].matches('\n').count();
    assert_eq!(refusal_of(text.as_bytes()), Some((number, place, line)), "{marked:?}");
}

fn reads(text: &str) {
    assert_eq!(refusal_of(text.as_bytes()), None, "{text:?}");
}

/// How a source is read, every operator in brackets and every inner command in a block, without its head and tail.
fn read_between(head: &str, part: &str, tail: &str) -> String {
    let text = format!("{head}{part}{tail}");
    let tree = read_source(text.as_bytes()).unwrap_or_else(|refusal| panic!("{text:?} {refusal:?}"));
    let told = tree.to_text(text.as_bytes());
    told[head.len()..told.len() - tail.len()].to_string()
}

fn bracketed(expression: &str) -> String {
    read_between("LET F() = ", expression, "")
}

fn blocked(commands: &str) -> String {
    read_between("LET F() BE $( ", commands, " $)")
}

#[test]
fn reading_s1_first_error() {
    refused_at_mark(2, "LET LET ^% )");
    refused_at_mark(5, "LET LET ^) %");
    refused_at_mark(3, "LET ^99999 %");
    refused_at_mark(2, "( ^% ");
    refused_at_mark(40, "(\n^'% $)");
    refused_at_mark(41, "(\n'^*% '$)");
    // These come before all of the grammar.
    refused_at_mark(5, "; ; ; (^");
}

#[test]
fn text_length() {
    assert_eq!(refusal_of(b""), None);
    assert_eq!(refusal_of(&[b' '; 16_384]), None);
    assert_eq!(refusal_of(&[b'\n'; 16_385]), Some((1, 0, 1)));
    assert_eq!(refusal_of(&[b'%'; 16_385]), Some((1, 0, 1)));
    assert_eq!(refusal_of(&[b'%'; 16_384]), Some((2, 0, 1)));
}

#[test]
fn reading_s2_bytes_that_start_nothing() {
    for byte in 0..=255u8 {
        let wanted = match byte {
            b' ' | b'\t' | b'\r' | b'\n' | b'A'..=b'Z' | b'0'..=b'9' => None,
            b'+' | b'-' | b'*' | b'/' | b'=' | b'<' | b'>' | b'&' | b'|' | b'!' | b'@' | b',' | b';' | b':' => None,
            b'(' => Some((5, 3, 2)),
            b')' => Some((5, 2, 2)),
            b'#' => Some((3, 2, 2)),
            b'\'' | b'"' => Some((40, 2, 2)),
            _ => Some((2, 2, 2)),
        };
        let refused = read_symbols(&[b'A', b'\n', byte]).err();
        assert_eq!(refused.map(|refusal| (refusal.number, refusal.place, refusal.line)), wanted, "{byte}");
    }
    refused_at_mark(2, "^~<");
    refused_at_mark(2, "A ^~");
    refused_at_mark(2, "^$ (");
    refused_at_mark(2, "A ^$");
    refused_at_mark(2, "A^b");
    assert_eq!(kinds_of("A // a small letter, ~ $ ' \" ( and % \u{e9}\n~="), [NAME, UNEQUAL]);
}

#[test]
fn reading_s3_words() {
    let words =
        "GLOBAL MANIFEST LET AND BE VEC VALOF RESULTIS TRUE FALSE NOT REM TEST DO OR IF UNLESS WHILE UNTIL REPEAT \
                 REPEATWHILE REPEATUNTIL FOR TO BY SWITCHON INTO CASE DEFAULT ENDCASE BREAK LOOP RETURN FINISH";
    assert_eq!(kinds_of(words), (1..=34).collect::<Vec<u32>>());
    let signs = "+ - * / = ~= < <= > >= << >> & | ! @ ( ) , ; : := $( $)";
    assert_eq!(kinds_of(signs), (35..=58).collect::<Vec<u32>>());
    assert_eq!(symbols_of("LETTER LET. DO1"), [(NAME, 6, 0), (NAME, 4, 7), (NAME, 3, 12)]);
    assert_eq!(symbols_of("A1.B..2 FOR"), [(NAME, 7, 0), (FOR, 3, 8)]);
    refused_at_mark(2, "A ^.B");
    // The longest sign is taken.
    assert_eq!(kinds_of("<<=<=>>=>=:=:<>~=="), [45, 39, 42, 46, 39, 44, 56, 55, 41, 43, 40, 39]);
}

#[test]
fn reading_s4_numbers() {
    assert_eq!(symbols_of("0 32767 00000000000032767"), [(60, 0, 0), (60, 32767, 2), (60, 32767, 8)]);
    assert_eq!(symbols_of("#0 #177777 #0000000177777"), [(60, 0, 0), (60, 65535, 3), (60, 65535, 11)]);
    assert_eq!(symbols_of("#178"), [(60, 15, 0), (60, 8, 3)]);
    assert_eq!(symbols_of("12A"), [(60, 12, 0), (59, 1, 2)]);
    for number in ["32768", "65536", "0099999", "99999999999999999999999", "#", "#8", "# 1", "#A", "#200000", "##1"] {
        refused_at_mark(3, &format!("A ^{number}"));
    }
    refused_at_mark(3, "LET F() = -^32768");
}

#[test]
fn reading_s5_characters_and_strings() {
    for (character, value) in
        [("A", 65), (" ", 32), ("~", 126), ("\"", 34), ("/", 47), ("*'", 39), ("*\"", 34), ("**", 42)]
    {
        assert_eq!(symbols_of(&format!("'{character}'")), [(NUMBER, value, 0)]);
    }
    for (character, value) in [("*N", 10), ("*S", 32), ("*T", 9), ("*B", 8), ("*P", 12), ("*C", 13)] {
        assert_eq!(symbols_of(&format!("'{character}'")), [(NUMBER, value, 0)]);
    }
    for number in 0..1000 {
        let (character, string) = (format!("'*{number:03}'"), format!("\"A*{number:03}\""));
        if number < 256 {
            assert_eq!(symbols_of(&character), [(NUMBER, number, 0)]);
            assert_eq!(symbols_of(&string), [(STRING, 0, 0)]);
        } else {
            refused_at_mark(41, &character.replace('*', "^*"));
            refused_at_mark(41, &string.replace('*', "^*"));
        }
    }
    assert_eq!(symbols_of("'A''B'"), [(NUMBER, 65, 0), (NUMBER, 66, 3)]);
    assert_eq!(symbols_of("\"\" A \"'*\"**\" \"//\""), [(61, 0, 0), (59, 1, 3), (61, 1, 5), (61, 2, 13)]);
    for (number, texts) in [
        (40, &["^'", "^'A", "^'*'", "^'*", "^'*N", "^'\n'", "^'AB", "^'*Q\n'", "^'\t"][..]),
        (40, &["^\"", "^\"A", "^\"*\"", "^\"*", "^\"A\nB\"", "^\"*\nB\"", "^\"*Q", "^\"\t*Q\n\"", "^\"*Q*\""]),
        (40, &["^'*0", "^'*00", "^'*000", "^\"*1", "^\"*12", "^\"*12\n\"", "^\"*123"]),
        (41, &["'^*1'", "'^*12'", "'^*1A2'", "'^* 12'", "'^*-12'", "'^*+12'", "\"^*12\"", "\"*000^*00\"", "\"*255^*256\"", "\"^*0\"1"]),
        (43, &["'*065^1'", "'*065^*066'", "'A^*000'"]),
        (41, &["'^*Q'", "'^*n'", "'^*1'", "'A^*Q'", "'^*Q\t'", "\"^*Q\"", "\"A^*n\"", "\"A^*Q\t*Q\"", "\"^* \"", "\"^*Q*\"\""]),
        (42, &["'^\t'", "'^\u{1f}'", "'^\u{7f}'", "'^\u{e9}'", "'A^\t'", "'^\r*Q'", "\"^\t\"", "\"^\u{7f}\"", "\"^\u{1f}\"", "\"A^\u{80}*Q\""]),
        (43, &["^''", "^'''", "'A^B'", "'A^*N'", "'*N^*N'", "'*'^*''", "'A^BC'", "'A^B*Q'", "'A^B\t'"]),
    ] {
        for text in texts {
            refused_at_mark(number, &format!("A \n {text}"));
        }
    }
    for part in ["A", "*N", "'", "*\"", "*000", "*255"] {
        let longest = part.repeat(255);
        assert_eq!(symbols_of(&format!("\"{longest}\"")), [(STRING, 0, 0)]);
        refused_at_mark(43, &format!("\"{longest}^{part}\""));
        refused_at_mark(43, &format!("\"{longest}^{part}*Q\t\""));
        refused_at_mark(41, &format!("\"{longest}^*Q\""));
        refused_at_mark(42, &format!("\"{longest}^\t{part}\""));
        refused_at_mark(41, &format!("\"^*Q{longest}\""));
        refused_at_mark(40, &format!("^\"{longest}"));
        refused_at_mark(40, &format!("^\"{longest}{part}\n\""));
    }
}

#[test]
fn reading_s6_comments() {
    assert_eq!(kinds_of("A // B\nC"), [NAME, SEMICOLON, NAME]);
    assert_eq!(kinds_of("A / / B // C \r D\r\n// E"), [NAME, SLASH, SLASH, NAME]);
    assert_eq!(kinds_of("//"), []);
    assert_eq!(kinds_of("///\n/"), [SLASH]);
    assert_eq!(kinds_of("A\rB"), [NAME, NAME]);
}

#[test]
fn reading_s7_brackets() {
    refused_at_mark(5, "^)");
    refused_at_mark(5, "( ) ^$)");
    refused_at_mark(5, "( ^$) )");
    refused_at_mark(5, "$( ( ^$)");
    refused_at_mark(5, "$( ^) $)");
    refused_at_mark(5, "(\n ^");
    refused_at_mark(5, "$( ( )^");
    reads("LET F() BE $( $( G((1), (2)) $) $)");
}

#[test]
fn reading_s8_inserted_semicolons() {
    let firsts = [
        "BREAK", "LOOP", "RETURN", "FINISH", "ENDCASE", "REPEAT", "$( $)", "( )", "A", "\"\"", "1", "#1", "'A'",
        "TRUE", "FALSE",
    ];
    let other_firsts = [
        "REPEATWHILE", "DO", "OR", "VALOF", "RESULTIS", "NOT", "DEFAULT", "INTO", "BE", ";", ":", ":=", ",", "+", "!",
        "@", "=",
    ];
    let seconds = [
        "TEST", "FOR", "IF", "UNLESS", "UNTIL", "WHILE", "SWITCHON", "RESULTIS", "CASE", "DEFAULT", "BREAK", "LOOP",
        "ENDCASE", "RETURN", "FINISH", "$( $)", "( )", "VALOF", "A",
    ];
    let other_seconds = [
        "REPEAT", "REPEATWHILE", "DO", "THEN", "OR", "LET", "AND", "VEC", "TRUE", "1", "'A'", "\"\"", "NOT", "-", "!",
        "@", ";", ":=", "TO", "BY", "INTO", "GLOBAL",
    ];
    let inserts = |first: &str, second: &str| {
        let symbols = |between: &str| kinds_of(&format!("{first}{between}{second}"));
        assert!(symbols(" ") == symbols("\r") && symbols("\n") == symbols(" // ( \n\n\t"), "{first} {second}");
        symbols("\n").len() - symbols(" ").len() == 1
    };
    for first in firsts {
        assert!(seconds.iter().all(|second| inserts(first, second)), "{first}");
        assert!(!other_seconds.iter().any(|second| inserts(first, second)), "{first}");
    }
    for first in other_firsts {
        assert!(!seconds.iter().any(|second| inserts(first, second)), "{first}");
    }
    assert_eq!(kinds_of("$(\n(\nA\n)\n$)"), [BEGIN, OPEN, NAME, CLOSE, END]);
    // Its place is that of the symbol before which it stands.
    assert_eq!(symbols_of("F\n\n (X)")[..3], [(NAME, 1, 0), (SEMICOLON, 0, 4), (OPEN, 0, 4)]);
    refused_at_mark(6, "LET F() BE G\n ^(X)");
}

#[test]
fn a_line_that_ends_in_loop() {
    reads("LET F() BE WHILE A DO $( IF B DO LOOP\nG() $)");
    // The semicolon after a declaration is optional, so these were read alike before.
    assert_eq!(blocked("LET A = VALOF WHILE G DO LOOP\nB := 1"), blocked("LET A = VALOF WHILE G DO LOOP B := 1"));
    assert_eq!(blocked("LET A = VALOF WHILE G DO LOOP\n-B"), blocked("LET A = VALOF WHILE G DO LOOP -B"));
    // A bracket called the value of the VALOF.
    assert_eq!(blocked("LET A = VALOF WHILE G DO LOOP\n(B)()"), blocked("LET A = VALOF WHILE G DO LOOP; (B)()"));
    refused_at_mark(6, "LET F() = VALOF WHILE G DO LOOP\n^(3)");
}

#[test]
fn reading_s9_lines() {
    refused_at_mark(6, "LET F() BE\n\n^");
    refused_at_mark(6, "\r\n\n^1\n");
    refused_at_mark(5, "\n(\n\n^");
}

#[test]
fn reading_s10_then_and_characters() {
    assert_eq!(symbols_of("THEN DO"), [(DO, 4, 0), (DO, 2, 5)]);
    reads("MANIFEST $( A = 'A'; B = -'*N' $) LET F() BE $( LET V = VEC 'A'; IF A THEN BREAK $)");
}

/// How many words are compared whole. Five reserved words share length and first letter with one before them.
#[test]
fn reading_s11_words_compared() {
    for (word, _) in symbols::WORDS {
        let count = match word {
            "BY" | "TEST" | "REPEATUNTIL" | "RETURN" => 2,
            "THEN" => 3,
            _ => 1,
        };
        assert_eq!(compared(word.as_bytes()), count, "{word}");
    }
    for (count, names) in [
        (0, "X READ REPEATWHILES FORT LE Q.1 Z TES THENS repeat"),
        (1, "FALSX BREA1 LOOQ WH.LE UNTIM DEFAULU FINISG CALL IS DI OF"),
        (2, "BZ B1 REPEA1 RESULT RETURM REPEATUNTIM REPEATWHILF"),
        (3, "TIME TRUF TEXT THE. T000"),
    ] {
        for name in names.split(' ') {
            assert_eq!(compared(name.as_bytes()), count, "{name}");
        }
    }
    assert_eq!(compared(b""), 0);
}

#[test]
fn reading_g1_binding() {
    assert_eq!(bracketed("A!F(X)"), "(A ! F)(X)");
    assert_eq!(bracketed("F(X)!A!B(Y)()"), "((F(X) ! A) ! B)(Y)()");
    assert_eq!(bracketed("!A!B(C)"), "(! (A ! B)(C))");
    assert_eq!(bracketed("A | B & NOT C << D + E"), "(A | (B & (NOT (C << (D + E)))))");
    assert_eq!(bracketed("A - B - C + D"), "(((A - B) - C) + D)");
    assert_eq!(bracketed("A / B * C REM D"), "(((A / B) * C) REM D)");
    assert_eq!(bracketed("A + B * C ! D = E - F << G + H >> I"), "((((A + (B * (C ! D))) = (E - F)) << (G + H)) >> I)");
    assert_eq!(bracketed("NOT A = B & C | D & E"), "(((NOT (A = B)) & C) | (D & E))");
    assert_eq!(bracketed("-A * B + C"), "((- (A * B)) + C)");
    assert_eq!(bracketed("(A + B) * \"S*N\"(TRUE, FALSE)"), "((A + B) * \"S*N\"(TRUE, FALSE))");
}

#[test]
fn reading_g2_monadic_operators() {
    assert_eq!(bracketed("A * - B * C"), "(A * (- (B * C)))");
    assert_eq!(bracketed("A * NOT B + C"), "(A * (NOT (B + C)))");
    assert_eq!(bracketed("A * NOT B + C & D"), "((A * (NOT (B + C))) & D)");
    assert_eq!(bracketed("A ! - B * C + D"), "((A ! (- (B * C))) + D)");
    assert_eq!(bracketed("! - A * B"), "(! (- (A * B)))");
    assert_eq!(bracketed("- ! A * B"), "(- ((! A) * B))");
    assert_eq!(bracketed("@ ! A ! B + C"), "((@ (! (A ! B))) + C)");
    assert_eq!(bracketed("A << NOT B << C"), "(A << (NOT (B << C)))");
    assert_eq!(bracketed("A = NOT B = C"), "(A = (NOT (B = C)))");
    assert_eq!(bracketed("NOT NOT - + A"), "(NOT (NOT (- (+ A))))");
    // A right operand that NOT begins may stand before a relation, once NOT's own operand can take no more.
    assert_eq!(bracketed("A * NOT B < C < D"), "((A * (NOT (B < C))) < D)");
    assert_eq!(bracketed("A + NOT B = C = A"), "((A + (NOT (B = C))) = A)");
}

#[test]
fn reading_g3_valof() {
    assert_eq!(bracketed("1 + VALOF $( RESULTIS 1 $) * 2"), "(1 + ((VALOF $( RESULTIS 1 $)) * 2))");
    assert_eq!(bracketed("VALOF WHILE G DO LOOP (3)"), "(VALOF $( WHILE G DO $( LOOP $) $))(3)");
    assert_eq!(bracketed("A ! VALOF RESULTIS B ! C"), "(A ! (VALOF $( RESULTIS (B ! C) $)))");
    assert_eq!(blocked("VALOF BREAK (3)"), "(VALOF $( BREAK $))(3)");
    refused_at_mark(6, "LET F() BE $( VALOF G() ^$)");
}

#[test]
fn reading_g4_levels() {
    refused_at_mark(6, "LET F() = A >> 5 ^= 14");
    refused_at_mark(6, "LET F() = 1 < A ^< 3");
    refused_at_mark(6, "LET F() = A = NOT B = C ^~= D");
    refused_at_mark(6, "LET F() = NOT A = B ^= C");
    refused_at_mark(6, "LET F() = NOT A >> 5 ^= 14");
    refused_at_mark(6, "LET F() = A & NOT B = C ^= A");
    refused_at_mark(6, "LET F() = (NOT A < B ^<= C)");
    assert_eq!(bracketed("14 = A >> 5"), "((14 = A) >> 5)");
    assert_eq!(bracketed("A >> 5 & B = 14"), "((A >> 5) & (B = 14))");
}

#[test]
fn reading_g4a_longest_reading() {
    refused_at_mark(6, "LET F() = VALOF F() + 1^");
    refused_at_mark(6, "LET F() = G(VALOF F(), 3^)");
    refused_at_mark(6, "LET F() BE $( LET A = B -C ^:= 1 $)");
    assert_eq!(blocked("LET B, C = VALOF A := 1, 2"), "LET B, C = (VALOF $( A := 1 $)), 2; ");
    assert_eq!(bracketed("G(VALOF A := 1, 2)"), "G((VALOF $( A := 1 $)), 2)");
    assert_eq!(blocked("A\n!B := 1"), "(A ! B) := 1");
    assert_eq!(blocked("LET A = 1 @B := 2"), "LET A = 1; (@ B) := 2");
    // After labels, what can begin a command begins one.
    refused_at_mark(6, "LET F() = VALOF CASE 1: + 2^");
    assert_eq!(bracketed("VALOF CASE 1: * 2"), "((VALOF $( CASE 1:  $)) * 2)");
}

#[test]
fn reading_g5_places() {
    for commands in [
        "A, B := 1^;",
        "A := 1^, 2",
        "A^;",
        "A + F()^;",
        "LET F^(A) = 1",
        "LET V, W = ^VEC 1",
        "(F())^;",
        "A, F() ^;",
        "F()^G()",
        "F() + 1^;",
        "-F()^;",
        "F()!A^;",
        "LET A = 1 ^AND B = 2",
        "LET A ^:= 1",
        "IF A ^A := 1",
        "IF ^DO A := 1",
        "TEST A DO B := 1 ^; C := 2",
        "FOR ^1 = 1 TO 2 DO BREAK",
        "FOR I = 1 TO 2 BY ^+1 DO BREAK",
        "FOR I ^TO 2 DO BREAK",
        "SWITCHON A INTO ^F()",
        "^REPEAT",
        "F() REPEATWHILE ^;",
        "A = 1^;",
        "A := 1 ^LET B = 2",
        "A := 1; ^LET B = 2",
        "^GLOBAL $( A:1 $)",
        "F(^,)",
        "F(1,^)",
        "F(1 ^2)",
        "A := (^)",
        "^OR",
        "BREAK ^1",
        "^, A := 1",
    ] {
        refused_at_mark(6, &format!("LET F() BE $( {commands} $)"));
    }
    for text in [
        "LET START()^", "LET START() BE^", "LET START() BE A^", "LET START() BE FOO(^,)", "LET A ^= 1",
        "LET A^, B = 1", "LET F(^1) = 1", "LET F(A ^B) = 1", "LET F(A,^) = 1", "LET F() ^:= 1", "^A := 1",
        "LET F() = 1 ^2", "LET F() = ^",
    ] {
        refused_at_mark(6, text);
    }
    reads("LET F() BE 1 + 2, G() := 3, 4");
    reads("LET F() BE F() := 1");
}

#[test]
fn reading_g6_labels() {
    assert_eq!(blocked("CASE 1: CASE -A: DEFAULT: F()"), "CASE 1: CASE -A: DEFAULT: F()");
    assert_eq!(blocked("CASE TRUE: ; DEFAULT:"), "CASE TRUE: ; DEFAULT: ");
    let told = "TEST A DO $( CASE 1:  $) OR $( DEFAULT: $(  $) $)";
    assert_eq!(blocked("TEST A DO CASE 1: OR DEFAULT: $( $)"), told);
    assert_eq!(bracketed("F(VALOF CASE 1: , 2)"), "F((VALOF $( CASE 1:  $)), 2)");
    for commands in ["CASE 1: ; ^;", "CASE 1 ^F()", "CASE ^: F()", "CASE ^(1): F()", "DEFAULT ^1:"] {
        refused_at_mark(6, &format!("LET F() BE $( {commands} $)"));
    }
}

#[test]
fn reading_g7_repeat() {
    let told = "IF A DO $( $( $( $( F() $) REPEAT $) REPEATWHILE B $) REPEATUNTIL C $)";
    assert_eq!(blocked("IF A DO F() REPEAT REPEATWHILE B REPEATUNTIL C"), told);
    assert_eq!(blocked("A := B + C REPEAT; $( $) REPEAT"), "$( A := (B + C) $) REPEAT; $(  $) REPEAT");
    assert_eq!(blocked("A := VALOF F() REPEAT"), "A := (VALOF $( $( F() $) REPEAT $))");
    // A command that ends in an empty one may be repeated; the empty one may not.
    assert_eq!(blocked("IF A DO CASE 1: REPEAT"), "$( IF A DO $( CASE 1:  $) $) REPEAT");
}

#[test]
fn reading_g8_lists_and_semicolons() {
    for text in [
        "GLOBAL $( ^$)",
        "MANIFEST $(^;$)",
        "LET F() BE SWITCHON A INTO $( ^$)",
        "LET F() BE SWITCHON A INTO $( ^LET A = 1; CASE 1: $)",
        "GLOBAL $( A^=1 $)",
        "MANIFEST $( A^:1 $)",
        "GLOBAL $( A:1;^; $)",
        "GLOBAL $( A:1 ^B:2 $)",
        "MANIFEST $( A=1 ^+ 1 $)",
        "LET A() = 1; ^AND B() = 2",
        "LET A() = 1;^;",
        "^;",
        "LET F() BE $( ; ^F() $)",
        "LET F() BE $( ;^; $)",
        "LET F() BE $( LET A = 1; ; ^A := 2 $)",
        "LET F() BE $( A := 1;^; $)",
    ] {
        refused_at_mark(6, text);
    }
    for text in [
        "GLOBAL $( A:1 $)",
        "GLOBAL $( A:1;B:2; $);MANIFEST $( A=1\nB=-TRUE;$)",
        "LET F() = 1 AND G() BE $( $); LET H() = 2;",
        "LET F() BE $( ; $)",
        "LET F() BE $( LET A = 1 $)",
        "LET F() BE $( LET A = 1; $)",
        "LET F() BE $( LET A = 1; ; $)",
        "LET F() BE $( LET A = 1 LET V = VEC 2 A := 2; $)",
        "LET F() BE SWITCHON A INTO $( F(); $)",
        "LET F(A, B) BE FINISH",
    ] {
        reads(text);
    }
}

#[test]
fn reading_g8a_empty_and_constants() {
    refused_at_mark(6, "LET F() BE SWITCHON A INTO $( CASE 1: ^REPEAT $)");
    for constant in ["-^-1", "^+1", "^(1)", "^\"\"", "^NOT 1", "-^(1)", "^@A", "1^!2", "A^(1)"] {
        refused_at_mark(6, &format!("MANIFEST $( A = {constant} $)"));
    }
    refused_at_mark(3, "MANIFEST $( A = -^32768 $)");
}

#[test]
fn reading_g9_g10_levels() {
    // What stands before and how many levels it holds, what opens one level (the mark at its first symbol), the inmost
    // part, what closes a level, and what stands after.
    for (head, held, open, inmost, close, tail) in [
        ("LET F() = ", 0, "^(", "1", ")", ""),
        ("LET F() = ", 0, "F^(", "1", ")", ""),
        ("LET F() = ", 0, "^-", "1", "", ""),
        ("LET F() = ", 0, "^+", "1", "", ""),
        ("LET F() = ", 0, "^!", "A", "", ""),
        ("LET F() = ", 0, "^@", "A", "", " + (1)"),
        ("LET F() = ", 0, "^NOT ", "A", "", ""),
        ("LET F() BE A := ", 1, "^(", "1", ")", " REPEATWHILE (1)"),
        ("LET F() BE ", 0, "^IF A DO ", "CASE 1:", "", ""),
        ("LET F() BE ", 0, "^$( ", "", "$)", " LET G() BE BREAK"),
        ("LET F() BE ", 0, "^SWITCHON A INTO $( CASE 1: ", "CASE 2:", "$)", ""),
        ("LET F() BE ", 0, "^FOR I = A TO B DO DEFAULT: ", "CASE 1:", "", ""),
        ("LET F() BE $( LET A = 1; G((2)); G(", 3, "^(", "1", ")", ") REPEAT; G((3)) $)"),
    ] {
        let plain = open.replace('^', "");
        let nest = |inner: &str, many: usize| {
            format!("{head}{}{inner}{inmost}{}{tail}", plain.repeat(63 - held), close.repeat(63 - held + many))
        };
        reads(&nest(&plain, 1));
        refused_at_mark(7, &nest(&format!("{plain}{open}"), 2));
    }
    // VALOF and its command are a level each.
    let valofs = "VALOF RESULTIS ".repeat(31);
    reads(&format!("LET F() = {valofs} VALOF RESULTIS 1"));
    refused_at_mark(7, &format!("LET F() = {valofs} VALOF RESULTIS ^-1"));
    refused_at_mark(7, &format!("LET F() = {valofs} (VALOF ^BREAK)"));
    reads(&format!("LET F() = {valofs} (VALOF CASE 1:)"));
    // A constant's minus is a level where it stands; a label's stands outside its command's.
    let ifs = "IF A DO ".repeat(63);
    reads(&format!("LET F() BE {ifs} CASE -1: CASE 2: BREAK"));
    refused_at_mark(7, &format!("LET F() BE {ifs} FOR I = 1 TO 2 BY ^-1 DO CASE 1:"));
    refused_at_mark(7, &format!("LET F() BE {ifs} $( LET V = VEC ^-1 $)"));
    refused_at_mark(7, &format!("LET F() BE {ifs} IF A DO CASE ^-1:"));
    // The condition of a REPEAT form is within its command's level.
    reads(&format!("LET F() BE {ifs} BREAK REPEATWHILE A"));
    refused_at_mark(7, &format!("LET F() BE {ifs} BREAK REPEATWHILE ^(A)"));
    // A symbol that may not stand there is 6, deep as it is.
    refused_at_mark(6, &format!("LET F() BE {ifs} IF A DO ^;"));
    refused_at_mark(7, &format!("LET F() BE {ifs} IF A DO ^A"));
    refused_at_mark(6, &format!("LET F() BE {ifs} A := ^* 2"));
    // Levels are given back.
    let deepest = format!("{}1{}", "(".repeat(63), ")".repeat(63));
    reads(&format!("LET F() BE A, B := {deepest} + {deepest}, {deepest} LET G() = ({deepest})"));
}

// ---------------------------------------------------------------------------------------------------------------------
// The vectors

/// The folder of the vectors, from the repository's root.
fn vectors() -> PathBuf {
    PathBuf::from("tests/vectors")
}

fn file(path: &Path) -> Vec<u8> {
    std::fs::read(path).unwrap_or_else(|error| panic!("{}: {error}", path.display()))
}

#[test]
fn vectors_texts() {
    let folder = vectors();
    let expected = String::from_utf8(file(&folder.join("texts/expected"))).expect("plain text");
    for line in expected.lines() {
        let (name, answer) = line.split_once(' ').expect("a name and an answer");
        let text = file(&folder.join(format!("texts/{name}.b")));
        let wanted = match answer.split(' ').collect::<Vec<&str>>()[..] {
            ["refused", number, "at", place, "line", line] => {
                let [number, place, line] =
                    [number, place, line].map(|field| field.parse::<usize>().expect("a number"));
                matches!(number, 1..=7 | 40..=43).then_some((number as u64, place, line))
            }
            ["accepted"] => None,
            _ => panic!("neither a refusal nor `accepted`: {line}"),
        };
        assert_eq!(refusal_of(&text), wanted, "{line}");
    }
}

#[test]
fn vectors_runs() {
    let folder = vectors();
    let expected = String::from_utf8(file(&folder.join("runs/expected"))).expect("plain text");
    for line in expected.lines() {
        let [name, "steps", steps, "taken", taken] = line.split(' ').collect::<Vec<&str>>()[..] else {
            panic!("not a run's steps and input taken: {line}")
        };
        for field in [steps, taken] {
            field.parse::<u64>().expect("a number");
        }
        assert_eq!(refusal_of(&file(&folder.join(format!("runs/{name}.b")))), None, "{line}");
    }
}

// ---------------------------------------------------------------------------------------------------------------------
// Trees in scratch

/// What the proved readers' test program must print, held to this reader's symbols, trees and refusals.
#[test]
fn reading_test_output() {
    let folder = PathBuf::from("crates/reading_test");
    let output = std::fs::read_to_string(folder.join("stdout")).expect("what the test program prints");
    let mut lines = output.lines().peekable();
    let mut files = 0;
    while let Some(heading) = lines.next() {
        let name = heading.strip_suffix(':').expect("a file's name");
        let text = std::fs::read(folder.join("data").join(name)).expect("a source");
        if let Ok(symbols) = read_symbols(&text) {
            assert_eq!(lines.next(), Some(&*format!("{} symbols", symbols.len())), "{name}");
            let wanted = symbols.iter().flat_map(|symbol| [symbol.kind, symbol.value, symbol.place]);
            assert!(rows(&mut lines).into_iter().eq(wanted), "{name}");
        }
        let told = lines.next().expect("a result");
        match read_source(&text) {
            Err(Refusal { number, place, line }) => assert_eq!(told, format!("refused {number} at {place} line {line}"), "{name}"),
            Ok(tree) => {
                let entries = rows(&mut lines);
                let symbols = read_symbols(&text).expect("symbols");
                assert_eq!(told, format!("tree of {} entries", entries.len()), "{name}");
                assert_eq!(postfix::decode(&symbols, &entries), Ok(tree), "{name}");
                damaged_entries(&symbols, &entries);
            }
        }
        files += 1;
    }
    assert_eq!(files, std::fs::read_dir(folder.join("data")).expect("the sources").count());
}

/// The entries in rows that begin with the position of their first.
fn rows<'a>(lines: &mut std::iter::Peekable<impl Iterator<Item = &'a str>>) -> Vec<u32> {
    let mut entries = Vec::new();
    while let Some((position, line)) = lines.peek().and_then(|line| line.split_once(": ")) {
        assert_eq!(position, entries.len().to_string());
        entries.extend(line.split(' ').map(|entry| entry.parse::<u32>().expect("an entry")));
        lines.next();
    }
    entries
}

/// No entry may be another one.
fn damaged_entries(symbols: &[Symbol], entries: &[u32]) {
    let tree = postfix::decode(symbols, entries);
    for place in 0..entries.len() {
        for other in [0, 1, entries[place] + 1, entries[place] + 4, u32::MAX] {
            let mut damaged = entries.to_vec();
            damaged[place] = other;
            assert!(other == entries[place] || postfix::decode(symbols, &damaged) != tree, "entry {place} as {other}");
        }
    }
}
