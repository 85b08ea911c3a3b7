//! Compares the proved reader of sources with the second one, in every symbol, tree and refusal, on generated sources, on
//! sweeps of them and on the vectors.
//!
//!     sources_compare [CASES]               CASES generated in all (60000 unless said)
//!     sources_compare --self-check [CASES]  without the proved library: what the generators make, and the second reader
//!                                           alone
//!
//! It exits 1 at the first difference, and also when some refusal came up too rarely to have been tested.

mod grammar;
mod postfix;
mod proved_source;
mod random;
mod sources;
mod sweeps;
mod symbols;
mod summary;

use grammar::Tree;
use proved_source::{Library, Read};
use random::Random;
use sources::{Case, KINDS};
use std::process::ExitCode;
use sweeps::SWEEPS;
use symbols::{Refusal, Symbol};
use summary::{enough, headed, often, Tally};

const CASES: u64 = 60_000;
const REFUSALS: [u64; 10] = [1, 2, 3, 5, 6, 7, 40, 41, 42, 43];
/// The stack of a thread that reads a steep source: an eighth of the 8 MiB that a reader may take.
const STACK: usize = 1 << 20;

fn main() -> ExitCode {
    summary::run("sources_compare", CASES, proved_source::library(), compare_all)
}

fn compare_all(library: Option<Library>, cases: u64) -> Result<String, String> {
    let mut all = Tally::new();
    let mut told = Vec::new();
    for (place, kind) in KINDS.iter().enumerate() {
        let mut tally = Tally::new();
        for number in 0..(cases * kind.share / 100).max(1) {
            let seed = ((place as u64) << 32) + number;
            let case = (kind.make)(seed);
            compare_symbols(library, &case.text, seed)
                .and_then(|()| compare(library, &case, seed, &mut tally))
                .map_err(|report| headed(kind.name, number, seed, &told_text(&case.text, &report)))?;
        }
        told.push(told_kind(kind.name, &tally));
        for (number, count) in tally {
            *all.entry(number).or_default() += count;
        }
    }
    let refusals = enough(&all, &REFUSALS, cases / 400)?;
    for sweep in SWEEPS {
        let mut tally = Tally::new();
        let mut number = 0;
        (sweep.each)(&mut |case| {
            number += 1;
            compare(library, &case, number, &mut tally)
                .map_err(|report| headed(sweep.name, number, number, &told_text(&case.text, &report)))
        })?;
        told.push(told_kind(sweep.name, &tally));
    }
    told.push(format!("  {} vectors", compare_vectors(library)?));
    told.push(format!("  {} of the steepest", compare_steepest(library)?));
    let (done, equal) = if library.is_some() { ("compared", ": all equal") } else { ("made", "") };
    let sum: u64 = all.values().sum();
    let accepted = often(&all, 0);
    Ok(format!("{}\n{done} {sum} generated sources ({accepted} accepted, {refusals}){equal}", told.join("\n")))
}

fn told_kind(name: &str, tally: &Tally) -> String {
    let counts = tally.iter().map(|(number, count)| match number {
        0 => format!("{count} accepted"),
        _ => format!("{number}: {count}"),
    });
    format!("  {} {name} ({})", tally.values().sum::<u64>(), counts.collect::<Vec<String>>().join(", "))
}

/// The stored sources, from the repository's root.
fn compare_vectors(library: Option<Library>) -> Result<u64, String> {
    let mut tally = Tally::new();
    for folder in ["tests/vectors/texts", "tests/vectors/runs"] {
        let entries = std::fs::read_dir(folder).map_err(|error| format!("{folder}: {error}"))?;
        for entry in entries {
            let path = entry.map_err(|error| format!("{folder}: {error}"))?.path();
            if path.extension().is_some_and(|extension| extension == "b") {
                let text = std::fs::read(&path).map_err(|error| format!("{}: {error}", path.display()))?;
                compare_symbols(library, &text, 0)
                    .and_then(|()| compare(library, &Case { text, expected: None }, 0, &mut tally))
                    .map_err(|report| format!("DIFFERENCE in {}\n{report}", path.display()))?;
            }
        }
    }
    Ok(tally.values().sum())
}

/// The sources that take most stack, each read by a thread that has little: too little would end the program. They have so
/// many symbols that with one entry less the scratch is too short.
fn compare_steepest(library: Option<Library>) -> Result<usize, String> {
    let texts = sweeps::steepest();
    for (number, text) in texts.iter().enumerate() {
        let refused = |refusal| format!("one of the steepest is refused: {refusal:?}");
        let symbols = symbols::read_symbols(text).map_err(refused)?;
        let tree = Ok(grammar::read_source(text).map_err(refused)?);
        let Some(library) = library else { continue };
        let room = tree_room(text, symbols.len());
        let read = std::thread::scope(|scope| {
            let reader = std::thread::Builder::new().stack_size(STACK);
            let reading = reader.spawn_scoped(scope, || proved(library.tree, text, room, 0)).expect("a thread");
            reading.join().expect("a source read without panic")
        });
        let (too_short, _) = proved(library.tree, text, room - 1, 0);
        compare_tree(read, &symbols, &tree)
            .and_then(|()| if too_short == [15, 0, 1] { Ok(()) } else { Err(told_trees(&[15, 0, 1], &too_short)) })
            .map_err(|report| headed("steepest", number as u64, 0, &told_text(text, &report)))?;
    }
    Ok(texts.len())
}

fn told_text(text: &[u8], report: &str) -> String {
    format!("text of {} bytes:\n\"{}\"\n{report}", text.len(), text.escape_ascii())
}

/// Counts the second reader's refusal of a case, or 0, if the library's answer is the same in every detail.
fn compare(library: Option<Library>, case: &Case, seed: u64, tally: &mut Tally) -> Result<(), String> {
    let text = &case.text;
    let tree = grammar::read_source(text);
    let refused = tree.as_ref().map_or_else(|refusal| refusal.number, |_| 0);
    if case.expected.is_some_and(|expected| expected != refused) {
        return Err(format!("made to give {:?}, the second reader gives {:?}", case.expected, tree.err()));
    }
    match (library, tree) {
        (Some(library), tree) => {
            let symbols = symbols::read_symbols(text).unwrap_or_default();
            let read = proved(library.tree, text, tree_room(text, symbols.len()), seed);
            compare_tree(read, &symbols, &tree)?;
        }
        (None, Ok(tree)) => read_again(&tree.to_text(text))?,
        (None, Err(_)) => {}
    }
    *tally.entry(refused).or_default() += 1;
    Ok(())
}

/// A tree's own text must give the same tree, unless its brackets make it too deep or too long.
fn read_again(text: &str) -> Result<(), String> {
    match grammar::read_source(text.as_bytes()) {
        Ok(again) if again.to_text(text.as_bytes()) == text => Ok(()),
        Err(Refusal { number: 1 | 7, .. }) => Ok(()),
        Ok(again) => Err(format!("the tree's text\n{text}\nis read as\n{}", again.to_text(text.as_bytes()))),
        Err(refusal) => Err(format!("the tree's text\n{text}\nis refused: {refusal:?}")),
    }
}

fn numbers(refusal: Refusal) -> [u64; 3] {
    [refusal.number, refusal.place as u64, refusal.line as u64]
}

/// As little scratch as symbols need, and as a tree of so many symbols does.
fn symbols_room(text: &[u8]) -> usize {
    3 * text.len()
}

fn tree_room(text: &[u8], count: usize) -> usize {
    symbols_room(text).max(8 * count + 64)
}

/// The library's answer and scratch, which has so much room; junk stands in both beforehand.
fn proved(read: Read, text: &[u8], room: usize, seed: u64) -> ([u64; 3], Vec<u32>) {
    let mut random = Random::new(!seed);
    let mut scratch = vec![random.next() as u32; room];
    let mut answer = [random.next(); 3];
    read(text, &mut scratch, &mut answer);
    (answer, scratch)
}

fn compare_symbols(library: Option<Library>, text: &[u8], seed: u64) -> Result<(), String> {
    let Some(library) = library else { return Ok(()) };
    let wanted = symbols::read_symbols(text);
    let (answer, scratch) = proved(library.symbols, text, symbols_room(text), seed);
    let (wanted_answer, wanted_symbols): ([u64; 3], &[Symbol]) = match &wanted {
        Ok(symbols) => ([0, symbols.len() as u64, 0], symbols),
        Err(refusal) => (numbers(*refusal), &[]),
    };
    let count = if answer[0] == 0 { (answer[1] as usize).min(scratch.len() / 3) } else { 0 };
    let given = symbols_in(&scratch[..3 * count]);
    if answer == wanted_answer && given == wanted_symbols {
        return Ok(());
    }
    let mut report = format!("symbols\nsecond program: {wanted_answer:?}\nproved library: {answer:?}\n");
    let longest = wanted_symbols.len().max(given.len());
    if let Some(first) = (0..longest).find(|&index| wanted_symbols.get(index) != given.get(index)) {
        report += &format!(
            "symbols from {first} on\nsecond program: {:?}\nproved library: {:?}\n",
            wanted_symbols.get(first),
            given.get(first)
        );
    }
    Err(report)
}

fn symbols_in(entries: &[u32]) -> Vec<Symbol> {
    let symbols = entries.chunks_exact(3);
    symbols.map(|entries| Symbol { kind: entries[0], value: entries[1], place: entries[2] }).collect()
}

/// The symbols stand in scratch unless one of them is refused, the tree behind them, and zeros behind all. A text that is too long
/// leaves scratch as it was.
fn compare_tree(
    (answer, scratch): ([u64; 3], Vec<u32>),
    symbols: &[Symbol],
    wanted: &Result<Tree, Refusal>,
) -> Result<(), String> {
    let start = 3 * symbols.len();
    if symbols_in(&scratch[..start]) != symbols {
        return Err("tree: the symbols before it are others".to_string());
    }
    let zeros = |from: usize| scratch[from..].iter().all(|&entry| entry == 0);
    match (wanted, answer) {
        (Ok(tree), [0, end, 0]) if scratch.get(start..end as usize).is_some() => {
            let entries = &scratch[start..end as usize];
            match postfix::decode(symbols, entries) {
                Ok(given) if given == *tree && zeros(end as usize) => Ok(()),
                Ok(given) if given == *tree => Err("tree: no zeros behind it".to_string()),
                Ok(given) => Err(told_trees(tree, &given)),
                Err(reason) => Err(format!("{}entries {entries:?}", told_trees(tree, &reason))),
            }
        }
        (Ok(tree), _) => Err(told_trees(tree, &answer)),
        (Err(refusal), _) if answer == numbers(*refusal) && (refusal.number == 1 || zeros(start)) => Ok(()),
        (Err(refusal), _) if answer == numbers(*refusal) => Err("tree refused: no zeros behind the symbols".to_string()),
        (Err(refusal), _) => Err(told_trees(&numbers(*refusal), &answer)),
    }
}

fn told_trees(second: &dyn std::fmt::Debug, proved: &dyn std::fmt::Debug) -> String {
    format!("tree\nsecond program: {second:?}\nproved library: {proved:?}\n")
}
