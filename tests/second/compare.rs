//! Compares the proved assembler and machine with the second ones, in every detail, on generated texts and images.
//!
//!     compare [CASES]               CASES of each of the three kinds (40000 unless said)
//!     compare --self-check [CASES]  without the proved library: what the generators make, and the second program alone
//!
//! It exits 1 at the first difference, and also when some refusal, stop or store came up too rarely to have been tested.

mod assembler;
mod generate;
mod machine;
mod proved;
mod random;
mod summary;

use assembler::Assembly;
use generate::{ImageCase, TextCase};
use machine::{Ran, Store};
use proved::Library;
use random::Random;
use std::fmt::Write;
use std::process::ExitCode;
use summary::{enough, headed, often, Tally};

const CASES: u64 = 40_000;
const REFUSALS: [u64; 6] = [20, 21, 22, 23, 24, 25];
const STOPS: [u64; 7] = [24, 30, 31, 32, 33, 34, 35];

fn main() -> ExitCode {
    summary::run("compare", CASES, proved::library(), compare_all)
}

fn compare_all(library: Option<Library>, cases: u64) -> Result<String, String> {
    let mut texts = Tally::new();
    let mut stops = Tally::new();
    let mut resumed = Tally::new();
    let mut stored = Tally::new();
    let mut in_parts = Tally::new();
    let mut acts = Tally::new();
    for number in 0..cases {
        let seed = number;
        let case = generate::good_text(seed);
        let wanted = compare_text(library, &case, seed).map_err(|report| headed("good text", number, seed, &report))?;
        if let Some(refusal) = wanted.refusal {
            return Err(headed(
                "good text",
                number,
                seed,
                &format!("the second assembler refuses it: {refusal:?}\n{}", told_text(&case)),
            ));
        }
        *texts.entry(0).or_default() += 1;
    }
    for number in 0..cases {
        let seed = (1 << 32) + number;
        let case = generate::damaged_text(seed);
        let wanted =
            compare_text(library, &case, seed).map_err(|report| headed("damaged text", number, seed, &report))?;
        *texts.entry(wanted.refusal.map_or(0, |refusal| refusal.number)).or_default() += 1;
    }
    let numbered = generate::numbered_texts();
    for (number, case) in (0..).zip(&numbered) {
        compare_text(library, case, number).map_err(|report| headed("character by number", number, number, &report))?;
    }
    for number in 0..cases {
        let seed = (2 << 32) + number;
        let case = generate::image(seed);
        let wanted = compare_image(library, &case, seed).map_err(|report| headed("image", number, seed, &report))?;
        *stops.entry(wanted.stop).or_default() += 1;
        *stored.entry(u64::from(wanted.registers.last_store.words)).or_default() += 1;
        let parts = compare_parts(library, &case, &wanted, seed)
            .map_err(|report| headed("image in parts", number, seed, &report))?;
        *in_parts.entry(parts.min(3)).or_default() += 1;
        let wanted_on = compare_resumed(library, &case, wanted.count, seed)
            .map_err(|report| headed("resumed image", number, seed, &report))?;
        *resumed.entry(wanted_on.stop).or_default() += 1;
        if library.is_none() {
            carry_on(&case, wanted, &mut acts).map_err(|report| headed("image", number, seed, &report))?;
        }
    }
    let least = cases / 100;
    let told_texts = format!(
        "{} texts ({} accepted, {}), {} with a character by number",
        2 * cases,
        often(&texts, 0),
        enough(&texts, &REFUSALS, least)?,
        numbered.len()
    );
    let told_images = format!(
        "{cases} images ({}; carried on {}; words stored last {}; in one, two and more parts {})",
        enough(&stops, &STOPS, least)?,
        enough(&resumed, &STOPS, least)?,
        enough(&stored, &[0, 1, 2], least)?,
        enough(&in_parts, &[1, 2, 3], least)?
    );
    if library.is_some() {
        return Ok(format!("compared {told_texts} and {told_images}: all equal"));
    }
    let listed: Vec<u64> =
        (0..7).chain((1..=28).filter(|act| !matches!(act, 20..=21 | 24..=26)).map(|act| 100 + act)).collect();
    let done = enough(&acts, &listed, least / 4)?;
    Ok(format!(
        "made {told_texts} and {told_images}\ninstructions done (functions 0 to 6; 100 and the number of X): {done}"
    ))
}

/// The second program's answer, if the library's is the same in every detail.
fn compare_text(library: Option<Library>, case: &TextCase, seed: u64) -> Result<Assembly, String> {
    let wanted = assembler::assemble(&case.text, case.memory_len, case.label_room);
    let Some(library) = library else { return Ok(wanted) };
    let wanted_answer = match wanted.refusal {
        Some(refusal) => [refusal.number, refusal.place as u64, refusal.line as u64],
        None => [0, u64::from(wanted.first_stack_word), 0],
    };
    let wanted_labels: Vec<u32> =
        wanted.labels.iter().map(|&(number, address)| u32::from(number) * 65536 + u32::from(address)).collect();
    // Junk beforehand, so that words left alone show.
    let mut random = Random::new(!seed);
    let mut memory: Vec<u16> = (0..case.memory_len).map(|_| random.word()).collect();
    let mut labels: Vec<u32> = (0..case.label_room).map(|_| u32::from(random.word()) * 65537).collect();
    let mut answer = [u64::from(random.word()); 3];
    (library.assemble)(&case.text, &mut memory, &mut labels, &mut answer);
    if answer == wanted_answer && memory == wanted.memory && labels == wanted_labels {
        return Ok(wanted);
    }
    let mut report = told_text(case);
    _ = writeln!(report, "second program: {wanted_answer:?}\nproved library: {answer:?}");
    report += &told_difference("memory", &wanted.memory, &memory);
    report += &told_difference("label table", &wanted_labels, &labels);
    Err(report)
}

fn told_text(case: &TextCase) -> String {
    let TextCase { text, memory_len, label_room } = case;
    format!(
        "memory {memory_len} words, {label_room} label records, text of {} bytes:\n\"{}\"\n",
        text.len(),
        text.escape_ascii()
    )
}

/// The first entry in which two answers differ, and how many do.
fn told_difference<T: PartialEq + std::fmt::Display>(what: &str, wanted: &[T], given: &[T]) -> String {
    let differing: Vec<usize> = (0..wanted.len()).filter(|&index| wanted[index] != given[index]).collect();
    match differing.first() {
        None => String::new(),
        Some(&first) => format!(
            "{what}: {} entries differ, the first at {first}: {} second program, {} proved library\n",
            differing.len(),
            wanted[first],
            given[first]
        ),
    }
}

const NUMBERS: &str = "stop, count, taken, written, A, B, C, P, G; the last store: any, first, words";

fn numbers(ran: &Ran) -> [u64; 12] {
    let registers = ran.registers;
    let [a, b, c, p, g] = [registers.a, registers.b, registers.c, registers.p, registers.g].map(u64::from);
    let Store { any, first, words } = registers.last_store;
    let store = [u64::from(any), u64::from(first), u64::from(words)];
    [ran.stop, ran.count, ran.taken as u64, ran.written as u64, a, b, c, p, g, store[0], store[1], store[2]]
}

/// The second machine's run of a case with a budget, and the memory and output it leaves.
fn second_run(case: &ImageCase, budget: u64) -> (Ran, Vec<u16>, Vec<u8>) {
    let (mut memory, mut output) = (case.memory.clone(), case.output.clone());
    let ran = machine::run(&mut memory, case.first, &case.input, &mut output, budget);
    (ran, memory, output)
}

fn proved_run(library: Library, case: &ImageCase, budget: u64, junk: u64) -> ([u64; 12], Vec<u16>, Vec<u8>) {
    let (mut memory, mut output) = (case.memory.clone(), case.output.clone());
    let mut answer = [junk; 12];
    (library.run)(&mut memory, case.first, &case.input, &mut output, budget, &mut answer);
    (answer, memory, output)
}

/// The second machine's answer, if the library's is the same in every detail.
fn compare_image(library: Option<Library>, case: &ImageCase, seed: u64) -> Result<Ran, String> {
    let (wanted, wanted_memory, wanted_output) = second_run(case, case.budget);
    let Some(library) = library else { return Ok(wanted) };
    let junk = !seed;
    let (answer, memory, output) = proved_run(library, case, case.budget, junk);
    if answer == numbers(&wanted) && memory == wanted_memory && output == wanted_output {
        return Ok(wanted);
    }
    let mut report = told_image(case);
    _ = writeln!(report, "{NUMBERS}:");
    _ = writeln!(report, "second program: {:?}\nproved library: {answer:?}", numbers(&wanted));
    report += &told_difference("memory", &wanted_memory, &memory);
    report += &told_difference("output", &wanted_output, &output);
    // The smallest budget that differs names the instruction.
    for budget in 0..wanted.count.saturating_add(2).min(case.budget) {
        let (ran, memory, output) = second_run(case, budget);
        if (numbers(&ran), memory, output) != proved_run(library, case, budget, junk) {
            _ = writeln!(
                report,
                "they differ from budget {budget} on, where the second program gives {:?}",
                numbers(&ran)
            );
            break;
        }
    }
    Err(report)
}

/// A run carried on from where it stopped, with a further budget: by the proved library, or without it by the second machine.
fn carried_on(
    library: Option<Library>,
    from: &Ran,
    memory: &mut [u16],
    input: &[u8],
    output: &mut [u8],
    budget: u64,
) -> Ran {
    let Some(library) = library else {
        return machine::resume(from.registers, from.taken, from.written, memory, input, output, budget);
    };
    let machine::Registers { a, b, c, p, g, last_store } = from.registers;
    let mut answer = [0; 12];
    (library.resume)([a, b, c, p, g], from.taken, from.written, last_store, memory, input, output, budget, &mut answer);
    let [stop, count, taken, written, registers @ ..] = answer;
    let [a, b, c, p, g, any, first, words] = registers.map(|number| number as u16);
    let last_store = Store { any: any == 1, first, words };
    let registers = machine::Registers { a, b, c, p, g, last_store };
    Ran { stop, count, taken: taken as usize, written: written as usize, registers }
}

/// Runs a case in two parts, and then in many, in the same buffers, until a part stops otherwise than for budget or the
/// budgets add up to the whole: this must give what the second machine's whole run gave. How many parts were begun at most.
fn compare_parts(library: Option<Library>, case: &ImageCase, whole: &Ran, seed: u64) -> Result<u64, String> {
    let mut random = Random::new(seed ^ 0x5555);
    let (_, whole_memory, whole_output) = second_run(case, case.budget);
    let start = second_run(case, 0).0;
    let mut most = 0;
    for many in [false, true] {
        let (mut memory, mut output) = (case.memory.clone(), case.output.clone());
        let mut now = Ran { stop: 31, ..start };
        let (mut left, mut parts) = (case.budget, 0);
        while now.stop == 31 && (parts == 0 || left > 0) {
            let part = match parts {
                1 if !many => left,
                _ => (random.next() % (whole.count + 2)).min(left),
            };
            let next = carried_on(library, &now, &mut memory, &case.input, &mut output, part);
            now = Ran { count: now.count + next.count, ..next };
            left -= part;
            parts += 1;
        }
        if numbers(&now) != numbers(whole) || memory != whole_memory || output != whole_output {
            let report = told_image(case);
            let [given, wanted] = [numbers(&now), numbers(whole)];
            return Err(format!("{report}{NUMBERS}:\nin {parts} parts {given:?}\nat once {wanted:?}\n"));
        }
        most = most.max(parts);
    }
    Ok(most)
}

/// The second machine's answer to a case carried on from where some budget left it, sometimes with other registers and
/// places, if the library's is the same in every detail.
fn compare_resumed(library: Option<Library>, case: &ImageCase, count: u64, seed: u64) -> Result<Ran, String> {
    let mut random = Random::new(!seed);
    let (start, memory, output) = second_run(case, random.next() % (count + 1));
    let machine::Registers { a, b, c, p, g, mut last_store } = start.registers;
    let mut words = [a, b, c, p, g];
    let mut places = [start.taken, start.written];
    if random.one_in(2) {
        let (word, place) = (random.below(5), random.below(2));
        words[word] = random.word();
        places[place] = random.pick(&[0, case.input.len(), case.output.len(), case.output.len() + 1, usize::MAX]);
        last_store = Store { any: random.one_in(2), first: random.word(), words: random.word() };
    }
    let [a, b, c, p, g] = words;
    let (mut wanted_memory, mut wanted_output) = (memory.clone(), output.clone());
    let registers = machine::Registers { a, b, c, p, g, last_store };
    let [taken, written] = places;
    let wanted = machine::resume(
        registers,
        taken,
        written,
        &mut wanted_memory,
        &case.input,
        &mut wanted_output,
        case.budget,
    );
    let Some(library) = library else { return Ok(wanted) };
    let (mut given_memory, mut given_output) = (memory, output);
    let mut answer = [!seed; 12];
    (library.resume)(
        words,
        taken,
        written,
        last_store,
        &mut given_memory,
        &case.input,
        &mut given_output,
        case.budget,
        &mut answer,
    );
    if answer == numbers(&wanted) && given_memory == wanted_memory && given_output == wanted_output {
        return Ok(wanted);
    }
    let mut report = told_image(case);
    _ = writeln!(report, "carried on from A, B, C, P, G {words:?}, taken and written {places:?}, {last_store:?}");
    _ = writeln!(report, "{NUMBERS}:");
    _ = writeln!(report, "second program: {:?}\nproved library: {answer:?}", numbers(&wanted));
    report += &told_difference("memory", &wanted_memory, &given_memory);
    report += &told_difference("output", &wanted_output, &given_output);
    Err(report)
}

fn told_image(case: &ImageCase) -> String {
    let len = case.memory.len();
    let mut told = format!("memory {len} words, first stack word {}, budget {}\n", case.first, case.budget);
    _ = writeln!(told, "input \"{}\", output room {}", case.input.escape_ascii(), case.output.len());
    let lines = case.memory.chunks(16).enumerate().filter(|(_, words)| words.iter().any(|&word| word != 0));
    for (line, words) in lines.clone().take(64) {
        _ = writeln!(told, "{:5}: {words:?}", line * 16);
    }
    let left = lines.count().saturating_sub(64);
    if left > 0 {
        _ = writeln!(told, "and {left} more lines of 16 words");
    }
    told
}

/// Runs a case again one instruction at a time: this must give what the whole run gave. It also counts the functions
/// and the plain acts done, to know that the images reach them all.
fn carry_on(case: &ImageCase, whole: Ran, acts: &mut Tally) -> Result<(), String> {
    let (mut memory, mut output) = (case.memory.clone(), case.output.clone());
    let mut now = machine::run(&mut memory, case.first, &case.input, &mut output, 0);
    let mut count = 0;
    while now.stop == 31 && count < case.budget {
        let word = case_word(&memory, now.registers.c);
        now = machine::resume(now.registers, now.taken, now.written, &mut memory, &case.input, &mut output, 1);
        count += now.count;
        if now.count == 1 {
            let function = u64::from(word >> 13);
            if function < 7 {
                *acts.entry(function).or_default() += 1;
            } else if word & 0o17000 == 0 {
                *acts.entry(100 + u64::from(word & 511)).or_default() += 1;
            }
        }
    }
    now.count = count;
    if now == whole && (now, memory, output) == second_run(case, case.budget) {
        Ok(())
    } else {
        Err(format!("{}one by one {:?}\nat once    {:?}", told_image(case), numbers(&now), numbers(&whole)))
    }
}

fn case_word(memory: &[u16], address: u16) -> u16 {
    memory.get(usize::from(address)).copied().unwrap_or(0)
}
