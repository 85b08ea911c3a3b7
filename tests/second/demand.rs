//! What is demanded of the compiler's text, held against the source run by its definition: the rules on labels, placement,
//! sizes and refusals, and for one input the output, the input taken, every global and string word and the count of
//! instructions, within any budget, any output room and any memory that the run leaves eight words of.

use crate::assembler::{assemble, Assembly};
use crate::machine;
use crate::random::Random;
use crate::rules::{string_words, Program};
use crate::run::{run, End, Placement, Ran, GLOBAL_COUNT};
use crate::symbols::{kind::SEMICOLON, read_symbols};

const GLOBALS: usize = 16;
const PROGRAM: usize = 416;
const LEAST_MEMORY: usize = 512;
const MOST_MEMORY: usize = 32_768;
/// The last words of the memory that a run may not use.
const SPARE: usize = 8;

const FINISHED: u64 = 30;
const BUDGET: u64 = 31;
const OUTPUT_FULL: u64 = 35;

/// How a source run ended, and, where the text was held to it, its steps and the instructions done for them.
pub struct Held {
    pub end: End,
    pub steps_and_count: Option<(u64, u64)>,
}

/// Holds the text of an accepted source to all that is demanded, on one input. A source run is followed for so many steps.
pub fn hold(
    source: &[u8],
    program: &Program,
    text: &[u8],
    input: &[u8],
    budget: u64,
    random: &mut Random,
) -> Result<Option<Held>, String> {
    at_most("bytes of text", text.len(), 64 * source.len() + 1024)?;
    let Some(whole) = assembled(text, MOST_MEMORY, text.len())? else { return Ok(None) };
    check_sizes(source, program, &whole)?;
    let placement = placement(program, &whole)?;
    check_entries(&placement)?;
    check_strings(program, &placement, &whole)?;
    check_rooms(text, &whole)?;
    check_run(program, text, &placement, input, budget, random).map(Some)
}

fn require(holds: bool, complaint: impl FnOnce() -> String) -> Result<(), String> {
    if holds {
        Ok(())
    } else {
        Err(complaint())
    }
}

fn at_most(what: &str, many: usize, most: usize) -> Result<(), String> {
    require(many <= most, || format!("{many} {what}, more than {most}"))
}

/// A text may be refused, but only by 24 or 25. It has fewer labels than bytes.
fn assembled(text: &[u8], memory: usize, labels: usize) -> Result<Option<Assembly>, String> {
    let assembly = assemble(text, memory, labels);
    match assembly.refusal {
        None => Ok(Some(assembly)),
        Some(refusal) if matches!(refusal.number, 24 | 25) => Ok(None),
        Some(refusal) => Err(format!("the text is refused: {refusal:?}")),
    }
}

fn label_count(assembly: &Assembly) -> usize {
    assembly.labels.iter().filter(|&&(number, _)| number != 0).count()
}

// ---------------------------------------------------------------------------------------------------------------------
// The rules on the text

fn check_sizes(source: &[u8], program: &Program, whole: &Assembly) -> Result<(), String> {
    at_most("labels", label_count(whole), source.len() + 8)?;
    let words = usize::from(whole.first_stack_word) - PROGRAM;
    let own: usize = program.strings.iter().map(|string| string_words(string).len()).sum();
    at_most("program words beside the strings", words - own, 8 * symbol_count(source) + 16)
}

/// Inserted semicolons are no symbols of the source.
fn symbol_count(source: &[u8]) -> usize {
    let symbols = read_symbols(source).unwrap_or_default();
    let written = symbols.iter().filter(|symbol| symbol.kind != SEMICOLON || source[symbol.place as usize] == b';');
    written.count()
}

/// Functions have the labels from 1 on, strings those after them.
fn placement(program: &Program, whole: &Assembly) -> Result<Placement, String> {
    let address = |label: usize| {
        let found = whole.labels.iter().find(|&&(number, _)| usize::from(number) == label);
        found.map(|&(_, address)| address).ok_or(format!("label {label} is missing"))
    };
    let functions = program.functions.len();
    let strings = program.strings.len();
    Ok(Placement {
        entries: (1..=functions).map(address).collect::<Result<_, _>>()?,
        strings: (functions + 1..=functions + strings).map(address).collect::<Result<_, _>>()?,
        first: whole.first_stack_word,
    })
}

fn check_entries(placement: &Placement) -> Result<(), String> {
    let mut entries = placement.entries.clone();
    entries.extend([3, 5]);
    entries.sort_unstable();
    require(entries.windows(2).all(|pair| pair[0] != pair[1]), || format!("entries that are equal: {entries:?}"))
}

/// Strings stand whole among the program's words, apart from each other.
fn check_strings(program: &Program, placement: &Placement, whole: &Assembly) -> Result<(), String> {
    let mut stand: Vec<(usize, usize)> = Vec::new();
    for (&address, characters) in placement.strings.iter().zip(&program.strings) {
        let words = string_words(characters);
        let (from, to) = (usize::from(address), usize::from(address) + words.len());
        require(PROGRAM <= from && to <= usize::from(placement.first), || {
            format!("a string at {from} to {to} is not among the program's words")
        })?;
        require(whole.memory[from..to] == words, || format!("another string at {from}"))?;
        stand.push((from, to));
    }
    stand.sort_unstable();
    require(stand.windows(2).all(|pair| pair[0].1 <= pair[1].0), || format!("strings overlap: {stand:?}"))
}

/// The text is accepted with exactly as much memory and label room as it takes, and with less of either refused.
fn check_rooms(text: &[u8], whole: &Assembly) -> Result<(), String> {
    let end = usize::from(whole.first_stack_word);
    let labels = label_count(whole);
    let memory = end.max(LEAST_MEMORY);
    let tight = assembled(text, memory, labels)?.ok_or("refused with memory and label room enough")?;
    require(tight.labels[..] == whole.labels[..labels] && tight.first_stack_word == whole.first_stack_word, || {
        "another placement in a smaller memory".to_string()
    })?;
    if end > LEAST_MEMORY {
        require(assembled(text, end - 1, labels)?.is_none(), || "accepted with memory too short".to_string())?;
    }
    if labels > 0 {
        require(assembled(text, memory, labels - 1)?.is_none(), || "accepted with too few labels".to_string())?;
    }
    Ok(())
}

// ---------------------------------------------------------------------------------------------------------------------
// The run

fn check_run(
    program: &Program,
    text: &[u8],
    placement: &Placement,
    input: &[u8],
    budget: u64,
    random: &mut Random,
) -> Result<Held, String> {
    let wanted = run(program, placement, MOST_MEMORY, input, budget);
    let tightest = (wanted.used + SPARE).max(LEAST_MEMORY);
    if wanted.end != End::Over || tightest > MOST_MEMORY {
        return Ok(Held { end: wanted.end, steps_and_count: None });
    }
    let between = random.between(tightest as i64, MOST_MEMORY as i64) as usize;
    let mut count = 0;
    for length in [MOST_MEMORY, tightest, between] {
        let assembly = assembled(text, length, text.len())?.ok_or("refused in a smaller memory")?;
        let case = Case { program, assembly, placement, input, wanted: &wanted };
        let complain = |complaint| format!("in a memory of {length} words, {complaint}");
        case.check_definition(budget).map_err(complain)?;
        count = case.check_whole().map_err(complain)?;
        case.check_smaller_budgets(count, random).map_err(complain)?;
        case.check_smaller_rooms(random).map_err(complain)?;
    }
    Ok(Held { end: End::Over, steps_and_count: Some((wanted.steps, count)) })
}

/// A run of the text in a memory of one length, and the source run that it is held to.
struct Case<'a> {
    program: &'a Program,
    assembly: Assembly,
    placement: &'a Placement,
    input: &'a [u8],
    wanted: &'a Ran,
}

/// What the machine leaves.
struct Left {
    ran: machine::Ran,
    output: Vec<u8>,
    memory: Vec<u16>,
}

impl Case<'_> {
    fn machine(&self, room: usize, budget: u64) -> Left {
        let mut memory = self.assembly.memory.clone();
        let mut output = vec![0; room];
        let ran = machine::run(&mut memory, self.placement.first, self.input, &mut output, budget);
        output.truncate(ran.written);
        Left { ran, output, memory }
    }

    /// The source run itself is the same in every memory that it leaves enough of.
    fn check_definition(&self, budget: u64) -> Result<(), String> {
        let again = run(self.program, self.placement, self.assembly.memory.len(), self.input, budget);
        let told = |ran: &Ran| (ran.end, ran.steps, ran.taken, ran.used, ran.output.clone(), ran.globals.clone());
        require(told(&again) == told(self.wanted), || "the source run is another".to_string())
    }

    /// The whole run, within the instructions that its steps allow; their number.
    fn check_whole(&self) -> Result<u64, String> {
        let wanted = self.wanted;
        let most = 16 * wanted.steps + 16;
        let left = self.machine(wanted.output.len(), most);
        let ran = left.ran;
        require(ran.stop == FINISHED, || {
            format!("it stops {} after {} instructions, of at most {most}", ran.stop, ran.count)
        })?;
        require(left.output == wanted.output, || told("output", &wanted.output, &left.output))?;
        require(ran.taken == wanted.taken, || told("input taken", &wanted.taken, &ran.taken))?;
        let globals = &left.memory[GLOBALS..GLOBALS + GLOBAL_COUNT];
        if let Some(global) = (0..GLOBAL_COUNT).find(|&global| globals[global] != wanted.globals[global]) {
            return Err(told(&format!("global {global}"), &wanted.globals[global], &globals[global]));
        }
        for (number, (words, &address)) in wanted.strings.iter().zip(&self.placement.strings).enumerate() {
            let given = &left.memory[usize::from(address)..][..words.len()];
            require(given == words, || told(&format!("string {number}"), words, &given))?;
        }
        Ok(ran.count)
    }

    /// Fewer instructions than the run takes: it stops 31 with a beginning of the output.
    fn check_smaller_budgets(&self, count: u64, random: &mut Random) -> Result<(), String> {
        let some = random.below(count as usize) as u64;
        for budget in [0, some, count - 1] {
            let left = self.machine(self.wanted.output.len(), budget);
            let (stop, done) = (left.ran.stop, left.ran.count);
            require(stop == BUDGET && done == budget, || {
                format!("with a budget of {budget} it stops {stop} after {done} instructions")
            })?;
            self.check_beginning(&left)?;
        }
        Ok(())
    }

    /// Less room than the output takes: it is filled with a beginning of the output.
    fn check_smaller_rooms(&self, random: &mut Random) -> Result<(), String> {
        let length = self.wanted.output.len();
        if length == 0 {
            return Ok(());
        }
        for room in [0, random.below(length), length - 1] {
            let left = self.machine(room, 16 * self.wanted.steps + 16);
            let stop = left.ran.stop;
            require(stop == OUTPUT_FULL && left.output.len() == room, || {
                format!("with room for {room} bytes it stops {stop} with {} written", left.output.len())
            })?;
            self.check_beginning(&left)?;
        }
        Ok(())
    }

    fn check_beginning(&self, left: &Left) -> Result<(), String> {
        require(self.wanted.output.starts_with(&left.output) && left.ran.taken <= self.wanted.taken, || {
            told("no beginning of the output", &self.wanted.output, &left.output)
        })
    }
}

fn told(what: &str, source_run: &dyn std::fmt::Debug, machine: &dyn std::fmt::Debug) -> String {
    format!("{what}\nsource run: {source_run:?}\nmachine:    {machine:?}")
}
