//! The second machine: a plain interpreter of memory images, written from the rules alone and sharing nothing with the
//! proved machine.

#[derive(Clone, Copy, Debug, PartialEq, Eq)]
pub struct Registers {
    pub a: u16,
    pub b: u16,
    pub c: u16,
    pub p: u16,
    pub g: u16,
    pub last_store: Store,
}

/// What the last completed instruction stored: whether anything, the first address, and the number of words.
#[derive(Clone, Copy, Debug, Default, PartialEq, Eq)]
pub struct Store {
    pub any: bool,
    pub first: u16,
    pub words: u16,
}

/// How a run ended. `taken` and `written` are the input and output places that it left.
#[derive(Clone, Copy, Debug, PartialEq, Eq)]
pub struct Ran {
    pub stop: u64,
    pub count: u64,
    pub taken: usize,
    pub written: usize,
    pub registers: Registers,
}

const FINISHED: u64 = 30;
const BUDGET: u64 = 31;
const ADDRESS: u64 = 32;
const ZERO_DIVISOR: u64 = 33;
const UNKNOWN_ACT: u64 = 34;
const OUTPUT_FULL: u64 = 35;
const MEMORY_LENGTH: u64 = 24;

/// A run from the start: registers as the rules set them, input and output at their first byte.
pub fn run(memory: &mut [u16], first: u16, input: &[u8], output: &mut [u8], budget: u64) -> Ran {
    let start = Registers { a: 0, b: 0, c: 0, p: first, g: 16, last_store: Store::default() };
    resume(start, 0, 0, memory, input, output, budget)
}

/// A run carried on from any registers and places.
pub fn resume(
    registers: Registers,
    input_place: usize,
    output_place: usize,
    memory: &mut [u16],
    input: &[u8],
    output: &mut [u8],
    budget: u64,
) -> Ran {
    let mut ran = Ran { stop: MEMORY_LENGTH, count: 0, taken: input_place, written: output_place, registers };
    if !(512..=32768).contains(&memory.len()) {
        return ran;
    }
    let mut surroundings = Surroundings { memory, input, output, taken: input_place, written: output_place };
    ran.stop = loop {
        if ran.count == budget {
            break BUDGET;
        }
        // An instruction that cannot be done changes neither the registers nor its surroundings.
        match surroundings.instruction(ran.registers) {
            Ok((after, finished)) => {
                ran.registers = after;
                ran.count += 1;
                if finished {
                    break FINISHED;
                }
            }
            Err(stop) => break stop,
        }
    };
    ran.taken = surroundings.taken;
    ran.written = surroundings.written;
    ran
}

/// All that an instruction may touch beside the registers.
struct Surroundings<'a> {
    memory: &'a mut [u16],
    input: &'a [u8],
    output: &'a mut [u8],
    taken: usize,
    written: usize,
}

impl Surroundings<'_> {
    fn read(&self, address: u16) -> Result<u16, u64> {
        self.memory.get(usize::from(address)).copied().ok_or(ADDRESS)
    }

    fn write(&mut self, address: u16, word: u16) -> Result<(), u64> {
        *self.memory.get_mut(usize::from(address)).ok_or(ADDRESS)? = word;
        Ok(())
    }

    /// Does one instruction: the registers after it, and whether it was the finish.
    fn instruction(&mut self, before: Registers) -> Result<(Registers, bool), u64> {
        let mut now = Registers { last_store: Store::default(), ..before };
        let word = self.read(now.c)?;
        now.c = now.c.wrapping_add(1);
        let mut operand = word & 511;
        if word & 512 != 0 {
            operand = self.read(now.c)?;
            now.c = now.c.wrapping_add(1);
        }
        if word & 2048 != 0 {
            operand = operand.wrapping_add(now.p);
        }
        if word & 1024 != 0 {
            operand = operand.wrapping_add(now.g);
        }
        if word & 4096 != 0 {
            operand = self.read(operand)?;
        }
        match word >> 13 {
            0 => {
                now.b = now.a;
                now.a = operand;
            }
            1 => {
                self.write(operand, now.a)?;
                now.last_store = Store { any: true, first: operand, words: 1 };
            }
            2 => now.a = now.a.wrapping_add(operand),
            3 => now.c = operand,
            4 if now.a != 0 => now.c = operand,
            5 if now.a == 0 => now.c = operand,
            4 | 5 => {}
            6 => {
                let frame = now.p.wrapping_add(operand);
                // The link's second word is looked at first: a K never stores half.
                self.read(frame.wrapping_add(1))?;
                self.write(frame, now.p)?;
                self.write(frame.wrapping_add(1), now.c)?;
                now.last_store = Store { any: true, first: frame, words: 2 };
                now.p = frame;
                now.c = now.a;
            }
            _ => return self.act(operand, now),
        }
        Ok((now, false))
    }

    /// Act `number` of X, with C already past the instruction.
    fn act(&mut self, number: u16, mut now: Registers) -> Result<(Registers, bool), u64> {
        let (left, right) = (now.b, now.a);
        let (signed_left, signed_right) = (left as i16, right as i16);
        let truth = |holds: bool| if holds { 65535 } else { 0 };
        now.a = match number {
            1 => self.read(right)?,
            2 => right.wrapping_neg(),
            3 => !right,
            4 => {
                now.c = self.read(now.p.wrapping_add(1))?;
                now.p = self.read(now.p)?;
                right
            }
            5 => left.wrapping_mul(right),
            6 | 7 if right == 0 => return Err(ZERO_DIVISOR),
            6 => signed_left.wrapping_div(signed_right) as u16,
            7 => signed_left.wrapping_rem(signed_right) as u16,
            8 => left.wrapping_add(right),
            9 => left.wrapping_sub(right),
            10 => truth(left == right),
            11 => truth(left != right),
            12 => truth(signed_left < signed_right),
            13 => truth(signed_left >= signed_right),
            14 => truth(signed_left > signed_right),
            15 => truth(signed_left <= signed_right),
            16 => left.checked_shl(u32::from(right)).unwrap_or(0),
            17 => left.checked_shr(u32::from(right)).unwrap_or(0),
            18 => left & right,
            19 => left | right,
            22 => return Ok((now, true)),
            23 => {
                now.c = self.switched(right, now.c)?;
                right
            }
            27 => match self.input.get(self.taken) {
                Some(&byte) => {
                    self.taken += 1;
                    u16::from(byte)
                }
                None => 65535,
            },
            28 => {
                *self.output.get_mut(self.written).ok_or(OUTPUT_FULL)? = right as u8;
                self.written += 1;
                right
            }
            _ => return Err(UNKNOWN_ACT),
        };
        Ok((now, false))
    }

    /// Where a switch on `value` goes, its table standing at `table`.
    fn switched(&self, value: u16, table: u16) -> Result<u16, u64> {
        let pairs = self.read(table)?;
        let default = self.read(table.wrapping_add(1))?;
        let mut pair = table.wrapping_add(2);
        for _ in 0..pairs {
            if self.read(pair)? == value {
                return self.read(pair.wrapping_add(1));
            }
            pair = pair.wrapping_add(2);
        }
        Ok(default)
    }
}
