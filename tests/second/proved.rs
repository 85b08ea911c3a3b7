//! The proved library behind safe functions. It is linked in when this is built with `--cfg proved`; without that the
//! generators and the second program can still be run by themselves.

use crate::machine::Store;

/// Text, memory, labels (number * 65536 + address), and the answer: 0, first stack word, 0; or number, place, line.
pub type Assemble = fn(&[u8], &mut [u16], &mut [u32], &mut [u64; 3]);

/// Memory, first stack word, input, output, budget, and the answer: stop, count, taken, written, A, B, C, P, G, and of the last
/// store whether there was any, 1 or 0, the first address, and the number of words.
pub type Run = fn(&mut [u16], u16, &[u8], &mut [u8], u64, &mut [u64; 12]);

/// The same from registers and places: A, B, C, P, G, the bytes taken and written, and the last store.
pub type Resume = fn([u16; 5], usize, usize, Store, &mut [u16], &[u8], &mut [u8], u64, &mut [u64; 12]);

#[derive(Clone, Copy)]
pub struct Library {
    pub assemble: Assemble,
    pub run: Run,
    pub resume: Resume,
}

#[cfg(not(proved))]
pub fn library() -> Option<Library> {
    None
}

#[cfg(proved)]
pub fn library() -> Option<Library> {
    Some(Library { assemble: linked::assemble, run: linked::run, resume: linked::resume })
}

#[cfg(proved)]
mod linked {
    use crate::machine::Store;

    /// A record of the library's label table: two words, the first first.
    #[repr(C)]
    #[derive(Clone, Copy)]
    struct Label {
        number: u16,
        address: u16,
    }

    extern "C" {
        fn morkvasil_assemble(
            text: *const u8,
            text_len: usize,
            memory: *mut u16,
            memory_len: usize,
            labels: *mut Label,
            labels_len: usize,
            answer: *mut u64,
        );
        fn morkvasil_run(
            memory: *mut u16,
            memory_len: usize,
            first: u16,
            input: *const u8,
            input_len: usize,
            output: *mut u8,
            output_len: usize,
            budget: u64,
            answer: *mut u64,
        );
        fn morkvasil_resume(
            a: u16,
            b: u16,
            c: u16,
            p: u16,
            g: u16,
            taken: usize,
            written: usize,
            stored: bool,
            from: u16,
            words: u16,
            memory: *mut u16,
            memory_len: usize,
            input: *const u8,
            input_len: usize,
            output: *mut u8,
            output_len: usize,
            budget: u64,
            answer: *mut u64,
        );
    }

    pub fn assemble(text: &[u8], memory: &mut [u16], labels: &mut [u32], answer: &mut [u64; 3]) {
        let mut records: Vec<Label> =
            labels.iter().map(|&key| Label { number: (key >> 16) as u16, address: key as u16 }).collect();
        // Sound: every pointer comes from a slice that lives through the call, with that slice's own length; the answer's
        // length is fixed on both sides.
        unsafe {
            morkvasil_assemble(
                text.as_ptr(),
                text.len(),
                memory.as_mut_ptr(),
                memory.len(),
                records.as_mut_ptr(),
                records.len(),
                answer.as_mut_ptr(),
            );
        }
        for (key, record) in labels.iter_mut().zip(&records) {
            *key = u32::from(record.number) << 16 | u32::from(record.address);
        }
    }

    pub fn run(memory: &mut [u16], first: u16, input: &[u8], output: &mut [u8], budget: u64, answer: &mut [u64; 12]) {
        // Sound: as above.
        unsafe {
            morkvasil_run(
                memory.as_mut_ptr(),
                memory.len(),
                first,
                input.as_ptr(),
                input.len(),
                output.as_mut_ptr(),
                output.len(),
                budget,
                answer.as_mut_ptr(),
            );
        }
    }

    #[allow(clippy::too_many_arguments)]
    pub fn resume(
        [a, b, c, p, g]: [u16; 5],
        taken: usize,
        written: usize,
        last_store: Store,
        memory: &mut [u16],
        input: &[u8],
        output: &mut [u8],
        budget: u64,
        answer: &mut [u64; 12],
    ) {
        // Sound: as above.
        unsafe {
            morkvasil_resume(
                a,
                b,
                c,
                p,
                g,
                taken,
                written,
                last_store.any,
                last_store.first,
                last_store.words,
                memory.as_mut_ptr(),
                memory.len(),
                input.as_ptr(),
                input.len(),
                output.as_mut_ptr(),
                output.len(),
                budget,
                answer.as_mut_ptr(),
            );
        }
    }
}
