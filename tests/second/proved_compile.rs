//! The proved compiler behind a safe function. It is linked in when this is built with `--cfg proved`; without that the
//! second compiler stands in for it.

/// Source, scratch, text, and the answer: 0, the text's length, 0; or number, place, line.
pub type Compile = fn(&[u8], &mut [u32], &mut [u8], &mut [u64; 3]);

#[cfg(not(proved))]
pub fn library() -> Option<Compile> {
    None
}

#[cfg(proved)]
pub fn library() -> Option<Compile> {
    Some(linked::compile)
}

#[cfg(proved)]
mod linked {
    extern "C" {
        fn morkvasil_compile(
            source: *const u8,
            source_len: usize,
            scratch: *mut u32,
            scratch_len: usize,
            text: *mut u8,
            text_len: usize,
            answer: *mut u64,
        );
    }

    pub fn compile(source: &[u8], scratch: &mut [u32], text: &mut [u8], answer: &mut [u64; 3]) {
        // Sound: every pointer comes from a slice that lives through the call, with that slice's own length; the answer's
        // length is fixed on both sides.
        unsafe {
            morkvasil_compile(
                source.as_ptr(),
                source.len(),
                scratch.as_mut_ptr(),
                scratch.len(),
                text.as_mut_ptr(),
                text.len(),
                answer.as_mut_ptr(),
            );
        }
    }
}
