//! The proved library's reader of sources behind safe functions. It is linked in when this is built with `--cfg proved`;
//! without that the generators and the second reader can still be run by themselves.

/// Text, scratch, and the answer. Symbols: 0, their count, 0, with kind, value and place of each in the scratch. Tree: 0,
/// its end, 0, with the symbols in the scratch and the tree behind them. Refused: number, place, line.
pub type Read = fn(&[u8], &mut [u32], &mut [u64; 3]);

#[derive(Clone, Copy)]
pub struct Library {
    pub symbols: Read,
    pub tree: Read,
}

#[cfg(not(proved))]
pub fn library() -> Option<Library> {
    None
}

#[cfg(proved)]
pub fn library() -> Option<Library> {
    Some(Library { symbols: linked::symbols, tree: linked::tree })
}

#[cfg(proved)]
mod linked {
    extern "C" {
        fn morkvasil_symbols(text: *const u8, text_len: usize, scratch: *mut u32, scratch_len: usize, answer: *mut u64);
        fn morkvasil_tree(text: *const u8, text_len: usize, scratch: *mut u32, scratch_len: usize, answer: *mut u64);
    }

    pub fn symbols(text: &[u8], scratch: &mut [u32], answer: &mut [u64; 3]) {
        // Sound: every pointer comes from a slice that lives through the call, with that slice's own length; the answer's
        // length is fixed on both sides.
        unsafe {
            morkvasil_symbols(text.as_ptr(), text.len(), scratch.as_mut_ptr(), scratch.len(), answer.as_mut_ptr());
        }
    }

    pub fn tree(text: &[u8], scratch: &mut [u32], answer: &mut [u64; 3]) {
        // Sound: as above.
        unsafe {
            morkvasil_tree(text.as_ptr(), text.len(), scratch.as_mut_ptr(), scratch.len(), answer.as_mut_ptr());
        }
    }
}
