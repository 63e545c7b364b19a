//! The library's calls for tests alone. A slice is lent as its pointer and its length in words. Where a program also links the
//! exported calls, only the probes are taken from here.

// Each program calls some of them.
#![allow(dead_code)]

use second::quiet::Probes;

extern "C" {
    fn probe_rest(state: *mut u32, state_words: usize, most: u32) -> u64;
    fn probe_cycles(state: *mut u32, state_words: usize, memory: *mut u32, memory_words: usize, count: u32) -> u64;
    fn probe_accepts(sheet: *const u32, sheet_words: usize) -> u32;
}

/// Whether the checker's quick pass accepts a sheet; an answer other than 0 and 1 is none.
pub fn accepts(sheet: &[u32]) -> Option<bool> {
    // The pointer and the length are those of a live slice.
    match unsafe { probe_accepts(sheet.as_ptr(), sheet.len()) } {
        0 => Some(false),
        1 => Some(true),
        _ => None,
    }
}

pub struct Library;

// In each call the pointers and lengths are those of live slices, and none of them overlap.
impl Probes for Library {
    fn rest(&mut self, state: &mut [u32], most: u32) -> u64 {
        unsafe { probe_rest(state.as_mut_ptr(), state.len(), most) }
    }

    fn cycles(&mut self, state: &mut [u32], memory: &mut [u32], count: u32) -> u64 {
        unsafe { probe_cycles(state.as_mut_ptr(), state.len(), memory.as_mut_ptr(), memory.len(), count) }
    }
}
