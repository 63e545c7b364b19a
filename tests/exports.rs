//! The library's exported calls. A slice is lent as its pointer and its length in words; a list of transfers as
//! its pointer and its length in records.

// Each program calls some of them.
#![allow(dead_code)]

use second::calls::{Calls, FIELDS};
use second::machine::Transfer;

extern "C" {
    fn argo_load(
        sheet: *const u32,
        sheet_words: usize,
        state: *mut u32,
        state_words: usize,
        memory: *const u32,
        memory_words: usize,
    ) -> u32;
    fn argo_start(
        state: *mut u32,
        state_words: usize,
        circuit: u32,
        read: u32,
        write: u32,
        count: u32,
        kind: u32,
    ) -> u32;
    fn argo_store(
        state: *const u32,
        state_words: usize,
        memory: *mut u32,
        memory_words: usize,
        node: u32,
        address: u32,
        word: u32,
    ) -> u32;
    fn argo_fetch(
        state: *const u32,
        state_words: usize,
        memory: *const u32,
        memory_words: usize,
        node: u32,
        address: u32,
    ) -> u64;
    fn argo_words_left(state: *const u32, state_words: usize, circuit: u32) -> u64;
    fn argo_period_number(state: *const u32, state_words: usize) -> u64;
    fn argo_landed(state: *const u32, state_words: usize, node: u32, field: u32) -> u64;
    fn argo_order(state: *mut u32, state_words: usize, schedule: u32, period_number: u32) -> u32;
    fn argo_cycle(state: *mut u32, state_words: usize, memory: *mut u32, memory_words: usize) -> u32;
    fn argo_start_all(
        state: *mut u32,
        state_words: usize,
        transfers: *const Transfer,
        transfers_len: usize,
        answers: *mut u32,
        answers_words: usize,
    ) -> u32;
    fn argo_start_lists(
        state: *mut u32,
        state_words: usize,
        circuits: *const u32,
        circuits_words: usize,
        reads: *const u32,
        reads_words: usize,
        writes: *const u32,
        writes_words: usize,
        counts: *const u32,
        counts_words: usize,
        kinds: *const u32,
        kinds_words: usize,
        answers: *mut u32,
        answers_words: usize,
    ) -> u32;
    fn argo_state_words() -> u32;
    fn argo_entries(sheet: *const u32, sheet_words: usize, schedule: u32, field: u32) -> u64;
    fn argo_hours(list: *const u32, list_words: usize, minute: u32, field: u32) -> u64;
}

/// Field 0: the place of the schedule's first entry word in the sheet; 1 how many words its
/// entries are; any other: 0.
pub fn entries(sheet: &[u32], schedule: u32, field: u32) -> u64 {
    // The pointer and the length are those of a live slice.
    unsafe { argo_entries(sheet.as_ptr(), sheet.len(), schedule, field) }
}

/// Field 0: the schedule of a minute by a timetable; 1: whether it ever changes; 2: the next minute at which it
/// differs; any other: 0.
pub fn hours(list: &[u32], minute: u32, field: u32) -> u64 {
    // The pointer and the length are those of a live slice.
    unsafe { argo_hours(list.as_ptr(), list.len(), minute, field) }
}

pub struct Exports;

// In each call the pointers and lengths are those of live slices, and none of them overlap.
impl Calls for Exports {
    fn load(&mut self, sheet: &[u32], state: &mut [u32], memory: &[u32]) -> u32 {
        unsafe {
            argo_load(sheet.as_ptr(), sheet.len(), state.as_mut_ptr(), state.len(), memory.as_ptr(), memory.len())
        }
    }

    fn start(&mut self, state: &mut [u32], circuit: u32, read: u32, write: u32, count: u32, kind: u32) -> u32 {
        unsafe { argo_start(state.as_mut_ptr(), state.len(), circuit, read, write, count, kind) }
    }

    fn store(&mut self, state: &[u32], memory: &mut [u32], node: u32, address: u32, word: u32) -> u32 {
        unsafe { argo_store(state.as_ptr(), state.len(), memory.as_mut_ptr(), memory.len(), node, address, word) }
    }

    fn fetch(&mut self, state: &[u32], memory: &[u32], node: u32, address: u32) -> u64 {
        unsafe { argo_fetch(state.as_ptr(), state.len(), memory.as_ptr(), memory.len(), node, address) }
    }

    fn words_left(&mut self, state: &[u32], circuit: u32) -> u64 {
        unsafe { argo_words_left(state.as_ptr(), state.len(), circuit) }
    }

    fn period_number(&mut self, state: &[u32]) -> u64 {
        unsafe { argo_period_number(state.as_ptr(), state.len()) }
    }

    fn landed(&mut self, state: &[u32], node: u32, field: u32) -> u64 {
        unsafe { argo_landed(state.as_ptr(), state.len(), node, field) }
    }

    fn order(&mut self, state: &mut [u32], schedule: u32, period_number: u32) -> u32 {
        unsafe { argo_order(state.as_mut_ptr(), state.len(), schedule, period_number) }
    }

    fn cycle(&mut self, state: &mut [u32], memory: &mut [u32]) -> u32 {
        unsafe { argo_cycle(state.as_mut_ptr(), state.len(), memory.as_mut_ptr(), memory.len()) }
    }

    fn start_all(&mut self, state: &mut [u32], transfers: &[Transfer], answers: &mut [u32]) -> u32 {
        unsafe {
            argo_start_all(
                state.as_mut_ptr(),
                state.len(),
                transfers.as_ptr(),
                transfers.len(),
                answers.as_mut_ptr(),
                answers.len(),
            )
        }
    }

    fn start_lists(&mut self, state: &mut [u32], lists: [&[u32]; FIELDS], answers: &mut [u32]) -> u32 {
        let [circuits, reads, writes, counts, kinds] = lists;
        unsafe {
            argo_start_lists(
                state.as_mut_ptr(),
                state.len(),
                circuits.as_ptr(),
                circuits.len(),
                reads.as_ptr(),
                reads.len(),
                writes.as_ptr(),
                writes.len(),
                counts.as_ptr(),
                counts.len(),
                kinds.as_ptr(),
                kinds.len(),
                answers.as_mut_ptr(),
                answers.len(),
            )
        }
    }

    fn state_words(&mut self) -> u32 {
        unsafe { argo_state_words() }
    }
}
