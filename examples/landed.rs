//! The key's example through the exported calls: sheet A is loaded, node 0 holds 11, 22 and 33, a transfer of these three words is
//! started, and what lands in twenty cycles is listed.
//!
//! tools/build exports
//! rustc --edition 2021 -O examples/landed.rs -L target/staticlib -l static=exports -o target/examples/landed

use std::fmt;
use std::process::ExitCode;

/// The calls that this program uses; examples/argo.h has all of them. A slice is a pointer and then its length in words.
mod argo {
    extern "C" {
        pub fn argo_state_words() -> u32;
        pub fn argo_load(
            sheet: *const u32,
            sheet_words: usize,
            state: *mut u32,
            state_words: usize,
            memory: *const u32,
            memory_words: usize,
        ) -> u32;
        pub fn argo_start(
            state: *mut u32,
            state_words: usize,
            circuit: u32,
            read: u32,
            write: u32,
            count: u32,
            kind: u32,
        ) -> u32;
        pub fn argo_store(
            state: *const u32,
            state_words: usize,
            memory: *mut u32,
            memory_words: usize,
            node: u32,
            address: u32,
            word: u32,
        ) -> u32;
        pub fn argo_landed(state: *const u32, state_words: usize, node: u32, field: u32) -> u64;
        pub fn argo_cycle(state: *mut u32, state_words: usize, memory: *mut u32, memory_words: usize) -> u32;
    }
}

/// The number of a refusal.
struct Refused(u32);

impl fmt::Display for Refused {
    fn fmt(&self, out: &mut fmt::Formatter) -> fmt::Result {
        write!(out, "refused {}", self.0)
    }
}

/// The answer of a call without a value.
fn carried_out(number: u32) -> Result<(), Refused> {
    match number {
        0 => Ok(()),
        number => Err(Refused(number)),
    }
}

/// The answer of a call with a value: number × 2^32 + value.
fn value(answer: u64) -> Result<u32, Refused> {
    carried_out((answer >> 32) as u32)?;
    Ok(answer as u32)
}

struct Transfer {
    circuit: u32,
    read: u32,
    write: u32,
    count: u32,
    kind: u32,
}

struct Landing {
    kind: u32,
    address: u32,
    word: u32,
}

/// A loaded sheet with its state and its memories.
struct Session {
    state: Vec<u32>,
    memory: Vec<u32>,
}

// Each call is lent slices that live for as long as the call, with their lengths; no two of them overlap.
impl Session {
    fn load(sheet: &[u32], memory: Vec<u32>) -> Result<Session, Refused> {
        let mut state = vec![0; unsafe { argo::argo_state_words() } as usize];
        carried_out(unsafe {
            argo::argo_load(sheet.as_ptr(), sheet.len(), state.as_mut_ptr(), state.len(), memory.as_ptr(), memory.len())
        })?;
        Ok(Session { state, memory })
    }

    fn store(&mut self, node: u32, address: u32, word: u32) -> Result<(), Refused> {
        let (state, memory) = (&self.state, &mut self.memory);
        carried_out(unsafe {
            argo::argo_store(state.as_ptr(), state.len(), memory.as_mut_ptr(), memory.len(), node, address, word)
        })
    }

    fn start(&mut self, transfer: &Transfer) -> Result<(), Refused> {
        let Transfer { circuit, read, write, count, kind } = *transfer;
        let state = &mut self.state;
        carried_out(unsafe { argo::argo_start(state.as_mut_ptr(), state.len(), circuit, read, write, count, kind) })
    }

    fn cycle(&mut self) -> Result<(), Refused> {
        let (state, memory) = (&mut self.state, &mut self.memory);
        carried_out(unsafe { argo::argo_cycle(state.as_mut_ptr(), state.len(), memory.as_mut_ptr(), memory.len()) })
    }

    /// What landed at a node in the last cycle, if anything did.
    fn landed(&self, node: u32) -> Result<Option<Landing>, Refused> {
        let field = |field| value(unsafe { argo::argo_landed(self.state.as_ptr(), self.state.len(), node, field) });
        if field(0)? == 0 {
            return Ok(None);
        }
        Ok(Some(Landing { kind: field(1)?, address: field(2)?, word: field(3)? }))
    }
}

const NODES: u32 = 4;
const MEMORY_WORDS: u32 = 8;
const CYCLES: u32 = 20;
#[rustfmt::skip]
const SHEET_A: [u32; 17] = [
    2, 2, MEMORY_WORDS, 1, 1, // columns, rows, memory words a node, circuits, schedules
    0, 1, 0, 4, 0, 4, // circuit 0: source, destination, read offset and length, receive offset and length
    9, 1, // schedule 0: period, entries
    0, 3, 0, 13, // offset, length, circuit, route: east, then out to memory
];

fn list_landings() -> Result<(), Refused> {
    let mut session = Session::load(&SHEET_A, vec![0; (NODES * MEMORY_WORDS) as usize])?;
    for (address, word) in [11, 22, 33].into_iter().enumerate() {
        session.store(0, address as u32, word)?;
    }
    session.start(&Transfer { circuit: 0, read: 0, write: 0, count: 3, kind: 0 })?;
    println!("cycle node address word kind");
    for cycle in 0..CYCLES {
        session.cycle()?;
        for node in 0..NODES {
            if let Some(Landing { kind, address, word }) = session.landed(node)? {
                println!("{cycle} {node} {address} {word} {kind}");
            }
        }
    }
    Ok(())
}

fn main() -> ExitCode {
    match list_landings() {
        Ok(()) => ExitCode::SUCCESS,
        Err(refused) => {
            println!("{refused}");
            ExitCode::FAILURE
        }
    }
}
