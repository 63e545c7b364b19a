//! The exported calls of the native archive for `native.test.js`, which makes the same calls
//! as WebAssembly. Standard input is a list of requests in little-endian words, each a code
//! and what belongs to it; standard output has the replies. A call on a session replies with
//! its number, its value (0 where it gives none) and a hash of all lent words.

#[path = "../exports.rs"]
mod exports;

use exports::{entries, hours, Exports};
use second::calls::Calls;
use second::machine::Transfer;
use std::io::{self, Read, Write};

extern "C" {
    fn argo_verdict(sheet: *const u32, length: usize) -> u32;
}

fn verdict(sheet: &[u32]) -> u32 {
    // The pointer and the length are those of a live slice.
    unsafe { argo_verdict(sheet.as_ptr(), sheet.len()) }
}

/// The fields of a timetable's answer, and two that it does not have.
const HOURS_FIELDS: [u32; 5] = [0, 1, 2, 3, u32::MAX];

const STATE_ROOM: usize = 16384;
const MEMORY_ROOM: usize = 16 * 16384;

/// The requests that are not carried out yet.
struct Requests<'a> {
    words: &'a [u32],
}

impl<'a> Requests<'a> {
    fn list(&mut self, length: usize) -> &'a [u32] {
        let (list, rest) = self.words.split_at(length);
        self.words = rest;
        list
    }

    fn next(&mut self) -> u32 {
        self.list(1)[0]
    }

    /// A list behind its length.
    fn counted(&mut self) -> &'a [u32] {
        let length = self.next() as usize;
        self.list(length)
    }
}

/// The words of a session, with room behind, and how many of them are lent.
struct Session {
    state: Vec<u32>,
    memory: Vec<u32>,
    state_words: usize,
    memory_words: usize,
}

impl Session {
    fn new() -> Session {
        let state_words = Exports.state_words() as usize;
        Session { state: vec![0; STATE_ROOM], memory: vec![0; MEMORY_ROOM], state_words, memory_words: 0 }
    }

    /// Two hashes of 32 bits over the lent words; each takes every word by a map that is one to one.
    fn hash(&self) -> [u32; 2] {
        let (mut first, mut second) = (0x811c_9dc5_u32, 0x9e37_79b9_u32);
        let lent = [&self.state[..self.state_words], &self.memory[..self.memory_words]];
        for &word in lent.into_iter().flatten() {
            first = (first ^ word).wrapping_mul(0x0100_0193);
            second = (second ^ (second >> 15)).wrapping_add(word).wrapping_mul(0x85eb_ca6b);
        }
        [first, second]
    }

    /// Carries out a call; a number alone is an answer without a value.
    fn call(&mut self, code: u32, requests: &mut Requests) -> u64 {
        let alone = |number: u32| u64::from(number) << 32;
        if code == 3 {
            let (sheet, contents) = (requests.counted(), requests.counted());
            self.memory[..contents.len()].copy_from_slice(contents);
            self.memory_words = contents.len();
            let state = &mut self.state[..self.state_words];
            return alone(Exports.load(sheet, state, &self.memory[..self.memory_words]));
        }
        let state = &mut self.state[..self.state_words];
        let memory = &mut self.memory[..self.memory_words];
        let mut next = || requests.next();
        match code {
            4 => alone(Exports.start(state, next(), next(), next(), next(), next())),
            5 => alone(Exports.store(state, memory, next(), next(), next())),
            6 => Exports.fetch(state, memory, next(), next()),
            7 => Exports.words_left(state, next()),
            8 => Exports.period_number(state),
            9 => Exports.landed(state, next(), next()),
            10 => alone(Exports.order(state, next(), next())),
            11 => alone(Exports.cycle(state, memory)),
            other => panic!("no request has code {other}"),
        }
    }
}

fn halves(answer: u64) -> [u32; 2] {
    [(answer >> 32) as u32, answer as u32]
}

/// Starts a list of transfers: code 17 has them as records, 18 as five lists of words. The
/// words for the answers come last.
fn start_listed(code: u32, state: &mut [u32], requests: &mut Requests) -> (u32, Vec<u32>) {
    if code == 17 {
        let transfers: Vec<Transfer> = requests.counted().chunks_exact(5).map(transfer).collect();
        let mut answers = requests.counted().to_vec();
        return (Exports.start_all(state, &transfers, &mut answers), answers);
    }
    let lists = [(); 5].map(|()| requests.counted());
    let mut answers = requests.counted().to_vec();
    (Exports.start_lists(state, lists, &mut answers), answers)
}

fn transfer(words: &[u32]) -> Transfer {
    Transfer { circuit: words[0], read: words[1], write: words[2], count: words[3], kind: words[4] }
}

/// Carries out all requests. Codes 1 and 2 judge a sheet and find its entries, 3 to 11 are the
/// calls on the session, 12 to 15 change a lent word or how many are lent and reply nothing, 16
/// asks a timetable for a minute, 17 and 18 start a list of transfers and reply its answers too.
fn carry_out(mut requests: Requests) -> Vec<u32> {
    let mut replies = Vec::new();
    let mut session = Session::new();
    while !requests.words.is_empty() {
        match requests.next() {
            0 => replies.push(Exports.state_words()),
            1 => replies.push(verdict(requests.counted())),
            2 => {
                let (sheet, schedule) = (requests.counted(), requests.next());
                for field in 0..3 {
                    replies.extend(halves(entries(sheet, schedule, field)));
                }
            }
            12 => {
                let (place, word) = (requests.next() as usize, requests.next());
                session.state[place] = word;
            }
            13 => {
                let (place, word) = (requests.next() as usize, requests.next());
                session.memory[place] = word;
            }
            14 => session.memory_words = requests.next() as usize,
            15 => session.state_words = requests.next() as usize,
            16 => {
                let (list, minute) = (requests.counted(), requests.next());
                for field in HOURS_FIELDS {
                    replies.extend(halves(hours(list, minute, field)));
                }
            }
            code @ (17 | 18) => {
                let (number, answers) = start_listed(code, &mut session.state[..session.state_words], &mut requests);
                replies.extend([number, 0]);
                replies.extend(answers);
                replies.extend(session.hash());
            }
            code => {
                let answer = session.call(code, &mut requests);
                replies.extend(halves(answer));
                replies.extend(session.hash());
            }
        }
    }
    replies
}

fn main() -> io::Result<()> {
    let mut bytes = Vec::new();
    io::stdin().lock().read_to_end(&mut bytes)?;
    let words: Vec<u32> = bytes.chunks_exact(4).map(|word| u32::from_le_bytes([word[0], word[1], word[2], word[3]])).collect();
    let replies = carry_out(Requests { words: &words });
    let bytes: Vec<u8> = replies.into_iter().flat_map(u32::to_le_bytes).collect();
    io::stdout().lock().write_all(&bytes)
}
