//! What the program `landings` prints for an input (document 01, "The key's examples"), by
//! the second machine. The sheet is checked once, where it is read, by 1 to 11 and 26.

use super::machine::{CheckedSheet, Machine};
use std::fmt::Write;
use std::rc::Rc;

const MOST_SHEET_WORDS: u32 = 8_597;
const MOST_MEMORY_WORDS: usize = 4_096;
const MOST_TRANSFERS: u32 = 64;
const MOST_CYCLES: u32 = 65_536;

const TOO_LARGE: &str = "too large\n";
const INPUT_ENDS: &str = "input ends\n";

/// Input that is left, little-endian words; what ends within a word has ended.
struct Input<'a> {
    bytes: &'a [u8],
}

impl Input<'_> {
    fn word(&mut self) -> Result<u32, String> {
        let (word, rest) = self.bytes.split_first_chunk().ok_or(INPUT_ENDS)?;
        self.bytes = rest;
        Ok(u32::from_le_bytes(*word))
    }

    fn words(&mut self, count: usize) -> Result<Vec<u32>, String> {
        (0..count).map(|_| self.word()).collect()
    }

    /// A count that has a limit.
    fn count(&mut self, most: u32) -> Result<u32, String> {
        let count = self.word()?;
        if count > most {
            return Err(TOO_LARGE.to_string());
        }
        Ok(count)
    }
}

fn refused(number: u32) -> String {
    format!("refused {number}\n")
}

/// All that is printed, where sheets are judged by `verdict`, which is one of a load.
pub fn listing(verdict: fn(&[u32]) -> u32, input: &[u8]) -> String {
    landings(verdict, Input { bytes: input }).unwrap_or_else(|only_line| only_line)
}

fn landings(verdict: fn(&[u32]) -> u32, mut input: Input) -> Result<String, String> {
    let sheet_words = input.count(MOST_SHEET_WORDS)?;
    let sheet = CheckedSheet::check_by(verdict, &input.words(sheet_words as usize)?).map_err(refused)?;
    if sheet.all_memory_words() > MOST_MEMORY_WORDS {
        return Err(TOO_LARGE.to_string());
    }
    let mut memory = input.words(sheet.all_memory_words())?;
    let transfers = input.count(MOST_TRANSFERS)?;
    let transfers = input.words(5 * transfers as usize)?;
    let cycles = input.count(MOST_CYCLES)?;

    let mut machine = Machine::new(Rc::new(sheet));
    for transfer in transfers.chunks_exact(5) {
        let [circuit, read, write, count, kind] = transfer else { unreachable!("chunks of five") };
        machine.start(*circuit, *read, *write, *count, *kind).map_err(refused)?;
    }
    // No start follows, so that nobody asks which words are on their way; the proved program is timed against this one.
    machine.forget_count();
    run(&mut machine, &mut memory, cycles).map_err(refused)
}

fn run(machine: &mut Machine, memory: &mut [u32], cycles: u32) -> Result<String, u32> {
    let mut text = String::from("cycle node address word kind\n");
    for cycle in 0..cycles {
        machine.cycle(memory)?;
        for node in 0..machine.nodes.len() as u32 {
            if let Some(landing) = machine.what_landed(node)? {
                writeln!(text, "{cycle} {node} {} {} {}", landing.address, landing.word, landing.kind)
                    .expect("a string takes all");
            }
        }
    }
    Ok(text)
}
