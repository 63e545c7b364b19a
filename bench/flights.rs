//! Frozen, so that the proved program is timed against the same code for ever: the program `landings` in tuned Rust, with lists of the
//! words in flight (in_flight.rs): the same input and the same output. Sheets are judged by the tuned linear checker.

mod in_flight;
#[allow(dead_code)]
mod linear;

use in_flight::{Network, Sender};
use std::io::{Read, Write};
use std::process::ExitCode;

const MOST_SHEET_WORDS: u32 = 8_597;
const MOST_MEMORY_WORDS: u32 = 4_096;
const MOST_TRANSFERS: u32 = 64;
const MOST_CYCLES: u32 = 65_536;
/// The longest input that is taken; what lies behind is ignored.
const MOST_INPUT_BYTES: usize = 4 * (3 + MOST_SHEET_WORDS + MOST_MEMORY_WORDS + 5 * MOST_TRANSFERS) as usize;
/// The longest line has 60.
const MOST_LINE_BYTES: usize = 64;
/// The idle network, for which no words stand.
const BLANK_SHEET: [u32; 7] = [2, 2, 1, 0, 1, 9, 0];
const HEADING: &[u8] = b"cycle node address word kind\n";

/// What is printed instead of a listing.
enum Message {
    InputEnds,
    TooLarge,
    Refused(u32),
}

fn main() -> ExitCode {
    let mut bytes = Vec::with_capacity(MOST_INPUT_BYTES);
    if std::io::stdin().lock().take(MOST_INPUT_BYTES as u64).read_to_end(&mut bytes).is_err() {
        return ExitCode::FAILURE;
    }
    let text = listing(&bytes).unwrap_or_else(|message| match message {
        Message::InputEnds => b"input ends\n".to_vec(),
        Message::TooLarge => b"too large\n".to_vec(),
        Message::Refused(number) => format!("refused {number}\n").into_bytes(),
    });
    match std::io::stdout().write_all(&text) {
        Ok(()) => ExitCode::SUCCESS,
        Err(_) => ExitCode::FAILURE,
    }
}

/// The first words that are left, which are then taken.
fn take<'a>(left: &mut &'a mut [u32], count: u32) -> Result<&'a mut [u32], Message> {
    left.split_off_mut(..count as usize).ok_or(Message::InputEnds)
}

/// A count that has a limit.
fn count(left: &mut &mut [u32], most: u32) -> Result<u32, Message> {
    let count = take(left, 1)?[0];
    if count > most { Err(Message::TooLarge) } else { Ok(count) }
}

fn listing(bytes: &[u8]) -> Result<Vec<u8>, Message> {
    let mut words: Vec<u32> = bytes.as_chunks().0.iter().map(|&word| u32::from_le_bytes(word)).collect();
    let left = &mut &mut words[..];
    let length = count(left, MOST_SHEET_WORDS)?;
    let stated = &*take(left, length)?;
    let number = linear::tuned_verdict(stated);
    if number != 0 {
        return Err(Message::Refused(number));
    }
    let sheet = if stated.is_empty() { &BLANK_SHEET } else { stated };
    let memory_words = sheet[0] * (sheet[1] % 256) * sheet[2];
    if memory_words > MOST_MEMORY_WORDS {
        return Err(Message::TooLarge);
    }
    let memory = take(left, memory_words)?;
    let transfers = count(left, MOST_TRANSFERS)?;
    let transfers = take(left, 5 * transfers)?;
    let cycles = count(left, MOST_CYCLES)?;

    let mut network = Network::new(sheet, memory);
    for transfer in transfers.as_chunks().0 {
        start(sheet, &mut network.senders, transfer).map_err(Message::Refused)?;
    }
    let mut text = Vec::with_capacity(1 << 17);
    text.extend_from_slice(HEADING);
    network.run(cycles, |time, node, landing| {
        put_line(&mut text, [time, node, landing.address, landing.word, landing.kind]);
    });
    Ok(text)
}

/// Starts a transfer where no cycle has been run yet, or says the number of its refusal.
fn start(sheet: &[u32], senders: &mut [Sender; 64], transfer: &[u32; 5]) -> Result<(), u32> {
    let &[circuit, read, write, count, kind] = transfer;
    let (circuits, _) = sheet[5..5 + 6 * sheet[3] as usize].as_chunks();
    let Some(&[_, _, read_offset, read_length, receive_offset, receive_length]) = circuits.get(circuit as usize)
    else {
        return Err(15);
    };
    if read >= sheet[2] || write >= sheet[2] || (kind != 0 && kind != 2) {
        return Err(15);
    }
    let lies_in = |address: u32, offset: u32, length: u32| {
        offset <= address && u64::from(address) + u64::from(count) <= u64::from(offset) + u64::from(length)
    };
    if count == 0
        || (kind == 2 && count != 1)
        || !lies_in(read, read_offset, read_length)
        || !lies_in(write, receive_offset, receive_length)
    {
        return Err(16);
    }
    let sender = &mut senders[circuit as usize];
    if sender.left > 0 {
        return Err(17);
    }
    *sender = Sender { left: count, read, write, kind, to_go: 0 };
    Ok(())
}

/// Words in decimal with spaces between them, and a line end; two digits at a time, from the last on.
fn put_line(text: &mut Vec<u8>, words: [u32; 5]) {
    let mut line = [b' '; MOST_LINE_BYTES];
    let mut first = MOST_LINE_BYTES - 1;
    line[first] = b'\n';
    for (place, mut word) in words.into_iter().enumerate().rev() {
        while word >= 10 {
            first -= 2;
            line[first..first + 2].copy_from_slice(&PAIRS[word as usize % 100]);
            word /= 100;
        }
        if word > 0 || !line[first].is_ascii_digit() {
            first -= 1;
            line[first] = b'0' + word as u8;
        }
        if place > 0 {
            first -= 1;
        }
    }
    text.extend_from_slice(&line[first..]);
}

const PAIRS: [[u8; 2]; 100] = {
    let mut pairs = [[0; 2]; 100];
    let mut number = 0;
    while number < 100 {
        pairs[number] = [b'0' + number as u8 / 10, b'0' + number as u8 % 10];
        number += 1;
    }
    pairs
};
