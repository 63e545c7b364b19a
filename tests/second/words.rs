//! The lent slices, as whoever compares them keeps them: often with spare words behind, of
//! which a call is lent none or some.

use super::calls::{Call, Calls};

/// What stands behind the words that are lent for answers.
const BEHIND_ANSWERS: [u32; 4] = [0x5AFE_0000, 0x5AFE_0001, 0x5AFE_0002, 0x5AFE_0003];

#[derive(Clone)]
pub struct Words {
    pub state: Vec<u32>,
    pub memory: Vec<u32>,
    /// What was lent for answers to the last list; empty before any.
    pub answers: Vec<u32>,
}

/// How many words of state and memory are lent.
#[derive(Clone, Copy, Debug)]
pub struct Lent {
    pub state: usize,
    pub memory: usize,
}

impl Words {
    pub fn new(state: Vec<u32>, memory: Vec<u32>) -> Words {
        Words { state, memory, answers: Vec::new() }
    }

    /// Everything that is there.
    pub fn all(&self) -> Lent {
        Lent { state: self.state.len(), memory: self.memory.len() }
    }

    /// Puts words in the place that is lent for answers.
    pub fn put_answers(&mut self, answers: &[u32]) {
        self.answers = [answers, &BEHIND_ANSWERS].concat();
    }

    pub fn make(&mut self, call: &Call, lent: Lent, calls: &mut impl Calls) -> u64 {
        let unanswered = call.unanswered().unwrap_or(&[]);
        if call.unanswered().is_some() {
            self.put_answers(unanswered);
        }
        let answers = &mut self.answers[..unanswered.len()];
        call.make(calls, &mut self.state[..lent.state], &mut self.memory[..lent.memory], answers)
    }

    /// Whether a refused call left every word as it was before.
    pub fn compare_unchanged(&self, before: &Words, call: &Call) -> Result<(), String> {
        let answers_stay = self.answers.starts_with(call.unanswered().unwrap_or(&[]));
        if self.state == before.state && self.memory == before.memory && answers_stay {
            Ok(())
        } else {
            Err(format!("{}: not as it was before", call.start_of_text()))
        }
    }

    /// Whether every word is as expected, spare ones included; else the first that is not.
    pub fn compare(&self, expected: &Words) -> Result<(), String> {
        let slices = [
            ("state", &self.state, &expected.state),
            ("memory", &self.memory, &expected.memory),
            ("answers", &self.answers, &expected.answers),
        ];
        for (name, actual, expected) in slices {
            if actual != expected {
                let place = (0..actual.len()).find(|&place| actual[place] != expected[place]).unwrap_or(0);
                let (actual, expected) = (actual[place], expected[place]);
                return Err(format!("word {place} of the {name} is {actual}, second machine {expected}"));
            }
        }
        Ok(())
    }
}
