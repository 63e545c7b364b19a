//! Quiet stretches: cycles in which no word is in a router or being sent and no slot of a circuit with words left begins.
//! Whoever crosses them at once has to answer how many they are, as the second machine counts them one by one, and to
//! leave every lent word as it does after so many cycles. A stretch ends before such a slot, with the turn to the next
//! period, or after the most cycles that were asked for.

use super::coverage::Coverage;
use super::lent::{Row, MOVING_WORDS, SHEET, SHEET_LENGTH, STATE_WORDS};
use super::machine::{Machine, EMPTY, PORTS, VERTICAL_SIDES};
use super::words::{Lent, Words};
use std::collections::BTreeMap;

/// The calls for tests; an answer is number × 2^32 + cycles.
pub trait Probes {
    /// Crosses the quiet cycles from the present one on, at most so many.
    fn rest(&mut self, state: &mut [u32], most: u32) -> u64;
    /// So many cycles, up to one that is refused.
    fn cycles(&mut self, state: &mut [u32], memory: &mut [u32], count: u32) -> u64;
}

/// Why a cycle is not quiet.
#[derive(Clone, Copy, Debug, PartialEq, Eq)]
pub enum Stir {
    Link,
    Head,
    Out,
    Extra,
    Sending,
    Slot,
}

/// What makes the next cycle one that is not quiet; nothing where it is quiet.
pub fn stir(machine: &Machine) -> Option<Stir> {
    for node in &machine.nodes {
        if node.inputs.iter().any(|input| input.link.mark != EMPTY) {
            return Some(Stir::Link);
        }
        if node.inputs.iter().any(|input| input.head.mark != EMPTY) {
            return Some(Stir::Head);
        }
        if node.outputs.iter().any(|output| output.mark != EMPTY) {
            return Some(Stir::Out);
        }
        // Elsewhere than on long links nothing is in them.
        if node.extras.iter().any(|extra| extra.mark != EMPTY) {
            return Some(Stir::Extra);
        }
    }
    if machine.senders.iter().any(|sender| sender.to_go > 0) {
        return Some(Stir::Sending);
    }
    (cycles_to_slot(machine) == Some(0)).then_some(Stir::Slot)
}

/// The cycles up to the period's end.
pub fn cycles_to_turn(machine: &Machine) -> u32 {
    machine.sheet.sheet.schedules[machine.clock.schedule as usize].period as u32 - machine.clock.cycle
}

/// The cycles up to the next slot, in this period, of a circuit that now has words left.
pub fn cycles_to_slot(machine: &Machine) -> Option<u32> {
    let entries = &machine.sheet.sheet.schedules[machine.clock.schedule as usize].entries;
    entries
        .iter()
        .filter(|entry| machine.senders[entry.circuit as usize].left > 0)
        .filter_map(|entry| (entry.offset as u32).checked_sub(machine.clock.cycle))
        .min()
}

/// A stretch as the second machine goes through it.
pub struct Trace {
    /// The machine at each cycle of it, the first where it begins.
    pub machines: Vec<Machine>,
    /// What ends it: nothing where that is the turn.
    pub ended_by: Option<Stir>,
}

impl Trace {
    /// An error where a quiet cycle of the second machine does what none may do.
    pub fn of(machine: &Machine, memory: &[u32]) -> Result<Trace, String> {
        let mut after = memory.to_vec();
        let mut machines = vec![machine.clone()];
        loop {
            let present = &machines[machines.len() - 1];
            let turned = machines.len() > 1 && present.clock.cycle == 0;
            let ended_by = stir(present);
            if turned || ended_by.is_some() {
                let ended_by = if turned { None } else { ended_by };
                return if after == memory { Ok(Trace { machines, ended_by }) } else { Err("memory changed".into()) };
            }
            let mut next = present.clone();
            next.cycle(&mut after).map_err(|number| format!("a quiet cycle is refused by {number}"))?;
            if next.nodes.iter().any(|node| node.landing.mark != 0) {
                return Err("something landed in a quiet cycle".to_string());
            }
            machines.push(next);
        }
    }

    pub fn cycles(&self) -> u32 {
        self.machines.len() as u32 - 1
    }

    /// What is left of it after some cycles.
    pub fn go_on(&mut self, cycles: u32) {
        self.machines.drain(..cycles as usize);
    }
}

/// Quiet stretches of which nothing is crossed by one who reads more than he has to. Only states made by hand are like
/// this. Whether that is right is for the one who runs the tests to say; it is counted apart, and all else goes on.
#[derive(Clone, Copy, Debug, PartialEq, Eq, PartialOrd, Ord)]
pub enum Declined {
    /// A word or a choice stands beside an empty mark.
    FreeField,
    /// In the rows of extra registers a word stands at a place that is no register of the sheet.
    LackingExtra,
}

/// What might make one read a quiet state as one that is not.
fn might_decline(state: &[u32], machine: &Machine) -> Option<Declined> {
    let inputs = || machine.nodes.iter().flat_map(|node| &node.inputs);
    let cells = machine.nodes.iter().flat_map(|node| node.outputs.into_iter().chain(node.extras));
    let mut cells = cells.chain(inputs().flat_map(|input| [input.link, input.head]));
    if cells.any(|cell| cell.word != 0) || inputs().any(|input| input.choice != 0) {
        return Some(Declined::FreeField);
    }
    let is_lacking = |port: usize| !(machine.sheet.has_long_links() && VERTICAL_SIDES.contains(&(port % PORTS)));
    let stands = |port: usize| state[Row::ExtraMark.at(port)] != 0 || state[Row::ExtraWord.at(port)] != 0;
    let mut ports = 0..PORTS * machine.nodes.len();
    ports.any(|port| is_lacking(port) && stands(port)).then_some(Declined::LackingExtra)
}

/// Holds the probes to the second machine.
pub struct Prober<'a, P> {
    pub probes: &'a mut P,
    pub coverage: &'a mut Coverage,
    /// Answers that were right.
    pub answers: u64,
    /// How often a quiet stretch was declined, and the first case.
    pub declined: BTreeMap<Declined, (u64, String)>,
    actual: Vec<u32>,
    expected: Vec<u32>,
}

impl<'a, P: Probes> Prober<'a, P> {
    pub fn new(probes: &'a mut P, coverage: &'a mut Coverage) -> Prober<'a, P> {
        Prober { probes, coverage, answers: 0, declined: BTreeMap::new(), actual: Vec::new(), expected: Vec::new() }
    }

    /// Everything about the words of a sound state and the stretch that begins there. `further` cycles come behind it.
    pub fn probe(&mut self, words: &Words, lent: Lent, trace: &mut Trace, further: u32) -> Result<(), String> {
        self.actual.clone_from(&words.state);
        self.expected.clone_from(&words.state);
        let now = &trace.machines[0];
        let (turn, slot, whole) = (cycles_to_turn(now), cycles_to_slot(now), trace.cycles());
        let mut mosts = vec![0, 1, turn - 1, turn, turn + 1, whole, whole + 1, u32::MAX];
        if whole > 0 {
            mosts.extend([2, 3, 4, 5, 6, whole - 1, 1 << 31]);
        }
        if let Some(slot) = slot {
            mosts.extend([slot.saturating_sub(1), slot, slot + 1]);
        }
        mosts.sort_unstable();
        mosts.dedup();
        for most in mosts {
            self.rest(&words.state, lent, most, trace)
                .map_err(|what| format!("rest, most {most}, stretch of {whole}: {what}"))?;
            self.note_most(most, turn, slot, whole);
        }
        self.cycles_beyond(words, lent, trace, further)
    }

    /// A rest as long as can be.
    pub fn rest_once(&mut self, words: &Words, lent: Lent, trace: &mut Trace) -> Result<(), String> {
        self.actual.clone_from(&words.state);
        self.expected.clone_from(&words.state);
        self.rest(&words.state, lent, u32::MAX, trace)
    }

    /// One rest: its answer and every word.
    fn rest(&mut self, before: &[u32], lent: Lent, most: u32, trace: &mut Trace) -> Result<(), String> {
        let count = most.min(trace.cycles());
        self.actual[..MOVING_WORDS].copy_from_slice(&before[..MOVING_WORDS]);
        self.expected[..MOVING_WORDS].copy_from_slice(&before[..MOVING_WORDS]);
        let answer = self.probes.rest(&mut self.actual[..lent.state], most);
        if answer == 0 && count > 0 && self.actual == before {
            if let Some(sort) = might_decline(before, &trace.machines[0]) {
                let first = || (0, format!("{}, most {most}: answered 0, second machine {count}", text_of(before)));
                self.declined.entry(sort).or_insert_with(first).0 += 1;
                return Ok(());
            }
        }
        if count > 0 {
            trace.machines[count as usize].write_to(&mut self.expected);
        }
        self.compare(answer, u64::from(count))
    }

    fn compare(&mut self, answer: u64, wanted: u64) -> Result<(), String> {
        if answer != wanted {
            return Err(format!("answered {answer:#x}, second machine {wanted:#x}"));
        }
        if self.actual != self.expected {
            let differs = |&place: &usize| self.actual[place] != self.expected[place];
            let place = (0..self.actual.len()).find(differs).unwrap_or(0);
            let (actual, expected) = (self.actual[place], self.expected[place]);
            return Err(format!("word {place} of the state is {actual}, second machine {expected}"));
        }
        self.answers += 1;
        Ok(())
    }

    /// Cycles one after the other: none, all of the stretch, and some behind it, which may be refused.
    fn cycles_beyond(&mut self, words: &Words, lent: Lent, trace: &mut Trace, further: u32) -> Result<(), String> {
        let whole = trace.cycles();
        let (mut counts, mut number) = (vec![(0, 0, 0)], 0);
        let mut machine = trace.machines[whole as usize].clone();
        let mut memory = words.memory[..lent.memory].to_vec();
        let mut done = 0;
        while done < further && number == 0 {
            match machine.cycle(&mut memory) {
                Ok(()) => done += 1,
                Err(refused) => number = refused,
            }
        }
        counts.extend([(whole, whole, 0), (whole + further, whole + done, number)]);
        for (count, carried_out, number) in counts {
            let (after, memory_after) = if count == whole + further && further > 0 {
                (&mut machine, &memory[..])
            } else {
                (&mut trace.machines[carried_out as usize], &words.memory[..lent.memory])
            };
            self.actual[..MOVING_WORDS].copy_from_slice(&words.state[..MOVING_WORDS]);
            self.expected[..MOVING_WORDS].copy_from_slice(&words.state[..MOVING_WORDS]);
            if carried_out > 0 {
                after.write_to(&mut self.expected);
            }
            let mut actual_memory = words.memory[..lent.memory].to_vec();
            let answer = self.probes.cycles(&mut self.actual[..lent.state], &mut actual_memory, count);
            let complaint = |what: String| format!("{count} cycles, stretch of {whole}: {what}");
            self.compare(answer, u64::from(number) << 32 | u64::from(carried_out)).map_err(complaint)?;
            if actual_memory != memory_after {
                return Err(complaint("memory differs".to_string()));
            }
            self.note_cycles(count, carried_out, number, whole);
        }
        Ok(())
    }

    /// A state that 12 or 13 refuse, or a memory that 14 refuses: nothing changes, and rest does not mind the memory.
    pub fn refused(&mut self, words: &Words, lent: Lent, number: u32) -> Result<(), String> {
        self.actual.clone_from(&words.state);
        self.expected.clone_from(&words.state);
        for most in [0, 1, 7, u32::MAX] {
            if number != 14 {
                let answer = self.probes.rest(&mut self.actual[..lent.state], most);
                self.compare(answer, u64::from(number) << 32).map_err(|what| format!("rest, most {most}: {what}"))?;
                self.coverage.met(&format!("rest refused by {number}"));
            }
            let mut memory = words.memory[..lent.memory].to_vec();
            let answer = self.probes.cycles(&mut self.actual[..lent.state], &mut memory, most.min(9));
            self.compare(answer, u64::from(number) << 32).map_err(|what| format!("cycles: {what}"))?;
            if memory != words.memory[..lent.memory] {
                return Err("a refused call changed the memory".to_string());
            }
            self.coverage.met(&format!("cycles refused by {number}"));
        }
        Ok(())
    }

    /// All of it for a sound state.
    pub fn probe_state(&mut self, words: &Words, machine: &Machine, further: u32) -> Result<(), String> {
        let mut trace = Trace::of(machine, &words.memory)?;
        self.note_stretch(&trace, STATE_WORDS < words.state.len());
        self.probe(words, words.all(), &mut trace, further)
    }
}

/// A sound state for a reader: its sheet, and the moving words that are not 0.
fn text_of(state: &[u32]) -> String {
    let sheet = &state[SHEET..SHEET + state[SHEET_LENGTH] as usize];
    let moving =
        (0..MOVING_WORDS).filter(|&place| state[place] != 0).map(|place| format!("word {place} = {}", state[place]));
    let moving: Vec<String> = moving.collect();
    format!("sheet {:?}, {}", &sheet[..sheet.len().min(60)], moving[..moving.len().min(12)].join(", "))
}
