//! What one circuit sends, reckoned from the sheet and the calls that were carried out
//! (document 01, "The lists of demand 3"): no network, no registers, no other circuit. The
//! calendar alone is what is reckoned of a network without circuits.

use super::checker::{distance, Sheet};
use std::collections::VecDeque;

/// Schedule in force, period number and cycle, from the orders carried out.
#[derive(Clone)]
pub struct Calendar {
    periods: Vec<u64>,
    pub schedule: usize,
    pub period_number: u32,
    pub cycle: u64,
    /// Schedule and period number of the pending order.
    order: Option<(usize, u32)>,
}

impl Calendar {
    /// Directly after a load of the sheet.
    pub fn new(sheet: &Sheet) -> Calendar {
        Calendar {
            periods: sheet.schedules.iter().map(|schedule| schedule.period).collect(),
            schedule: 0,
            period_number: 0,
            cycle: 0,
            order: None,
        }
    }

    pub fn order(&mut self, schedule: u32, period_number: u32) {
        self.order = Some((schedule as usize, period_number));
    }

    pub fn pass_cycle(&mut self) {
        self.cycle += 1;
        if self.cycle == self.periods[self.schedule] {
            self.cycle = 0;
            self.period_number = self.period_number.wrapping_add(1);
            if let Some((schedule, period_number)) = self.order {
                if period_number == self.period_number {
                    self.schedule = schedule;
                    self.order = None;
                }
            }
        }
    }
}

struct Slot {
    offset: u64,
    length: u64,
}

/// A region of a node's memory with its words.
struct Region {
    node: u32,
    offset: u32,
    words: Vec<u32>,
}

impl Region {
    fn new(node: u64, offset: u64, length: u64, memory: &[u32], memory_words: u64) -> Region {
        let start = (node * memory_words + offset) as usize;
        Region { node: node as u32, offset: offset as u32, words: memory[start..start + length as usize].to_vec() }
    }

    fn word_at(&mut self, address: u32) -> &mut u32 {
        &mut self.words[(address - self.offset) as usize]
    }

    fn has(&self, node: u32, address: u32) -> bool {
        node == self.node && address >= self.offset && ((address - self.offset) as usize) < self.words.len()
    }
}

/// The last start that was carried out.
struct Transfer {
    read: u32,
    write: u32,
    count: u32,
    kind: u32,
}

/// When a word left.
struct Leaving {
    cycle: u64,
    period_number: u32,
    schedule: usize,
}

/// A word of the circuit as it lands.
#[derive(Clone, Copy, Debug, PartialEq, Eq)]
pub struct Word {
    pub kind: u32,
    pub address: u32,
    pub word: u32,
}

pub struct Reckoning {
    pub hops: u64,
    /// Hops over long vertical links; 0 on a grid without them.
    pub vertical_hops: u64,
    slots: Vec<Vec<Slot>>,
    calendar: Calendar,
    /// Cycles carried out since the load.
    cycles: u64,
    transfer: Transfer,
    /// Words of the transfer that have left.
    gone: u32,
    /// The cycles in which words leave, as far as slots have begun.
    leaving: VecDeque<u64>,
    /// Of the transfer's packets, the cycles in which their last words leave.
    packets: Vec<u64>,
    last_left: Option<Leaving>,
    /// Words that left, with the cycles in which they land.
    travelling: VecDeque<(u64, Word)>,
    landed: Option<Word>,
    read_region: Region,
    receive_region: Region,
}

/// The shorter way round in rows: as many vertical hops has a route that takes no more hops than the distance.
fn row_steps(sheet: &Sheet, source: u64, destination: u64) -> u64 {
    let apart = (source / sheet.columns).abs_diff(destination / sheet.columns);
    apart.min(sheet.rows - apart)
}

impl Reckoning {
    /// The circuit directly after a load of the sheet on the lent memory.
    pub fn new(sheet: &Sheet, circuit: usize, memory: &[u32]) -> Reckoning {
        let record = &sheet.circuits[circuit];
        let slots_in = |schedule: usize| {
            let own = sheet.schedules[schedule].entries.iter().filter(|entry| entry.circuit == circuit as u64);
            own.map(|entry| Slot { offset: entry.offset, length: entry.length }).collect()
        };
        let region = |node, offset, length| Region::new(node, offset, length, memory, sheet.memory_words);
        Reckoning {
            hops: distance(sheet, record.source, record.destination),
            vertical_hops: if sheet.long_links { row_steps(sheet, record.source, record.destination) } else { 0 },
            slots: (0..sheet.schedules.len()).map(slots_in).collect(),
            calendar: Calendar::new(sheet),
            cycles: 0,
            transfer: Transfer { read: 0, write: 0, count: 0, kind: 0 },
            gone: 0,
            leaving: VecDeque::new(),
            packets: Vec::new(),
            last_left: None,
            travelling: VecDeque::new(),
            landed: None,
            read_region: region(record.source, record.read_offset, record.read_length),
            receive_region: region(record.destination, record.receive_offset, record.receive_length),
        }
    }

    /// Periods may be numbered from another number than 0.
    pub fn number_periods_from(&mut self, period_number: u32) {
        self.calendar.period_number = period_number;
    }

    // The calls that were carried out.

    pub fn start(&mut self, read: u32, write: u32, count: u32, kind: u32) {
        self.transfer = Transfer { read, write, count, kind };
        self.gone = 0;
        self.packets.clear();
    }

    pub fn store(&mut self, node: u32, address: u32, word: u32) {
        for region in [&mut self.read_region, &mut self.receive_region] {
            if region.has(node, address) {
                *region.word_at(address) = word;
            }
        }
    }

    pub fn order(&mut self, schedule: u32, period_number: u32) {
        self.calendar.order(schedule, period_number);
    }

    pub fn cycle(&mut self) {
        let now = self.cycles;
        let slots = &self.slots[self.calendar.schedule];
        if let Some(slot) = slots.iter().find(|slot| slot.offset == self.calendar.cycle) {
            // Nothing is added where no words are owed.
            let words = (slot.length - 1).min(u64::from(self.owed()));
            self.leaving.extend(now + 1..=now + words);
            if words > 0 {
                self.packets.push(now + words);
            }
        }
        if self.leaving.front() == Some(&now) {
            self.leaving.pop_front();
            let word = *self.read_region.word_at(self.transfer.read + self.gone);
            let word = Word { kind: self.transfer.kind, address: self.transfer.write + self.gone, word };
            self.travelling.push_back((now + self.flight(), word));
            self.gone += 1;
            let Calendar { period_number, schedule, .. } = self.calendar;
            self.last_left = Some(Leaving { cycle: now, period_number, schedule });
        }
        self.landed = None;
        if let Some(&(cycle, word)) = self.travelling.front() {
            if cycle == now {
                self.travelling.pop_front();
                *self.receive_region.word_at(word.address) = word.word;
                self.landed = Some(word);
            }
        }
        self.cycles += 1;
        self.calendar.pass_cycle();
    }

    // What the session has to show.

    /// Words left answers this.
    pub fn owed(&self) -> u32 {
        self.transfer.count - self.gone
    }

    /// What landed of this circuit in the last cycle.
    pub fn landed(&self) -> Option<Word> {
        self.landed
    }

    pub fn destination(&self) -> u32 {
        self.receive_region.node
    }

    pub fn receives_at(&self, node: u32, address: u32) -> bool {
        self.receive_region.has(node, address)
    }

    pub fn period_number(&self) -> u32 {
        self.calendar.period_number
    }

    pub fn schedule(&self) -> u32 {
        self.calendar.schedule as u32
    }

    /// The cycles from a word's leaving to its landing.
    fn flight(&self) -> u64 {
        3 * (self.hops + 1) + self.vertical_hops
    }

    /// Cycle calls until the last word that left has landed, 0 or fewer where it has; nothing where none left.
    fn cycles_to_landing(&self) -> Option<i64> {
        let left = self.last_left.as_ref()?;
        Some((left.cycle + self.flight() + 1) as i64 - self.cycles as i64)
    }

    /// Whether a word left and has not landed; the last to leave is the last to land.
    pub fn has_words_travelling(&self) -> bool {
        self.cycles_to_landing().is_some_and(|cycles| cycles > 0)
    }

    /// How many words left and have not landed, by the landings so far.
    pub fn words_travelling(&self) -> u32 {
        self.travelling.len() as u32
    }

    /// Number 17 of document 02, L3.
    pub fn is_busy(&self) -> bool {
        self.owed() > 0 || self.has_words_travelling()
    }

    /// Whether the circuit is busy by words that left, and by no others.
    pub fn waits_for_landings(&self) -> bool {
        self.owed() == 0 && self.has_words_travelling()
    }

    /// Whether all that is owed has left, and the next cycle sees the last of it land.
    pub fn lands_last_next(&self) -> bool {
        self.owed() == 0 && self.cycles_to_landing() == Some(1)
    }

    /// Whether the last cycle saw the last word of the transfer land.
    pub fn landed_last_just_now(&self) -> bool {
        self.owed() == 0 && self.cycles_to_landing() == Some(0)
    }

    /// Whether the transfer has taken several packets so far, and the first has wholly landed.
    pub fn first_of_packets_landed(&self) -> bool {
        self.packets.len() > 1 && self.packets[0] + self.flight() < self.cycles
    }

    /// Whether the last word that left did so in an earlier period.
    pub fn left_in_earlier_period(&self) -> bool {
        let now = self.calendar.period_number;
        self.last_left.as_ref().is_some_and(|left| left.period_number != now)
    }

    /// Whether another schedule was in force when the last word left.
    pub fn left_under_other_schedule(&self) -> bool {
        let now = self.calendar.schedule;
        self.last_left.as_ref().is_some_and(|left| left.schedule != now)
    }

    /// The last start's.
    pub fn kind(&self) -> u32 {
        self.transfer.kind
    }

    /// Node, offset and words of the two regions.
    pub fn regions(&self) -> [(u32, u32, &[u32]); 2] {
        [&self.read_region, &self.receive_region].map(|region| (region.node, region.offset, &region.words[..]))
    }
}
