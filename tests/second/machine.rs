//! A second machine, coded from document 01, the article and docs/STATE.md, without our code or definitions: routers of
//! three stages, senders, receive units, the clock and the order, and the ten calls upon them. What the papers leave free and
//! the causes of number 20 are as docs/STATE.md lists them. Every register there is a field here. A machine's sheet has
//! passed the second checker once, when the machine was made: by 1 to 11 and 26 for a load, by 1 to 11 for a state.
//! Where its vertical links are long, each of them has a register more.
//! Which circuits have words travelling (17) is counted since the load; travelling.rs reads it off registers instead.

use super::checker::{self, Circuit, Entry, Schedule, Sheet, Side};
use std::ops::Range;
use std::rc::Rc;

pub const MOST_NODES: usize = 16;
/// A router has four sides and a fifth port: the source among the inputs, the memory
/// among the outputs.
pub const PORTS: usize = 5;
pub const SOURCE: usize = 4;
pub const MEMORY: usize = 4;
/// The sides whose links may be long: north and south.
pub const VERTICAL_SIDES: [usize; 2] = [Side::North as usize, Side::South as usize];

// The marks of a wire.
pub const EMPTY: u32 = 0;
pub const HEADER: u32 = 1;
pub const PAYLOAD: u32 = 2;
pub const LAST: u32 = 3;

pub const DATA: u32 = 0;
pub const INTERRUPT: u32 = 2;

/// The most records that a list may have.
pub const MOST_TRANSFERS: usize = 64;

/// What a start asks for; as a record of a list it is lent as five words in this order.
#[repr(C)]
#[derive(Clone, Copy, Debug, PartialEq, Eq)]
pub struct Transfer {
    pub circuit: u32,
    pub read: u32,
    pub write: u32,
    pub count: u32,
    pub kind: u32,
}

/// What a wire or a stage holds.
#[derive(Clone, Copy, Debug, Default, PartialEq, Eq)]
pub struct Cell {
    pub mark: u32,
    pub word: u32,
}

impl Cell {
    pub fn is_empty(self) -> bool {
        self.mark == EMPTY
    }

    pub fn is_payload(self) -> bool {
        self.mark == PAYLOAD || self.mark == LAST
    }
}

/// One input of a router. A choice and a latch are an output's number plus 1, 0 being none.
#[derive(Clone, Debug, Default)]
pub struct Input {
    pub link: Cell,
    pub head: Cell,
    pub choice: u32,
    pub latch: u32,
}

/// The receive unit behind the output to memory.
#[derive(Clone, Debug, Default)]
pub struct Receiver {
    pub mark: u32,
    pub kind: u32,
    pub address: u32,
}

/// What landed in the last cycle, where the mark is 1.
#[derive(Clone, Copy, Debug, Default, PartialEq, Eq)]
pub struct Landing {
    pub mark: u32,
    pub kind: u32,
    pub address: u32,
    pub word: u32,
}

#[derive(Clone, Debug, Default)]
pub struct Node {
    pub inputs: [Input; PORTS],
    pub outputs: [Cell; PORTS],
    /// By `VERTICAL_SIDES`, what is in the extra registers of long links; nothing elsewhere.
    pub extras: [Cell; 2],
    pub receiver: Receiver,
    pub landing: Landing,
}

/// The rest of a circuit's transfer, and the words of its present packet still to go.
#[derive(Clone, Debug, Default)]
pub struct Sender {
    pub left: u32,
    pub read: u32,
    pub write: u32,
    pub kind: u32,
    pub to_go: u32,
}

#[derive(Clone, Debug, Default)]
pub struct Order {
    pub mark: u32,
    pub schedule: u32,
    pub period_number: u32,
}

#[derive(Clone, Debug, Default)]
pub struct Clock {
    pub cycle: u32,
    pub period_number: u32,
    pub schedule: u32,
    pub order: Order,
}

/// The causes of number 20.
#[derive(Clone, Copy, Debug, PartialEq, Eq, PartialOrd, Ord)]
pub enum Fault {
    OutputWantedTwice,
    SourceWireWantedTwice,
    SlotWhileSending,
    PayloadWithoutLatch,
    PayloadWithoutChoice,
    PayloadWithoutPacket,
    LandingBeyondMemory,
}

/// A sheet that passed 1 to 11 at least, by the words that it stands for, with the neighbours of its nodes.
pub struct CheckedSheet {
    pub words: Vec<u32>,
    pub sheet: Sheet,
    pub neighbours: Vec<[usize; 4]>,
}

impl CheckedSheet {
    /// The sheet, or its number by a checker of 1 to 11, or of 26 too.
    pub fn check_by(verdict: fn(&[u32]) -> u32, words: &[u32]) -> Result<CheckedSheet, u32> {
        let number = verdict(words);
        if number != 0 {
            return Err(number);
        }
        let words = checker::meant(words);
        let sheet = checker::read(words).expect("the sheet passed");
        let neighbours = (0..sheet.columns * sheet.rows)
            .map(|node| {
                [Side::North, Side::East, Side::South, Side::West]
                    .map(|side| checker::neighbour(&sheet, node, side) as usize)
            })
            .collect();
        Ok(CheckedSheet { words: words.to_vec(), sheet, neighbours })
    }

    pub fn nodes(&self) -> usize {
        self.neighbours.len()
    }

    pub fn has_long_links(&self) -> bool {
        self.sheet.long_links
    }

    /// The words of one node's memory.
    pub fn memory_words(&self) -> usize {
        self.sheet.memory_words as usize
    }

    /// The words of all memories.
    pub fn all_memory_words(&self) -> usize {
        self.nodes() * self.memory_words()
    }
}

// A header: two bits of kind, 14 of address, 16 of route.

fn header(kind: u32, address: u32, route: u32) -> u32 {
    kind << 30 | address << 16 | route
}

pub fn kind_of(header: u32) -> u32 {
    header >> 30
}

pub fn address_of(header: u32) -> u32 {
    header >> 16 & 0x3FFF
}

pub fn shifted(header: u32) -> u32 {
    (header & 0xFFFF_0000) | (header & 0xFFFF) >> 2
}

/// The output that a header asks for: the code of the side it came in by means the memory.
pub fn output_of(header: u32, input: usize) -> usize {
    let code = (header & 3) as usize;
    if code == input {
        MEMORY
    } else {
        code
    }
}

impl Input {
    /// The header stage. A packet's latch is held up to its last word.
    fn take_link(&mut self, input: usize) {
        self.head = self.link;
        match self.link.mark {
            EMPTY => self.choice = 0,
            HEADER => {
                self.head.word = shifted(self.link.word);
                self.latch = output_of(self.link.word, input) as u32 + 1;
                self.choice = self.latch;
            }
            LAST => {
                self.choice = self.latch;
                self.latch = 0;
            }
            _ => self.choice = self.latch,
        }
    }
}

impl Node {
    fn add_faults(&self, memory_words: usize, faults: &mut Vec<Fault>) {
        let mut wanted = [false; PORTS];
        for input in &self.inputs {
            if input.link.is_payload() && input.latch == 0 {
                faults.push(Fault::PayloadWithoutLatch);
            }
            // A header without a choice is no fault; it goes nowhere.
            if input.head.is_payload() && input.choice == 0 {
                faults.push(Fault::PayloadWithoutChoice);
            }
            if !input.head.is_empty() && input.choice != 0 {
                let output = input.choice as usize - 1;
                if wanted[output] {
                    faults.push(Fault::OutputWantedTwice);
                }
                wanted[output] = true;
            }
        }
        if self.outputs[MEMORY].is_payload() {
            if self.receiver.mark == 0 {
                faults.push(Fault::PayloadWithoutPacket);
            } else if self.receiver.address as usize >= memory_words {
                faults.push(Fault::LandingBeyondMemory);
            }
        }
    }

    /// The word on the memory output lands, or opens a packet.
    fn receive(&mut self, memory: &mut [u32]) {
        let arriving = self.outputs[MEMORY];
        let receiver = &mut self.receiver;
        self.landing = Landing {
            mark: u32::from(arriving.is_payload()),
            kind: receiver.kind,
            address: receiver.address,
            word: arriving.word,
        };
        if arriving.is_payload() {
            memory[receiver.address as usize] = arriving.word;
            receiver.address += 1;
        }
        match arriving.mark {
            HEADER => {
                *receiver = Receiver { mark: 1, kind: kind_of(arriving.word), address: address_of(arriving.word) }
            }
            LAST => receiver.mark = 0,
            _ => {}
        }
    }

    /// The crossbar stage. A wire that nothing is put on has the word 0.
    fn cross(&mut self) {
        self.outputs = [Cell::default(); PORTS];
        for input in &self.inputs {
            if !input.head.is_empty() && input.choice != 0 {
                self.outputs[input.choice as usize - 1] = input.head;
            }
        }
    }
}

#[derive(Clone)]
pub struct Machine {
    pub sheet: Rc<CheckedSheet>,
    pub clock: Clock,
    pub nodes: Vec<Node>,
    pub senders: Vec<Sender>,
    /// By circuit, the words that left and have not landed; nothing where nobody counted from the load on.
    counted: Option<Vec<u32>>,
}

impl Machine {
    /// Cycle 0, period 0, schedule 0, wires empty, no transfers.
    pub fn new(sheet: Rc<CheckedSheet>) -> Machine {
        Machine {
            clock: Clock::default(),
            nodes: vec![Node::default(); sheet.nodes()],
            senders: vec![Sender::default(); sheet.sheet.circuits.len()],
            counted: Some(vec![0; sheet.sheet.circuits.len()]),
            sheet,
        }
    }

    /// The registers are someone else's, who kept no count.
    pub fn forget_count(&mut self) {
        self.counted = None;
    }

    /// The registers are as the other machine left them, but for the clock.
    pub fn go_on_counting_from(&mut self, other: &Machine) {
        self.counted = other.counted.clone();
    }

    /// The words of a circuit that left and have not landed, where they are counted.
    pub fn words_travelling(&self, circuit: usize) -> Option<u32> {
        self.counted.as_ref().map(|counted| counted[circuit])
    }

    /// A circuit is busy until its last word has landed.
    pub fn is_busy(&self, circuit: usize) -> bool {
        let travels = || match self.words_travelling(circuit) {
            Some(words) => words > 0,
            None => self.shows_words_travelling(circuit),
        };
        self.senders[circuit].left > 0 || travels()
    }

    pub fn start(&mut self, circuit: u32, read: u32, write: u32, count: u32, kind: u32) -> Result<(), u32> {
        let memory_words = self.sheet.memory_words() as u64;
        let Some(record) = self.sheet.sheet.circuits.get(circuit as usize) else {
            return Err(15);
        };
        let address_exists = |address: u32| u64::from(address) < memory_words;
        if !address_exists(read) || !address_exists(write) || (kind != DATA && kind != INTERRUPT) {
            return Err(15);
        }
        if count == 0
            || (kind == INTERRUPT && count != 1)
            || !lies_within(read, count, record.read_offset, record.read_length)
            || !lies_within(write, count, record.receive_offset, record.receive_length)
        {
            return Err(16);
        }
        if self.is_busy(circuit as usize) {
            return Err(17);
        }
        let sender = &mut self.senders[circuit as usize];
        *sender = Sender { left: count, read, write, kind, to_go: sender.to_go };
        Ok(())
    }

    /// One start after the other; an answer word for each, 0 or its number.
    pub fn start_all(&mut self, transfers: &[Transfer], answers: &mut [u32]) -> Result<(), u32> {
        if transfers.len() > MOST_TRANSFERS || answers.len() < transfers.len() {
            return Err(21);
        }
        for (transfer, answer) in transfers.iter().zip(answers) {
            let Transfer { circuit, read, write, count, kind } = *transfer;
            *answer = self.start(circuit, read, write, count, kind).err().unwrap_or(0);
        }
        Ok(())
    }

    pub fn store(&self, memory: &mut [u32], node: u32, address: u32, word: u32) -> Result<(), u32> {
        let place = self.memory_place(memory, node, address)?;
        memory[place] = word;
        Ok(())
    }

    pub fn fetch(&self, memory: &[u32], node: u32, address: u32) -> Result<u32, u32> {
        Ok(memory[self.memory_place(memory, node, address)?])
    }

    fn memory_place(&self, memory: &[u32], node: u32, address: u32) -> Result<usize, u32> {
        if memory.len() != self.sheet.all_memory_words() {
            return Err(14);
        }
        if node as usize >= self.sheet.nodes() || address as usize >= self.sheet.memory_words() {
            return Err(15);
        }
        Ok(node as usize * self.sheet.memory_words() + address as usize)
    }

    pub fn words_left(&self, circuit: u32) -> Result<u32, u32> {
        self.senders.get(circuit as usize).map(|sender| sender.left).ok_or(15)
    }

    pub fn period_number(&self) -> u32 {
        self.clock.period_number
    }

    pub fn what_landed(&self, node: u32) -> Result<Option<Landing>, u32> {
        let landing = self.nodes.get(node as usize).ok_or(15u32)?.landing;
        Ok((landing.mark == 1).then_some(landing))
    }

    pub fn order(&mut self, schedule: u32, period_number: u32) -> Result<(), u32> {
        if schedule as usize >= self.sheet.sheet.schedules.len() {
            return Err(15);
        }
        if self.clock.order.mark == 1 {
            return Err(18);
        }
        let ahead = period_number.wrapping_sub(self.clock.period_number);
        if !(3..1 << 31).contains(&ahead) {
            return Err(19);
        }
        self.clock.order = Order { mark: 1, schedule, period_number };
        Ok(())
    }

    pub fn cycle(&mut self, memory: &mut [u32]) -> Result<(), u32> {
        if memory.len() != self.sheet.all_memory_words() {
            return Err(14);
        }
        if !self.faults().is_empty() {
            return Err(20);
        }
        // All reads of the cycle come before its stores.
        let opening = self.opening_entries();
        let put_by_sources = self.source_wires(memory, opening.clone());
        self.advance_senders(opening);
        self.advance_nodes(memory, &put_by_sources);
        self.count_landings();
        self.advance_clock();
        Ok(())
    }

    /// Every cause of number 20 that the next cycle would meet.
    pub fn faults(&self) -> Vec<Fault> {
        let mut faults = Vec::new();
        let mut puts = [0; MOST_NODES];
        for (circuit, sender) in self.senders.iter().enumerate() {
            if sender.to_go > 0 {
                puts[self.source_of(circuit)] += 1;
            }
        }
        for entry in &self.schedule().entries[self.opening_entries()] {
            let sender = &self.senders[entry.circuit as usize];
            if sender.left > 0 && sender.to_go > 0 {
                faults.push(Fault::SlotWhileSending);
            } else if sender.left > 0 {
                puts[self.source_of(entry.circuit as usize)] += 1;
            }
        }
        if puts.iter().any(|&circuits| circuits > 1) {
            faults.push(Fault::SourceWireWantedTwice);
        }
        for node in &self.nodes {
            node.add_faults(self.sheet.memory_words(), &mut faults);
        }
        faults
    }

    fn schedule(&self) -> &Schedule {
        &self.sheet.sheet.schedules[self.clock.schedule as usize]
    }

    fn source_of(&self, circuit: usize) -> usize {
        self.sheet.sheet.circuits[circuit].source as usize
    }

    /// Which entries of the schedule in force begin in this cycle; they are sorted by offset.
    fn opening_entries(&self) -> Range<usize> {
        let cycle = u64::from(self.clock.cycle);
        let entries = &self.schedule().entries;
        let first = entries.partition_point(|entry| entry.offset < cycle);
        let opening = entries[first..].iter().take_while(|entry| entry.offset == cycle).count();
        first..first + opening
    }

    /// What the sources put on their wires: a header where a slot begins and words are left,
    /// else the next word of the packet being sent.
    fn source_wires(&self, memory: &[u32], opening: Range<usize>) -> [Cell; MOST_NODES] {
        let mut wires = [Cell::default(); MOST_NODES];
        for (circuit, sender) in self.senders.iter().enumerate() {
            if sender.to_go > 0 {
                let node = self.source_of(circuit);
                let word = memory[node * self.sheet.memory_words() + sender.read as usize];
                let mark = if sender.to_go == 1 { LAST } else { PAYLOAD };
                wires[node] = Cell { mark, word };
            }
        }
        for entry in &self.schedule().entries[opening] {
            let sender = &self.senders[entry.circuit as usize];
            if sender.left > 0 {
                let word = header(sender.kind, sender.write, entry.route as u32);
                wires[self.source_of(entry.circuit as usize)] = Cell { mark: HEADER, word };
            }
        }
        wires
    }

    /// No packet is being sent by a circuit whose slot begins: that is a fault.
    fn advance_senders(&mut self, opening: Range<usize>) {
        for (circuit, sender) in self.senders.iter_mut().enumerate() {
            if sender.to_go > 0 {
                sender.left -= 1;
                sender.read += 1;
                sender.write += 1;
                sender.to_go -= 1;
                if let Some(counted) = &mut self.counted {
                    counted[circuit] += 1;
                }
            }
        }
        let sheet = Rc::clone(&self.sheet);
        let entries = &sheet.sheet.schedules[self.clock.schedule as usize].entries;
        for &Entry { circuit, length, .. } in &entries[opening] {
            let sender = &mut self.senders[circuit as usize];
            if sender.left > 0 {
                sender.to_go = (length as u32 - 1).min(sender.left);
            }
        }
    }

    fn advance_nodes(&mut self, memory: &mut [u32], put_by_sources: &[Cell; MOST_NODES]) {
        let has_long_links = self.sheet.has_long_links();
        let mut put_by_routers = [[Cell::default(); PORTS]; MOST_NODES];
        for (node, outputs) in self.nodes.iter_mut().zip(&mut put_by_routers) {
            *outputs = node.outputs;
            if has_long_links {
                // What was put on a long link before comes to its end; what is on the output follows.
                for (side, extra) in VERTICAL_SIDES.into_iter().zip(&mut node.extras) {
                    outputs[side] = std::mem::replace(extra, node.outputs[side]);
                }
            }
        }
        let memories = memory.chunks_mut(self.sheet.memory_words());
        for (number, (node, own_memory)) in self.nodes.iter_mut().zip(memories).enumerate() {
            node.receive(own_memory);
            node.cross();
            for (port, input) in node.inputs.iter_mut().enumerate() {
                input.take_link(port);
                input.link = if port == SOURCE {
                    put_by_sources[number]
                } else {
                    // The side of the neighbour that faces this one.
                    put_by_routers[self.sheet.neighbours[number][port]][(port + 2) % 4]
                };
            }
        }
    }

    /// A landing is of the circuit whose receive region it lies in.
    fn count_landings(&mut self) {
        let Some(counted) = &mut self.counted else { return };
        for (number, node) in self.nodes.iter().enumerate().filter(|(_, node)| node.landing.mark == 1) {
            let receives = |record: &Circuit| {
                record.destination == number as u64
                    && lies_within(node.landing.address, 1, record.receive_offset, record.receive_length)
            };
            let circuit = self.sheet.sheet.circuits.iter().position(receives);
            counted[circuit.expect("what left lands in its circuit's region")] -= 1;
        }
    }

    fn advance_clock(&mut self) {
        let period = self.schedule().period;
        let clock = &mut self.clock;
        clock.cycle += 1;
        if u64::from(clock.cycle) == period {
            clock.cycle = 0;
            clock.period_number = clock.period_number.wrapping_add(1);
            if clock.order.mark == 1 && clock.order.period_number == clock.period_number {
                clock.schedule = clock.order.schedule;
                clock.order.mark = 0;
            }
        }
    }
}

/// Whether `count` words from an address on lie in a region.
pub fn lies_within(address: u32, count: u32, offset: u64, length: u64) -> bool {
    let (address, count) = (u64::from(address), u64::from(count));
    offset <= address && address + count <= offset + length
}
