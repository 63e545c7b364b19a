//! Frozen with flights.rs: a network whose words in flight are lists, one for each stage of a router. Where nothing is in flight and
//! nothing is being sent, it goes on at the next slot of a circuit with words left. The sheet has passed, so that no two words meet.

use std::mem::swap;

const SOURCE: u8 = 4;
const MEMORY: u8 = 4;
const INPUTS: usize = 5;
/// At most a word on each wire of a stage.
const MOST_IN_STAGE: usize = 16 * INPUTS;

#[derive(Clone, Copy)]
struct Flight {
    word: u32,
    is_header: bool,
    /// Of all routers, five a router.
    input: u8,
    /// Once the header stage is passed.
    output: u8,
}

#[derive(Clone, Copy, Default)]
pub struct Sender {
    pub left: u32,
    pub read: u32,
    pub write: u32,
    pub kind: u32,
    pub to_go: u32,
}

#[derive(Clone, Copy, Default)]
pub struct Landing {
    pub kind: u32,
    pub address: u32,
    pub word: u32,
}

pub struct Network<'a> {
    circuits: &'a [[u32; 6]],
    pub senders: [Sender; 64],
    /// A bit for each circuit that is amid a packet.
    sending: u64,
    /// The schedule in force, without slots that were found to have no words left when a period began.
    slots: Vec<[u32; 4]>,
    next_slot: usize,
    period: u32,
    cycle: u32,
    in_flight: u32,
    on_links: Vec<Flight>,
    in_heads: Vec<Flight>,
    on_outputs: Vec<Flight>,
    /// In the registers of long links, behind the outputs.
    on_long_links: Vec<Flight>,
    /// By input, the output of the packet that comes in.
    latches: [u8; 16 * INPUTS],
    /// By router and side, the input at the other end.
    facing: [[u8; 4]; 16],
    has_long_links: bool,
    memory: &'a mut [u32],
    memory_words: u32,
    /// By node, the last landing: the next one of its packet is a word further.
    landings: [Landing; 16],
    /// A bit for each node at which a word lands in the present cycle.
    landed: u32,
}

impl<'a> Network<'a> {
    /// At cycle 0, of a sheet that passes.
    pub fn new(sheet: &'a [u32], memory: &'a mut [u32]) -> Network<'a> {
        let [columns, rows, memory_words, circuits] = [0, 1, 2, 3].map(|place| sheet[place]);
        let (circuits, schedules) = sheet[5..].split_at(6 * circuits as usize);
        Network {
            circuits: circuits.as_chunks().0,
            senders: [Sender::default(); 64],
            sending: 0,
            slots: schedules[2..2 + 4 * schedules[1] as usize].as_chunks().0.to_vec(),
            next_slot: 0,
            period: schedules[0],
            cycle: 0,
            in_flight: 0,
            on_links: Vec::with_capacity(MOST_IN_STAGE),
            in_heads: Vec::with_capacity(MOST_IN_STAGE),
            on_outputs: Vec::with_capacity(MOST_IN_STAGE),
            on_long_links: Vec::with_capacity(2 * MOST_IN_STAGE),
            latches: [0; 16 * INPUTS],
            facing: facing(columns, rows % 256),
            has_long_links: rows >= 256,
            memory,
            memory_words,
            landings: Default::default(),
            landed: 0,
        }
    }

    /// Runs so many cycles, and hands on what lands: cycle by cycle, then node by node.
    pub fn run(&mut self, cycles: u32, mut list: impl FnMut(u32, u32, Landing)) {
        self.begin_period();
        let mut time = 0;
        loop {
            if self.in_flight == 0 && self.sending == 0 {
                let Some(skipped) = self.skip() else { return };
                time += skipped;
            }
            if time >= cycles {
                return;
            }
            self.move_words();
            self.send_words();
            self.open_slots();
            self.list_landings(|node, landing| list(time, node, landing));
            time += 1;
            self.cycle += 1;
            if self.cycle == self.period {
                self.begin_period();
            }
        }
    }

    /// Slots of circuits that have nothing left to send are dropped.
    fn begin_period(&mut self) {
        let senders = &self.senders;
        self.slots.retain(|slot| senders[slot[2] as usize].left > 0);
        self.next_slot = 0;
        self.cycle = 0;
    }

    /// Goes on to the next slot of a circuit with words left; how many cycles later it is, if there is one.
    fn skip(&mut self) -> Option<u32> {
        let senders = &self.senders;
        let live = |slot: &&[u32; 4]| senders[slot[2] as usize].left > 0;
        if let Some(slot) = self.slots[self.next_slot..].iter().find(live) {
            let skipped = slot[0] - self.cycle;
            self.cycle = slot[0];
            return Some(skipped);
        }
        let rest = self.period - self.cycle;
        self.begin_period();
        self.cycle = self.slots.first()?[0];
        Some(rest + self.cycle)
    }

    /// A stage further for every word.
    fn move_words(&mut self) {
        for flight in &mut self.on_links {
            let latch = &mut self.latches[flight.input as usize];
            if flight.is_header {
                let code = (flight.word & 3) as u8;
                // The code of the side that the packet came in by means the memory.
                *latch = if code == flight.input % INPUTS as u8 { MEMORY } else { code };
                flight.word = flight.word & 0xFFFF_0000 | (flight.word & 0xFFFF) >> 2;
            }
            flight.output = *latch;
        }
        swap(&mut self.on_links, &mut self.in_heads);
        swap(&mut self.on_links, &mut self.on_outputs);
        self.leave_routers();
    }

    /// What was on the outputs lands, or goes on to the links; long ones take a cycle more.
    fn leave_routers(&mut self) {
        let before = self.on_long_links.len();
        let mut place = 0;
        while let Some(&flight) = self.on_links.get(place) {
            if flight.output == MEMORY {
                self.on_links.swap_remove(place);
                self.in_flight -= 1;
                self.land(flight);
            // North and south are even.
            } else if self.has_long_links && flight.output % 2 == 0 {
                self.on_links.swap_remove(place);
                self.on_long_links.push(flight);
            } else {
                self.on_links[place] = cross(&self.facing, flight);
                place += 1;
            }
        }
        if before > 0 {
            let facing = &self.facing;
            self.on_links.extend(self.on_long_links.drain(..before).map(|flight| cross(facing, flight)));
        }
    }

    fn land(&mut self, flight: Flight) {
        let node = flight.input as usize / INPUTS;
        let landing = &mut self.landings[node];
        if flight.is_header {
            // A word before its first.
            let address = (flight.word >> 16 & 0x3FFF).wrapping_sub(1);
            *landing = Landing { kind: flight.word >> 30, address, word: 0 };
            return;
        }
        landing.address = landing.address.wrapping_add(1);
        landing.word = flight.word;
        self.landed |= 1 << node;
    }

    /// The next word of every packet that is being sent.
    fn send_words(&mut self) {
        let mut rest = self.sending;
        while rest != 0 {
            let circuit = rest.trailing_zeros() as usize;
            rest &= rest - 1;
            let source = self.circuits[circuit][0];
            let sender = &mut self.senders[circuit];
            let word = self.memory[(source * self.memory_words + sender.read) as usize];
            sender.left -= 1;
            sender.read += 1;
            sender.write += 1;
            sender.to_go -= 1;
            self.sending &= !(u64::from(sender.to_go == 0) << circuit);
            self.put(source, word, false);
        }
    }

    /// The headers of the slots that begin in this cycle.
    fn open_slots(&mut self) {
        while let Some(&[_, length, circuit, route]) =
            self.slots.get(self.next_slot).filter(|slot| slot[0] <= self.cycle)
        {
            self.next_slot += 1;
            // Before the cycle lie slots that were skipped, of circuits without words left.
            let sender = &mut self.senders[circuit as usize];
            if sender.left > 0 {
                sender.to_go = (length - 1).min(sender.left);
                self.sending |= 1 << circuit;
                let header = sender.kind << 30 | sender.write << 16 | route;
                self.put(self.circuits[circuit as usize][0], header, true);
            }
        }
    }

    fn put(&mut self, source: u32, word: u32, is_header: bool) {
        let input = source as u8 * INPUTS as u8 + SOURCE;
        self.in_flight += 1;
        self.on_links.push(Flight { word, is_header, input, output: 0 });
    }

    /// What lands is stored once the words of the cycle have been read.
    fn list_landings(&mut self, mut list: impl FnMut(u32, Landing)) {
        while self.landed != 0 {
            let node = self.landed.trailing_zeros();
            self.landed &= self.landed - 1;
            let landing = self.landings[node as usize];
            self.memory[(node * self.memory_words + landing.address) as usize] = landing.word;
            list(node, landing);
        }
    }
}

/// A word at the other end of the link by its output.
fn cross(facing: &[[u8; 4]; 16], flight: Flight) -> Flight {
    Flight { input: facing[flight.input as usize / INPUTS][flight.output as usize], ..flight }
}

/// North, east, south and west of a node lie the south, west, north and east inputs of its neighbours.
fn facing(columns: u32, rows: u32) -> [[u8; 4]; 16] {
    let mut facing = [[0; 4]; 16];
    for node in 0..columns * rows {
        let (row, column) = (node / columns, node % columns);
        let input = |row: u32, column: u32, side: u32| {
            ((row % rows * columns + column % columns) * INPUTS as u32 + side) as u8
        };
        facing[node as usize] = [
            input(row + rows - 1, column, 2),
            input(row, column + 1, 3),
            input(row + 1, column, 0),
            input(row, column + columns - 1, 1),
        ];
    }
    facing
}
