//! Which circuits have words on their way, read off the registers as docs/STATE.md says, for words that no load need
//! have led to: every header is followed to the memory that it comes to, and the receive units say what arrives.

use super::checker::Side;
use super::machine::{
    address_of, lies_within, output_of, shifted, Cell, Machine, HEADER, MEMORY, PORTS, VERTICAL_SIDES,
};

/// Where a packet was found.
#[derive(Clone, Copy, Debug, PartialEq, Eq)]
pub enum Place {
    Link,
    Head,
    Out,
    Extra,
    Receiver,
}

/// A packet on its way to a node's memory, by the address of its next word there.
#[derive(Clone, Copy, Debug, PartialEq, Eq)]
pub struct Arrival {
    pub place: Place,
    pub node: usize,
    pub address: u32,
}

impl Machine {
    /// Whether the registers show words on their way to the circuit's receive region.
    pub fn shows_words_travelling(&self, circuit: usize) -> bool {
        self.arrivals().iter().any(|arrival| self.is_for(arrival, circuit))
    }

    pub fn is_for(&self, arrival: &Arrival, circuit: usize) -> bool {
        let record = &self.sheet.sheet.circuits[circuit];
        arrival.node as u64 == record.destination
            && lies_within(arrival.address, 1, record.receive_offset, record.receive_length)
    }

    /// Everything that is on its way to some memory.
    pub fn arrivals(&self) -> Vec<Arrival> {
        let mut all = Vec::new();
        for (number, node) in self.nodes.iter().enumerate() {
            if node.receiver.mark == 1 {
                all.push(Arrival { place: Place::Receiver, node: number, address: node.receiver.address });
            }
            for (port, input) in node.inputs.iter().enumerate() {
                let word = input.link.word;
                all.extend(self.arrival(Place::Link, input.link, number, output_of(word, port), shifted(word)));
                // The code of a header that left the header stage has become its choice.
                if (1..=PORTS).contains(&(input.choice as usize)) {
                    let output = input.choice as usize - 1;
                    all.extend(self.arrival(Place::Head, input.head, number, output, input.head.word));
                }
            }
            for (output, &cell) in node.outputs.iter().enumerate() {
                all.extend(self.arrival(Place::Out, cell, number, output, cell.word));
            }
            // Elsewhere than on long links nothing is in them.
            for (side, cell) in VERTICAL_SIDES.into_iter().zip(node.extras) {
                all.extend(self.arrival(Place::Extra, cell, number, side, cell.word));
            }
        }
        all
    }

    /// Where a cell comes to that leaves a node by an output; only headers say where they go. The word has the codes
    /// behind that output.
    fn arrival(&self, place: Place, cell: Cell, node: usize, output: usize, word: u32) -> Option<Arrival> {
        if cell.mark != HEADER {
            return None;
        }
        let node = self.memory_reached(node, output, word)?;
        Some(Arrival { place, node, address: address_of(word) })
    }

    /// The node whose memory a header comes to; nothing where it goes north for ever.
    fn memory_reached(&self, mut node: usize, mut output: usize, mut word: u32) -> Option<usize> {
        while output != MEMORY {
            node = self.sheet.neighbours[node][output];
            let input = (output + 2) % 4;
            // Zeros lead north, and to the memory only for who comes from there.
            if word & 0xFFFF == 0 && input != Side::North as usize {
                return None;
            }
            output = output_of(word, input);
            word = shifted(word);
        }
        Some(node)
    }
}
