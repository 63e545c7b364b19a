//! Lists of transfers for the sessions (L1), in either form of the call, each record with the
//! answer that the way it was made calls for.
//!
//! Covered: no record to 64, and more (21); as many words for answers, more and fewer (21); records
//! that are right, wrong in each way of 15 and 16, repeated, at the ends of regions and with words
//! of any size; circuits that are free, that have words left or travelling, and that an earlier record
//! started; lists of words of different lengths (21); short states, with all of these (12).
//! Not covered: unsound states (13), which tests/states.rs has.

use super::calls::{lists_of, Call, FIELDS};
use super::machine::{Machine, Transfer, DATA, INTERRUPT, MOST_TRANSFERS};
use super::sessions::{Generator, Made, Start};

/// The ways in which lists are made.
pub const LIST_WAYS: [&str; 23] = [
    "list: any records",
    "list: about a landing",
    "list: every circuit",
    "list: no records, no answer words",
    "list: no records, some answer words",
    "list: 64 records, 64 answer words",
    "list: 64 records, 70 answer words",
    "list: 64 records, 63 answer words",
    "list: 65 records",
    "list: 65 records, 64 answer words",
    "list: many more than 64 records",
    "list: fewer answer words than records",
    "list: 16, then taken",
    "list: 15, then taken",
    "list: 64 records, the first and the last on one circuit",
    "list: one record again and again",
    "list: interrupts beside data",
    "list: at the ends of regions",
    "list: huge words",
    "list: short state",
    "list: short state, else 21",
    "lists: one is empty",
    "lists: one shorter and one longer",
];

/// By the list that is shorter, then longer, by one word than the others.
pub const ONE_OF_OTHER_LENGTH: [[&str; 2]; FIELDS] = [
    ["lists: fewer circuits", "lists: more circuits"],
    ["lists: fewer read addresses", "lists: more read addresses"],
    ["lists: fewer write addresses", "lists: more write addresses"],
    ["lists: fewer counts", "lists: more counts"],
    ["lists: fewer kinds", "lists: more kinds"],
];

/// Words to be lent for answers: no two are alike, and none is an answer.
pub fn unanswered(count: usize) -> Vec<u32> {
    (0..count as u32).map(|place| 0xA1A1_0000 + place).collect()
}

/// Records, with what they are to be answered one behind the other.
struct List {
    starts: Vec<Start>,
    answers: Vec<u32>,
    /// Which circuits are busy behind the records so far.
    busy: Vec<bool>,
}

impl List {
    fn new(machine: &Machine) -> List {
        let busy = (0..machine.senders.len()).map(|circuit| machine.is_busy(circuit)).collect();
        List { starts: Vec::new(), answers: Vec::new(), busy }
    }

    fn add(&mut self, start: Start) {
        let circuit = start.transfer.circuit as usize;
        let answer = match start.expected {
            0 if self.busy[circuit] => 17,
            number => number,
        };
        if answer == 0 {
            self.busy[circuit] = true;
        }
        self.starts.push(start);
        self.answers.push(answer);
    }

    fn transfers(&self) -> Vec<Transfer> {
        self.starts.iter().map(|start| start.transfer).collect()
    }
}

impl Generator {
    /// A list of any way.
    pub fn list(&mut self, machine: &Machine) -> Made {
        let mut made = match self.random.between(0, 23) {
            0..=3 => self.list_of_any(machine),
            4 => self.list_of_every_circuit(machine),
            5..=7 => self.full_list(machine),
            8..=9 => self.list_too_long(machine),
            10 => self.list_with_few_answers(machine),
            11 => self.empty_list(machine),
            12..=15 => self.lists_of_different_lengths(machine),
            16..=20 => self.list_on_free_circuit(machine),
            _ => self.list_on_several_circuits(machine),
        };
        // Number 12 comes before 21.
        if self.random.once_in(10) {
            made.name = if made.expected == 21 { "list: short state, else 21" } else { "list: short state" };
            made.lent.state = self.short_state();
            made.expected = 12;
        }
        made
    }

    /// The list in either form.
    fn made_list(&mut self, name: &'static str, list: List, answer_words: usize, expected: u32) -> Made {
        let (transfers, answers) = (list.transfers(), unanswered(answer_words));
        let call = if self.random.once_in(2) {
            Call::StartAll { transfers, answers }
        } else {
            Call::StartLists { lists: lists_of(&transfers), answers }
        };
        Made { answers: list.answers, ..self.made(name, call, expected) }
    }

    /// A list that is carried out; the words behind its answers have to stay.
    fn taken_list(&mut self, name: &'static str, list: List) -> Made {
        let answer_words = list.starts.len() + self.random.choose(&[0, 0, 1, 6]);
        self.made_list(name, list, answer_words, 0)
    }

    /// A right record, a wrong one, or one that the list has already.
    fn add_any(&mut self, list: &mut List) {
        let circuits = list.busy.len();
        let start = if !list.starts.is_empty() && self.random.once_in(6) {
            self.random.choose(&list.starts)
        } else if circuits == 0 || self.random.once_in(3) {
            self.wrong_start()
        } else {
            let circuit = self.random.position(circuits);
            self.right_start(circuit)
        };
        list.add(start);
    }

    fn any_records(&mut self, count: usize, machine: &Machine) -> List {
        let mut list = List::new(machine);
        (0..count).for_each(|_| self.add_any(&mut list));
        list
    }

    fn list_of_any(&mut self, machine: &Machine) -> Made {
        let count = self.random.between(1, 12) as usize;
        let list = self.any_records(count, machine);
        self.taken_list("list: any records", list)
    }

    /// A right start of each circuit, in any order.
    pub fn list_of_every_circuit(&mut self, machine: &Machine) -> Made {
        let mut list = List::new(machine);
        for circuit in self.circuits_in_any_order(machine) {
            list.add(self.right_start(circuit));
        }
        self.taken_list("list: every circuit", list)
    }

    fn full_list(&mut self, machine: &Machine) -> Made {
        let list = self.any_records(MOST_TRANSFERS, machine);
        let (name, answer_words, expected) = self.random.choose(&[
            ("list: 64 records, 64 answer words", 64, 0),
            ("list: 64 records, 70 answer words", 70, 0),
            ("list: 64 records, 63 answer words", 63, 21),
        ]);
        self.made_list(name, list, answer_words, expected)
    }

    fn list_too_long(&mut self, machine: &Machine) -> Made {
        let (name, count, answer_words) = self.random.choose(&[
            ("list: 65 records", 65, 65),
            ("list: 65 records", 65, 70),
            ("list: 65 records, 64 answer words", 65, 64),
            ("list: many more than 64 records", 128, 128),
            ("list: many more than 64 records", 257, 300),
        ]);
        let list = self.any_records(count, machine);
        self.made_list(name, list, answer_words, 21)
    }

    fn list_with_few_answers(&mut self, machine: &Machine) -> Made {
        let count = self.random.between(1, 64) as usize;
        let list = self.any_records(count, machine);
        let some = self.random.position(count);
        let answer_words = self.random.choose(&[0, count - 1, some]);
        self.made_list("list: fewer answer words than records", list, answer_words, 21)
    }

    fn empty_list(&mut self, machine: &Machine) -> Made {
        let (name, answer_words) = self.random.choose(&[
            ("list: no records, no answer words", 0),
            ("list: no records, some answer words", 1),
            ("list: no records, some answer words", 64),
        ]);
        self.made_list(name, List::new(machine), answer_words, 0)
    }

    /// Lists of words that do not agree; the words for answers would do for the longest.
    fn lists_of_different_lengths(&mut self, machine: &Machine) -> Made {
        let some = self.random.between(1, 64) as usize;
        let count = self.random.choose(&[1, some, some, some, 63, 64]);
        let mut lists = lists_of(&self.any_records(count, machine).transfers());
        let field = self.random.position(FIELDS);
        let name = match self.random.between(0, 9) {
            0 => {
                lists[field].clear();
                "lists: one is empty"
            }
            1 => {
                lists[field].pop();
                lists[(field + 1) % FIELDS].push(0);
                "lists: one shorter and one longer"
            }
            2..=5 => {
                lists[field].pop();
                ONE_OF_OTHER_LENGTH[field][0]
            }
            _ => {
                let first = lists[field][0];
                lists[field].push(first);
                ONE_OF_OTHER_LENGTH[field][1]
            }
        };
        let answers = unanswered(count + 1 + self.random.choose(&[0, 6]));
        self.made(name, Call::StartLists { lists, answers }, 21)
    }

    /// Records that depend on each other; a list of any where all circuits are busy.
    pub fn list_on_free_circuit(&mut self, machine: &Machine) -> Made {
        let mut list = List::new(machine);
        let circuits = self.circuits_in_any_order(machine);
        let Some(circuit) = circuits.into_iter().find(|&circuit| !list.busy[circuit]) else {
            return self.list_of_any(machine);
        };
        let right = self.right_start(circuit);
        let name = match self.random.between(0, 3) {
            0 => {
                // A refused record leaves the circuit free.
                let mut wrong = self.start_with_16(right.transfer);
                while wrong.expected != 16 {
                    wrong = self.start_with_16(right.transfer);
                }
                list.add(wrong);
                list.add(right);
                "list: 16, then taken"
            }
            1 => {
                list.add(self.start_with_15(right.transfer));
                list.add(right);
                "list: 15, then taken"
            }
            2 => {
                list.add(right);
                (2..MOST_TRANSFERS).for_each(|_| self.add_any(&mut list));
                list.add(self.right_start(circuit));
                "list: 64 records, the first and the last on one circuit"
            }
            _ => {
                let times = self.random.choose(&[2, 2, 3, 64]);
                (0..times).for_each(|_| list.add(right));
                "list: one record again and again"
            }
        };
        self.taken_list(name, list)
    }

    /// Records of one way on each of some circuits; a list of any where the sheet has none.
    fn list_on_several_circuits(&mut self, machine: &Machine) -> Made {
        let mut list = List::new(machine);
        let mut circuits = self.circuits_in_any_order(machine);
        circuits.truncate(12);
        if circuits.is_empty() {
            return self.list_of_any(machine);
        }
        let name = match self.random.between(0, 2) {
            0 => {
                circuits.iter().for_each(|&circuit| self.add_interrupt_and_data(circuit, &mut list));
                "list: interrupts beside data"
            }
            1 => {
                circuits.iter().for_each(|&circuit| list.add(self.start_at_ends(circuit)));
                "list: at the ends of regions"
            }
            _ => {
                for circuit in circuits {
                    list.add(self.huge_start(circuit));
                    list.add(self.right_start(circuit));
                }
                "list: huge words"
            }
        };
        self.taken_list(name, list)
    }

    fn circuits_in_any_order(&mut self, machine: &Machine) -> Vec<usize> {
        let mut circuits: Vec<usize> = (0..machine.senders.len()).collect();
        for place in (1..circuits.len()).rev() {
            circuits.swap(place, self.random.position(place + 1));
        }
        circuits
    }

    /// A start among some others, and now and then behind itself.
    pub fn list_about_landings(&mut self, start: Start, machine: &Machine) -> Made {
        let mut list = List::new(machine);
        for _ in 0..self.random.between(0, 2) {
            self.add_any(&mut list);
        }
        list.add(start);
        if self.random.once_in(4) {
            list.add(start);
        }
        for _ in 0..self.random.between(0, 2) {
            self.add_any(&mut list);
        }
        self.taken_list("list: about a landing", list)
    }

    /// Both kinds on one circuit, in any order, now and then behind an interrupt of two words.
    fn add_interrupt_and_data(&mut self, circuit: usize, list: &mut List) {
        let (first, second) = self.random.choose(&[(DATA, INTERRUPT), (INTERRUPT, DATA)]);
        if self.random.once_in(3) {
            let mut wrong = self.right_start_of_kind(circuit, INTERRUPT);
            wrong.transfer.count = 2;
            list.add(Start { expected: 16, ..wrong });
        }
        list.add(self.right_start_of_kind(circuit, first));
        list.add(self.right_start_of_kind(circuit, second));
    }

    /// A start from or up to an end of the regions, or by one word beyond.
    fn start_at_ends(&mut self, circuit: usize) -> Start {
        let memory_words = self.plan().memory_words;
        let record = self.plan().circuits[circuit];
        let most = record.read_length.min(record.receive_length);
        let [first_read, first_write] = [record.read_offset, record.receive_offset];
        let [behind_read, behind_write] = [first_read + record.read_length, first_write + record.receive_length];
        let number_behind = |address: u32| if address < memory_words { 16 } else { 15 };
        let (read, write, count, expected) = self.random.choose(&[
            (first_read, first_write, most, 0),
            (behind_read - most, behind_write - most, most, 0),
            (behind_read - 1, behind_write - 1, 1, 0),
            (first_read, behind_write - 1, 1, 0),
            (behind_read - 1, behind_write - 1, 2, 16),
            (first_read, first_write, most + 1, 16),
            (behind_read, first_write, 1, number_behind(behind_read)),
            (first_read, behind_write, 1, number_behind(behind_write)),
        ]);
        let transfer = Transfer { circuit: circuit as u32, read, write, count, kind: DATA };
        Start { name: "start: at the ends of regions", transfer, expected }
    }

    /// A start with one word of which only the low bits are right, or that is the largest.
    fn huge_start(&mut self, circuit: usize) -> Start {
        let mut transfer = self.right_start(circuit).transfer;
        let Transfer { circuit, read, write, count, kind } = &mut transfer;
        let (word, expected) = match self.random.between(0, 4) {
            0 => (circuit, 15),
            1 => (read, 15),
            2 => (write, 15),
            3 => (count, 16),
            _ => (kind, 15),
        };
        let raised = *word + self.random.choose(&[1 << 14, 1 << 16, 1 << 24, 1 << 31]);
        *word = self.random.choose(&[raised, raised, raised, u32::MAX]);
        Start { name: "start: huge word", transfer, expected }
    }
}
