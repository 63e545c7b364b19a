//! Lists of transfers made by hand (L1), on the plan of the hand-made states: the number, each
//! record's answer and each word of the state afterwards stand here, whatever the second machine says.

use super::calls::{lists_of, Call, FIELDS};
use super::hand_made::rest_in;
use super::lent::Row;
use super::lists::unanswered;
use super::machine::{Transfer, DATA, INTERRUPT, MOST_TRANSFERS};
use super::sheets::Plan;

const LARGEST: u32 = u32::MAX;

/// A list on words written over the state directly after a load of `hand_made_plan`.
pub struct HandMadeList {
    pub name: &'static str,
    pub before: Vec<(usize, u32)>,
    pub call: Call,
    pub number: u32,
    /// What the records are answered, where the list is carried out.
    pub answers: Vec<u32>,
    /// What then differs from before.
    pub after: Vec<(usize, u32)>,
}

/// A record beside its answer.
type Answered = (Transfer, u32);

fn data(circuit: u32, read: u32, write: u32, count: u32) -> Transfer {
    Transfer { circuit, read, write, count, kind: DATA }
}

fn interrupt(circuit: u32, read: u32, write: u32, count: u32) -> Transfer {
    Transfer { kind: INTERRUPT, ..data(circuit, read, write, count) }
}

/// The registers that a start writes.
pub fn started(transfer: &Transfer) -> Vec<(usize, u32)> {
    let circuit = transfer.circuit as usize;
    vec![
        (Row::Left.at(circuit), transfer.count),
        (Row::Read.at(circuit), transfer.read),
        (Row::Write.at(circuit), transfer.write),
        (Row::Kind.at(circuit), transfer.kind),
    ]
}

/// The list in both forms.
pub fn both_forms(transfers: Vec<Transfer>, answer_words: usize) -> [Call; 2] {
    let lists = lists_of(&transfers);
    let answers = unanswered(answer_words);
    [Call::StartAll { transfers, answers: answers.clone() }, Call::StartLists { lists, answers }]
}

/// Lists in both forms, with words for answers behind the list or none.
#[derive(Default)]
struct Collection {
    lists: Vec<HandMadeList>,
}

impl Collection {
    fn add_taken_on(&mut self, name: &'static str, before: Vec<(usize, u32)>, records: &[Answered]) {
        let transfers: Vec<Transfer> = records.iter().map(|&(transfer, _)| transfer).collect();
        let answers: Vec<u32> = records.iter().map(|&(_, answer)| answer).collect();
        let taken = records.iter().filter(|&&(_, answer)| answer == 0);
        let after: Vec<(usize, u32)> = taken.flat_map(|(transfer, _)| started(transfer)).collect();
        for behind in [0, 1, 6] {
            for call in both_forms(transfers.clone(), records.len() + behind) {
                let (before, answers, after) = (before.clone(), answers.clone(), after.clone());
                self.lists.push(HandMadeList { name, before, call, number: 0, answers, after });
            }
        }
    }

    fn add_taken(&mut self, name: &'static str, records: &[Answered]) {
        self.add_taken_on(name, Vec::new(), records);
    }

    /// A call that is refused by 21.
    fn add_refused(&mut self, name: &'static str, call: Call) {
        let [before, after] = [Vec::new(), Vec::new()];
        self.lists.push(HandMadeList { name, before, call, number: 21, answers: Vec::new(), after });
    }
}

pub fn hand_made_lists(plan: &Plan) -> Vec<HandMadeList> {
    let mut all = Collection::default();
    several_circuits(&mut all, plan);
    one_circuit(&mut all);
    kinds(&mut all);
    regions(&mut all);
    huge_words(&mut all);
    full_lists(&mut all);
    for (name, call) in refused_lists() {
        all.add_refused(name, call);
    }
    all.lists
}

fn several_circuits(all: &mut Collection, plan: &Plan) {
    all.add_taken("no records", &[]);
    let records = [(data(0, 0, 0, 4), 0), (data(1, 2, 4, 4), 0), (data(2, 4, 6, 2), 0)];
    all.add_taken("one record", &records[..1]);
    all.add_taken("every circuit", &records);
    all.add_taken("every circuit in another order", &[records[2], records[0], records[1]]);
    let busy = rest_in(plan, 1, 2, 1);
    let answered = [(data(1, 2, 4, 4), 17), (data(0, 1, 0, 3), 0), (data(1, 5, 7, 1), 17), (data(2, 2, 7, 1), 0)];
    all.add_taken_on("a circuit has words left", busy.clone(), &answered);
    all.add_taken_on("15 and 16 before words left", busy, &[(data(1, 8, 4, 1), 15), (data(1, 2, 4, 5), 16)]);
    // What is beside no words left makes no circuit busy.
    let old_rest = rest_in(plan, 0, 0, 0);
    all.add_taken_on("a circuit had words left", old_rest, &[(data(0, 2, 1, 2), 0), (data(0, 2, 1, 2), 17)]);
}

fn one_circuit(all: &mut Collection) {
    let record = data(0, 1, 2, 2);
    all.add_taken("a record twice", &[(record, 0), (record, 17)]);
    all.add_taken("a circuit twice", &[(record, 0), (data(0, 0, 0, 4), 17)]);
    all.add_taken("a circuit again, behind others", &[(record, 0), (data(2, 2, 6, 2), 0), (data(0, 0, 0, 1), 17)]);
    all.add_taken("16, then taken", &[(data(0, 0, 0, 5), 16), (record, 0)]);
    all.add_taken("16, taken, 17", &[(data(0, 0, 0, 0), 16), (record, 0), (record, 17)]);
    let no_kind = Transfer { kind: 1, ..record };
    all.add_taken("15, then taken", &[(no_kind, 15), (record, 0)]);
    let records = [(record, 0), (data(0, 0, 0, 0), 16), (no_kind, 15), (record, 17)];
    all.add_taken("taken, then each number", &records);
    all.add_taken("only refused", &[(data(0, 0, 0, 0), 16), (no_kind, 15), (data(3, 0, 0, 1), 15)]);
}

fn kinds(all: &mut Collection) {
    let records = [(interrupt(0, 3, 1, 1), 0), (data(1, 5, 7, 1), 0), (interrupt(2, 2, 7, 1), 0)];
    all.add_taken("interrupts beside data", &records);
    all.add_taken("interrupt, then data", &[(interrupt(0, 0, 0, 1), 0), (data(0, 0, 0, 2), 17)]);
    all.add_taken("data, then interrupt", &[(data(0, 0, 0, 2), 0), (interrupt(0, 0, 0, 1), 17)]);
    let wrong_counts = [(interrupt(0, 0, 0, 2), 16), (interrupt(0, 0, 0, 0), 16), (interrupt(0, 0, 0, 1), 0)];
    all.add_taken("interrupts of other counts", &wrong_counts);
    for kind in [1, 3, 4, LARGEST] {
        let wrong = Transfer { kind, ..data(0, 0, 0, 1) };
        all.add_taken("no such kind", &[(wrong, 15), (interrupt(0, 0, 0, 1), 0)]);
    }
}

/// Circuit 0 reads and writes 0 to 3, circuit 1 reads 2 to 5 and writes 4 to 7, circuit 2 reads 2 to
/// 5 and writes 6 and 7; the memory has 8 words.
fn regions(all: &mut Collection) {
    all.add_taken("last words", &[(data(0, 3, 3, 1), 0), (data(1, 5, 7, 1), 0), (data(2, 5, 7, 1), 0)]);
    let beyond = [
        (data(0, 4, 0, 1), 16),
        (data(0, 0, 4, 1), 16),
        (data(0, 3, 0, 2), 16),
        (data(0, 0, 3, 2), 16),
        (data(1, 1, 4, 1), 16),
        (data(1, 6, 4, 1), 16),
        (data(1, 2, 3, 1), 16),
        (data(1, 2, 8, 1), 15),
        (data(2, 2, 5, 1), 16),
        (data(2, 2, 6, 3), 16),
        (data(2, 8, 6, 1), 15),
    ];
    all.add_taken("by one word beyond", &beyond);
    let taken = [(data(0, 0, 0, 4), 0), (data(1, 2, 4, 4), 0), (data(2, 2, 6, 2), 0)];
    all.add_taken("by one word beyond, then whole regions", &[&beyond[..], &taken].concat());
}

fn huge_words(all: &mut Collection) {
    let right = data(1, 2, 4, 2);
    let mut records = Vec::new();
    for huge in [1 << 14, 1 << 16, 1 << 31, LARGEST - 4] {
        records.extend([
            (Transfer { circuit: 1 + huge, ..right }, 15),
            (Transfer { read: 2 + huge, ..right }, 15),
            (Transfer { write: 4 + huge, ..right }, 15),
            (Transfer { count: 2 + huge, ..right }, 16),
            (Transfer { kind: 2 + huge, ..right }, 15),
        ]);
    }
    records.push((right, 0));
    all.add_taken("huge words", &records);
    let all_huge = Transfer { circuit: LARGEST, read: LARGEST, write: LARGEST, count: LARGEST, kind: LARGEST };
    all.add_taken("all words huge", &[(all_huge, 15), (right, 0)]);
}

fn full_lists(all: &mut Collection) {
    let record = data(0, 0, 0, 4);
    let same = [vec![(record, 0)], vec![(record, 17); 63]].concat();
    all.add_taken("64 records, all the same", &same);
    let between = vec![(data(3, 0, 0, 1), 15); 62];
    all.add_taken("64 records, a circuit first and last", &[vec![(record, 0)], between, vec![(record, 17)]].concat());
    all.add_taken("64 records, only the last taken", &[vec![(data(0, 0, 0, 0), 16); 63], vec![(record, 0)]].concat());
}

/// Calls that are refused by 21 on any sound state, in both forms.
fn refused_lists() -> Vec<(&'static str, Call)> {
    let record = data(0, 0, 0, 4);
    let mut calls = Vec::new();
    for (name, records, answer_words) in [
        ("65 records", 65, 65),
        ("65 records, more words", 65, 70),
        ("65 records, 64 words", 65, 64),
        ("65 records, no words", 65, 0),
        ("many records", 320, 320),
        ("64 records, 63 words", 64, 63),
        ("two records, one word", 2, 1),
        ("one record, no words", 1, 0),
    ] {
        calls.extend(both_forms(vec![record; records], answer_words).map(|call| (name, call)));
    }
    for length in [1, 2, MOST_TRANSFERS] {
        for field in 0..FIELDS {
            let lists = lists_of(&vec![record; length]);
            let [mut shorter, mut longer] = [lists.clone(), lists];
            shorter[field].pop();
            longer[field].push(0);
            let answers = unanswered(length + 1);
            calls.push(("one list shorter", Call::StartLists { lists: shorter, answers: answers.clone() }));
            calls.push(("one list longer", Call::StartLists { lists: longer, answers }));
        }
    }
    calls
}

/// What is asked of every hand-made state.
pub struct ListsOfState {
    /// Refused by 21 on a sound state, by form.
    pub refused: [Vec<Call>; 2],
    /// Carried out by a sound state: a start on each circuit, and no records, in both forms.
    pub right: Vec<Call>,
}

impl ListsOfState {
    pub fn new(plan: &Plan) -> ListsOfState {
        let start = |circuit: usize| {
            let record = plan.circuits[circuit];
            data(circuit as u32, record.read_offset, record.receive_offset, 1)
        };
        let starts: Vec<Transfer> = (0..plan.circuits.len()).map(start).collect();
        let right = [both_forms(starts, MOST_TRANSFERS), both_forms(Vec::new(), 0)].concat();
        let calls = refused_lists().into_iter().map(|(_, call)| call);
        let (records, words): (Vec<Call>, Vec<Call>) = calls.partition(|call| matches!(call, Call::StartAll { .. }));
        ListsOfState { refused: [records, words], right }
    }
}
