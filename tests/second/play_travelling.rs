//! What the player looks at about words that travel (L3): at every start the count, the registers and the reckoning
//! have to say the same of each circuit that is named, and the moments that matter are met by name.

use super::calls::Call;
use super::checker::Circuit;
use super::machine::{Machine, Transfer, INTERRUPT};
use super::reckoning::Reckoning;
use super::sessions::Made;
use super::travelling::{Arrival, Place};

const REFUSED: &str = "start refused by travelling words alone";
const TAKEN_FIRST: &str = "start taken directly after the last landing";
const STARTS_REQUIRED: u64 = 1_500;
/// Of these in lists.
const RECORDS_REQUIRED: u64 = 300;

/// Met by single starts this often, and by records of lists a tenth of it.
const SITUATIONS: [(u64, &str); 17] = [
    (200, "start refused directly before the last landing"),
    (200, "start refused by a header in a link register alone"),
    (200, "start refused by a header in a head register alone"),
    (200, "start refused by a header in an out register alone"),
    (200, "start refused by an arriving packet alone"),
    (50, "start refused, an interrupt travels"),
    (50, "start refused, the first of several packets has landed"),
    (50, "start refused, a packet arrives at its region's last address"),
    (20, "start refused, a circuit with an adjoining region is free"),
    (20, "start taken, a circuit with an adjoining region waits for landings"),
    (20, "start refused, four hops over a period's end"),
    (10, "start refused, four hops over a switch"),
    (20, "start taken directly after the last landing over a period's end"),
    (10, "start taken of a circuit whose words a load ended"),
    (50, "15 before travelling words"),
    (50, "16 before travelling words"),
    (100, "start refused again, the same"),
];

/// Called between two starts that are refused; the starts may be records.
const BETWEEN: [&str; 7] = ["store", "order", "fetch", "words left", "what landed", "period number", "refused call"];
const BETWEEN_REQUIRED: u64 = 20;

/// What should be met often, and how often.
pub fn wanted_often() -> Vec<(u64, String)> {
    let mut names = Vec::new();
    for name in [REFUSED, TAKEN_FIRST] {
        names.extend([(STARTS_REQUIRED, name.to_string()), (RECORDS_REQUIRED, by_list(name))]);
    }
    for (count, name) in SITUATIONS {
        names.extend([(count, name.to_string()), (count / 10, by_list(name))]);
    }
    names.extend(BETWEEN.map(|call| (BETWEEN_REQUIRED, between_name(call))));
    names.into_iter().map(|(count, name)| (count, format!("situation: {name}"))).collect()
}

fn by_list(name: &str) -> String {
    format!("by a list, {name}")
}

fn between_name(call: &str) -> String {
    format!("start refused again, in between {call}")
}

/// What the starts of a call are answered; nothing where the call is refused before them.
fn answered(made: &Made) -> Vec<(Transfer, u32)> {
    let starts = made.call.starts();
    match made.call {
        Call::Start { .. } if made.expected != 12 => vec![(starts[0], made.expected)],
        Call::StartAll { .. } | Call::StartLists { .. } if made.expected == 0 => {
            starts.into_iter().zip(made.answers.iter().copied()).collect()
        }
        _ => Vec::new(),
    }
}

/// Three ways to tell whether a circuit is busy, on every circuit that is to be started; and whether the start is
/// then to be taken. Beside words left the ways may differ about travelling words: a header leaves a cycle before
/// its first word.
pub fn compare_ways(machine: &Machine, reckonings: &[Reckoning], made: &Made) -> Result<(), String> {
    let starts = answered(made);
    if starts.is_empty() {
        return Ok(());
    }
    let arrivals = machine.arrivals();
    let mut started = Vec::new();
    for (transfer, answer) in starts {
        let circuit = transfer.circuit as usize;
        let Some(reckoning) = reckonings.get(circuit) else { continue };
        let has_words_left = machine.senders[circuit].left > 0;
        let counted = has_words_left || machine.words_travelling(circuit).is_some_and(|words| words > 0);
        let read = has_words_left || arrivals.iter().any(|arrival| machine.is_for(arrival, circuit));
        let reckoned = reckoning.is_busy();
        if counted != reckoned || read != reckoned {
            let ways = format!("counted {counted}, read {read}, reckoned {reckoned}");
            return Err(format!("whether circuit {circuit} is busy: {ways}"));
        }
        let refused = reckoned || started.contains(&circuit);
        if matches!(answer, 0 | 17) && refused != (answer == 17) {
            return Err(format!("made for the answer {answer}, but circuit {circuit} is busy, reckoned: {refused}"));
        }
        if answer == 0 {
            started.push(circuit);
        }
    }
    Ok(())
}

/// What is remembered from call to call, up to the next cycle.
#[derive(Default)]
pub struct Flights {
    /// The last start that travelling words alone refused.
    refused: Option<Transfer>,
    /// What was called since.
    between: Vec<&'static str>,
    /// Circuits that had words travelling before a load of the same sheet.
    ended_by_load: Vec<usize>,
}

impl Flights {
    /// Names what a call meets, from the machine and the reckonings before it.
    pub fn note(&mut self, before: &Machine, reckonings: &[Reckoning], made: &Made) -> Vec<String> {
        let is_list = made.call.unanswered().is_some();
        let starts = answered(made);
        let arrivals = if starts.is_empty() { Vec::new() } else { before.arrivals() };
        let mut names = Vec::new();
        for (transfer, answer) in starts {
            let circuit = transfer.circuit as usize;
            let Some(reckoning) = reckonings.get(circuit) else { continue };
            let circumstances = Circumstances { before, reckonings, arrivals: &arrivals, circuit };
            let own = match answer {
                0 => self.note_taken(&circumstances),
                17 if reckoning.waits_for_landings() => self.note_refused(&circumstances, transfer, &mut names),
                15 | 16 if reckoning.waits_for_landings() => vec![format!("{answer} before travelling words")],
                _ => Vec::new(),
            };
            names.extend(own.into_iter().map(|name| if is_list { by_list(&name) } else { name }));
        }
        self.note_call(before, reckonings, made);
        names
    }

    fn note_taken(&self, circumstances: &Circumstances) -> Vec<String> {
        let reckoning = circumstances.reckoning();
        let mut names = Vec::new();
        if reckoning.landed_last_just_now() {
            names.push(TAKEN_FIRST.to_string());
            if reckoning.left_in_earlier_period() {
                names.push("start taken directly after the last landing over a period's end".to_string());
            }
        }
        if circumstances.adjoining().any(Reckoning::waits_for_landings) {
            names.push("start taken, a circuit with an adjoining region waits for landings".to_string());
        }
        if self.ended_by_load.contains(&circumstances.circuit) {
            names.push("start taken of a circuit whose words a load ended".to_string());
        }
        names
    }

    fn note_refused(
        &mut self,
        circumstances: &Circumstances,
        transfer: Transfer,
        names: &mut Vec<String>,
    ) -> Vec<String> {
        let mut own = circumstances.names_of_refused();
        if self.refused == Some(transfer) {
            own.push("start refused again, the same".to_string());
            names.extend(self.between.drain(..).map(between_name));
        }
        self.refused = Some(transfer);
        self.between.clear();
        own
    }

    fn note_call(&mut self, before: &Machine, reckonings: &[Reckoning], made: &Made) {
        match made.call {
            Call::Start { .. } | Call::StartAll { .. } | Call::StartLists { .. } if made.expected != 12 => {}
            _ if made.expected != 0 => self.between.push("refused call"),
            Call::Cycle => *self = Flights::default(),
            Call::Load { ref sheet } => {
                *self = Flights::default();
                if before.sheet.words == *sheet {
                    let travels = |&circuit: &usize| reckonings[circuit].has_words_travelling();
                    self.ended_by_load = (0..reckonings.len()).filter(travels).collect();
                }
            }
            _ => self.between.push(made.call.name()),
        }
    }
}

/// How things stand about a circuit that is to be started.
struct Circumstances<'a> {
    before: &'a Machine,
    reckonings: &'a [Reckoning],
    arrivals: &'a [Arrival],
    circuit: usize,
}

impl Circumstances<'_> {
    fn reckoning(&self) -> &Reckoning {
        &self.reckonings[self.circuit]
    }

    fn record(&self) -> &Circuit {
        &self.before.sheet.sheet.circuits[self.circuit]
    }

    /// The circuits whose receive regions end where this one's begins, or begin where it ends.
    fn adjoining(&self) -> impl Iterator<Item = &Reckoning> {
        let own = self.record();
        let end = |record: &Circuit| record.receive_offset + record.receive_length;
        let circuits = self.before.sheet.sheet.circuits.iter().zip(self.reckonings);
        let adjoin = move |record: &Circuit| {
            record.destination == own.destination
                && (record.receive_offset == end(own) || own.receive_offset == end(record))
        };
        circuits.filter(move |(record, _)| adjoin(record)).map(|(_, reckoning)| reckoning)
    }

    fn names_of_refused(&self) -> Vec<String> {
        let reckoning = self.reckoning();
        let receiver = &self.before.nodes[self.record().destination as usize].receiver;
        let last_address = self.record().receive_offset + self.record().receive_length - 1;
        let four_hops = reckoning.hops == 4;
        let cases = [
            (true, REFUSED),
            (reckoning.lands_last_next(), "start refused directly before the last landing"),
            (self.is_found_only_in(Place::Link), "start refused by a header in a link register alone"),
            (self.is_found_only_in(Place::Head), "start refused by a header in a head register alone"),
            (self.is_found_only_in(Place::Out), "start refused by a header in an out register alone"),
            (self.is_found_only_in(Place::Extra), "start refused by a header in an extra register alone"),
            (self.is_found_only_in(Place::Receiver), "start refused by an arriving packet alone"),
            (reckoning.kind() == INTERRUPT, "start refused, an interrupt travels"),
            (reckoning.first_of_packets_landed(), "start refused, the first of several packets has landed"),
            (
                receiver.mark == 1 && u64::from(receiver.address) == last_address,
                "start refused, a packet arrives at its region's last address",
            ),
            (
                self.adjoining().any(|reckoning| !reckoning.is_busy()),
                "start refused, a circuit with an adjoining region is free",
            ),
            (four_hops && reckoning.left_in_earlier_period(), "start refused, four hops over a period's end"),
            (four_hops && reckoning.left_under_other_schedule(), "start refused, four hops over a switch"),
        ];
        cases.into_iter().filter(|(met, _)| *met).map(|(_, name)| name.to_string()).collect()
    }

    fn is_found_only_in(&self, place: Place) -> bool {
        let mut own = self.arrivals.iter().filter(|arrival| self.before.is_for(arrival, self.circuit)).peekable();
        own.peek().is_some() && own.all(|arrival| arrival.place == place)
    }
}
