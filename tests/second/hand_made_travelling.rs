//! States made by hand about words on their way (L3): headers at every station of a way, receive units, and what
//! says nothing beside them; and transfers whose last landing is known. Which circuits are busy stands here, by the
//! way each state is made, whatever the second machine says; every other circuit is free.

use super::hand_made::rest_in;
use super::hand_made_long::{busy_on_long_links, flights_on_long_links};
use super::lent::{Row, ROW_WORDS};
use super::machine::{DATA, EMPTY, HEADER, INTERRUPT, LAST, MEMORY, MOST_NODES, PAYLOAD, PORTS, SOURCE};
use super::sheets::{
    all_shortest_paths, neighbour, opposite, sheet_a, Circuit, Entry, Plan, Schedule, EAST, NORTH, SOUTH, WEST,
};
use super::travelling::Place;
use std::rc::Rc;

type Pokes = Vec<(usize, u32)>;

/// Words written over the state directly after a load of the plan.
pub struct HandMadeBusy {
    /// What was varied: a register kind, or a group of registers.
    pub place: &'static str,
    pub name: &'static str,
    pub plan: Rc<Plan>,
    pub pokes: Pokes,
    /// The circuits whose start gets 17.
    pub busy: Vec<usize>,
}

/// A transfer of circuit 0 with the cycle of its last landing, after a load of the plan.
pub struct HandMadeFlight {
    pub name: &'static str,
    pub plan: Plan,
    /// An order of schedule and period number, before cycle 0.
    pub order: Option<(u32, u32)>,
    /// Cycles carried out before the start.
    pub cycles: u32,
    pub count: u32,
    pub last_landing: u32,
}

const LARGEST: u32 = u32::MAX;
const UNITS: &str = "receive unit";
const OTHERS: &str = "other registers";

/// The first address of two regions, at node 1 and at the last node.
pub const FIRST: u32 = 5;

/// Circuit 0 comes to node 1 and receives at 5 to 7, circuits 1 and 2 come to the last node and receive at 5 to 8
/// and at 9 and 10; nobody receives at 4 and at 11, the last address.
pub fn plan_of_grid(columns: u32, rows: u32, long_links: bool) -> Plan {
    let last = columns * rows - 1;
    let circuit = |source, destination, receive_offset, receive_length| Circuit {
        source,
        destination,
        read_offset: 0,
        read_length: 4,
        receive_offset,
        receive_length,
    };
    let mut plan = Plan {
        columns,
        rows,
        long_links,
        memory_words: 12,
        circuits: vec![circuit(last, 1, FIRST, 3), circuit(0, last, FIRST, 4), circuit(1, last, 9, 2)],
        schedules: vec![Schedule { period: 9, entries: Vec::new() }],
    };
    (0..3).for_each(|circuit| plan.add_slot(0, circuit));
    plan
}

/// The circuit, if any, that receives at an address of a node.
fn receiver_at(plan: &Plan, node: u32, address: u32) -> Vec<usize> {
    let receives = |circuit: &Circuit| {
        let region = circuit.receive_offset..circuit.receive_offset + circuit.receive_length;
        circuit.destination == node && region.contains(&address)
    };
    plan.circuits.iter().position(receives).into_iter().collect()
}

/// A header in a register, without kind and address.
#[derive(Clone, Copy)]
pub struct Station {
    pub place: Place,
    pub node: usize,
    pub port: usize,
    /// In a head register.
    pub choice: u32,
    pub route: u32,
}

fn name_of(place: Place) -> &'static str {
    match place {
        Place::Link => "link",
        Place::Head => "head",
        Place::Out => "out",
        Place::Extra => "extra",
        Place::Receiver => UNITS,
    }
}

impl Station {
    pub fn name(&self) -> &'static str {
        name_of(self.place)
    }

    fn with_mark(&self, mark: u32, kind: u32, address: u32) -> Pokes {
        let rows = match self.place {
            Place::Link => [Row::LinkMark, Row::LinkWord],
            Place::Head => [Row::HeadMark, Row::HeadWord],
            Place::Extra => [Row::ExtraMark, Row::ExtraWord],
            _ => [Row::OutMark, Row::OutWord],
        };
        let [mark_place, word_place] = rows.map(|row| row.of_port(self.node, self.port));
        let mut pokes = vec![(mark_place, mark), (word_place, kind << 30 | address << 16 | self.route)];
        if self.place == Place::Head {
            pokes.push((Row::Choice.of_port(self.node, self.port), self.choice));
        }
        pokes
    }

    pub fn with(&self, address: u32) -> Pokes {
        self.with_mark(HEADER, DATA, address)
    }
}

/// The stations of a way that starts at a node's source and takes these outputs one behind the other, with as many
/// codes and zeros behind them; those whose codes do not fit are left out.
pub fn stations(plan: &Plan, source: u32, outputs: &[u32]) -> Vec<Station> {
    let mut routers = Vec::new();
    let (mut node, mut input) = (source, SOURCE as u32);
    for &output in outputs {
        let code = if output == MEMORY as u32 { input } else { output };
        routers.push((node as usize, input as usize, output, code));
        if output != MEMORY as u32 {
            (node, input) = (neighbour(plan, node, output), opposite(output));
        }
    }
    let route = |from: usize| routers[from..].iter().rev().fold(0u64, |route, router| route << 2 | u64::from(router.3));
    let mut all = Vec::new();
    for (router, &(node, input, output, _)) in routers.iter().enumerate() {
        let station = |place, port, choice, route| (Station { place, node, port, choice, route: route as u32 }, route);
        all.extend([
            station(Place::Link, input, 0, route(router)),
            station(Place::Head, input, output + 1, route(router + 1)),
            station(Place::Out, output as usize, 0, route(router + 1)),
        ]);
    }
    all.into_iter().filter(|&(_, route)| route <= 0xFFFF).map(|(station, _)| station).collect()
}

/// The same to a node's memory by the sides of a path, from where that path begins.
pub fn stations_to(plan: &Plan, destination: u32, path: &[u32]) -> Vec<Station> {
    let source = path.iter().rev().fold(destination, |node, &side| neighbour(plan, node, opposite(side)));
    stations(plan, source, &[path, &[MEMORY as u32]].concat())
}

/// Collects states of one plan.
pub struct Collection {
    pub plan: Rc<Plan>,
    pub states: Vec<HandMadeBusy>,
}

impl Collection {
    pub fn new(plan: Plan) -> Collection {
        Collection { plan: Rc::new(plan), states: Vec::new() }
    }

    pub fn add(&mut self, place: &'static str, name: &'static str, pokes: Pokes, busy: Vec<usize>) {
        self.states.push(HandMadeBusy { place, name, plan: Rc::clone(&self.plan), pokes, busy });
    }

    /// What comes to an address of a node.
    pub fn add_arriving(&mut self, name: &'static str, station: &Station, node: u32, address: u32) {
        let busy = receiver_at(&self.plan, node, address);
        self.add(station.name(), name, station.with(address), busy);
    }
}

pub fn hand_made_busy() -> Vec<HandMadeBusy> {
    let mut states = Vec::new();
    for (columns, rows) in [(2, 2), (3, 2), (2, 4), (4, 4)] {
        let mut all = Collection::new(plan_of_grid(columns, rows, false));
        ways(&mut all);
        units(&mut all);
        other_registers(&mut all);
        missing_nodes(&mut all);
        endless_ways(&mut all);
        if columns > 2 {
            long_ways(&mut all);
        }
        states.extend(all.states);
    }
    states.extend(end_of_memory());
    // The other registers on long links, and their own.
    let mut all = Collection::new(plan_of_grid(3, 2, true));
    ways(&mut all);
    units(&mut all);
    other_registers(&mut all);
    long_ways(&mut all);
    states.extend(all.states);
    states.extend(busy_on_long_links());
    states
}

/// A region at the end of a memory of 16,384 words: the address behind it has no place in a header.
fn end_of_memory() -> Vec<HandMadeBusy> {
    let mut plan = Plan { memory_words: 1 << 14, ..plan_of_grid(2, 2, false) };
    let last = plan.memory_words - 1;
    (plan.circuits[2].receive_offset, plan.circuits[2].receive_length) = (last - 1, 2);
    let mut all = Collection::new(plan);
    let path = all_shortest_paths(&all.plan, 1, 3)[0].clone();
    for station in stations_to(&Rc::clone(&all.plan), 3, &path) {
        all.add(station.name(), "last address of 14 bits", station.with(last), vec![2]);
        all.add(station.name(), "address 0", station.with(0), Vec::new());
    }
    all.add(UNITS, "next address is the last of 14 bits", arriving(3, 1, DATA, last), vec![2]);
    all.add(UNITS, "next address behind 14 bits", arriving(3, 1, DATA, last + 1), Vec::new());
    all.states
}

/// Every station of a way to each circuit's region, and its neighbours.
fn ways(all: &mut Collection) {
    let plan = Rc::clone(&all.plan);
    for (number, circuit) in plan.circuits.iter().enumerate() {
        let paths = all_shortest_paths(&plan, circuit.source, circuit.destination);
        let path = &paths[paths.len() - 1];
        for station in stations_to(&plan, circuit.destination, path) {
            addresses(all, number, &station);
            marks(all, number, &station);
            if station.place == Place::Head {
                choices(all, number, &station);
            }
        }
        other_codes(all, circuit, path);
        other_nodes(all, circuit, path);
    }
}

pub fn addresses(all: &mut Collection, number: usize, station: &Station) {
    let Circuit { destination, receive_offset, receive_length, .. } = all.plan.circuits[number];
    let behind = receive_offset + receive_length;
    all.add(station.name(), "first address", station.with(receive_offset), vec![number]);
    all.add(station.name(), "last address", station.with(behind - 1), vec![number]);
    all.add_arriving("address before the region", station, destination, receive_offset - 1);
    all.add_arriving("address behind the region", station, destination, behind);
    // The highest bits of an address count.
    all.add(station.name(), "address of 14 bits", station.with(receive_offset + (1 << 13)), Vec::new());
    all.add(station.name(), "interrupt", station.with_mark(HEADER, INTERRUPT, receive_offset), vec![number]);
}

/// Only a header says where it goes.
pub fn marks(all: &mut Collection, number: usize, station: &Station) {
    let offset = all.plan.circuits[number].receive_offset;
    for (mark, name) in [(EMPTY, "empty"), (PAYLOAD, "payload"), (LAST, "last payload")] {
        all.add(station.name(), name, station.with_mark(mark, DATA, offset), Vec::new());
    }
}

/// A header in a head register goes by its choice, whatever the latch says.
fn choices(all: &mut Collection, number: usize, station: &Station) {
    let offset = all.plan.circuits[number].receive_offset;
    let latch = |value: u32| (Row::Latch.of_port(station.node, station.port), value);
    let no_choice = Station { choice: 0, ..*station };
    all.add("head", "no choice", no_choice.with(offset), Vec::new());
    all.add(
        "head",
        "no choice, one is held",
        [no_choice.with(offset), vec![latch(station.choice)]].concat(),
        Vec::new(),
    );
    let other = station.choice % PORTS as u32 + 1;
    all.add("head", "choice, another is held", [station.with(offset), vec![latch(other)]].concat(), vec![number]);
}

/// The last code leads on instead of to the memory: south, and there the zeros lead to the memory, or north for ever.
fn other_codes(all: &mut Collection, circuit: &Circuit, path: &[u32]) {
    let plan = Rc::clone(&all.plan);
    let Circuit { source, destination, receive_offset, .. } = *circuit;
    for side in [NORTH, EAST, SOUTH, WEST].into_iter().filter(|&side| side != opposite(path[path.len() - 1])) {
        let outputs = [path, &[side]].concat();
        for station in stations(&plan, source, &outputs) {
            if side == SOUTH {
                let node = neighbour(&plan, destination, SOUTH);
                all.add_arriving("code that leads to another node", &station, node, receive_offset);
            } else {
                all.add(station.name(), "code that leads nowhere", station.with(receive_offset), Vec::new());
            }
        }
    }
}

/// The same codes from each other node.
fn other_nodes(all: &mut Collection, circuit: &Circuit, path: &[u32]) {
    let plan = Rc::clone(&all.plan);
    for source in (0..plan.nodes()).filter(|&node| node != circuit.source) {
        let node = path.iter().fold(source, |node, &side| neighbour(&plan, node, side));
        let outputs = [path, &[MEMORY as u32]].concat();
        // One station of each kind, at another router for each node.
        let all_stations = stations(&plan, source, &outputs);
        let router = source as usize % outputs.len();
        for station in &all_stations[3 * router..3 * router + 3] {
            all.add_arriving("from another node", station, node, circuit.receive_offset);
        }
    }
}

/// An arriving packet, by the address of its next word.
fn arriving(node: u32, mark: u32, kind: u32, address: u32) -> Pokes {
    let at = |row: Row| row.at(node as usize);
    vec![(at(Row::ReceiveMark), mark), (at(Row::ReceiveKind), kind), (at(Row::ReceiveAddress), address)]
}

fn units(all: &mut Collection) {
    let plan = Rc::clone(&all.plan);
    for (number, circuit) in plan.circuits.iter().enumerate() {
        let Circuit { destination, receive_offset, receive_length, .. } = *circuit;
        let last = receive_offset + receive_length - 1;
        for (name, address) in [
            ("next address before the region", receive_offset - 1),
            ("next address is the first", receive_offset),
            ("next address is the last", last),
            ("next address behind the region", last + 1),
        ] {
            let busy = receiver_at(&plan, destination, address);
            all.add(UNITS, name, arriving(destination, 1, DATA, address), busy.clone());
            all.add(UNITS, name, arriving(destination, 1, INTERRUPT, address), busy);
            all.add(UNITS, "idle", arriving(destination, 0, DATA, address), Vec::new());
        }
        for node in (0..plan.nodes()).filter(|&node| node != destination) {
            let busy = receiver_at(&plan, node, receive_offset);
            all.add(UNITS, "of another node", arriving(node, 1, DATA, receive_offset), busy);
        }
        // The address is a whole word.
        for address in [1 << 14, 1 << 16, 1 << 31].map(|high| high + receive_offset).into_iter().chain([LARGEST]) {
            all.add(UNITS, "next address is huge", arriving(destination, 1, DATA, address), Vec::new());
        }
        let last_word = vec![(Row::OutMark.of_port(destination as usize, MEMORY), LAST)];
        let lands_next = [arriving(destination, 1, DATA, last), last_word].concat();
        all.add(UNITS, "last word on the memory's wire", lands_next, vec![number]);
    }
}

/// A word that landed in the last cycle.
fn landed(node: u32, address: u32) -> Pokes {
    let at = |row: Row| row.at(node as usize);
    vec![(at(Row::LandingMark), 1), (at(Row::LandingAddress), address)]
}

/// What is no arriving packet, and what comes together.
fn other_registers(all: &mut Collection) {
    let plan = Rc::clone(&all.plan);
    all.add(OTHERS, "nothing moves", Vec::new(), Vec::new());
    for (number, circuit) in plan.circuits.iter().enumerate() {
        let Circuit { source, destination, receive_offset, receive_length, .. } = *circuit;
        let last = receive_offset + receive_length - 1;
        let behind_last = [landed(destination, last), arriving(destination, 0, DATA, last + 1)].concat();
        all.add(OTHERS, "last word has landed", behind_last, Vec::new());
        let in_midst =
            [landed(destination, receive_offset), arriving(destination, 0, DATA, receive_offset + 1)].concat();
        all.add(OTHERS, "last word has landed in the midst", in_midst.clone(), Vec::new());
        let path = &all_shortest_paths(&plan, source, destination)[0];
        let to_memory = stations_to(&plan, destination, path);
        for station in &to_memory {
            let second_packet = [in_midst.clone(), station.with(receive_offset + 1)].concat();
            all.add(OTHERS, "a packet has landed, another travels", second_packet, vec![number]);
        }
        let payload = vec![(Row::OutMark.of_port(destination as usize, MEMORY), PAYLOAD)];
        let no_packet = [payload, arriving(destination, 0, DATA, receive_offset)].concat();
        all.add(OTHERS, "payload without a packet", no_packet, Vec::new());
        let left = rest_in(&plan, number, 1, 0);
        all.add(OTHERS, "words left", left.clone(), vec![number]);
        all.add(
            OTHERS,
            "words left and travelling",
            [left.clone(), to_memory[0].with(receive_offset)].concat(),
            vec![number],
        );
        let other = &plan.circuits[(number + 1) % 3];
        let of_other = arriving(other.destination, 1, DATA, other.receive_offset);
        let mut both = vec![number, (number + 1) % 3];
        both.sort();
        all.add(OTHERS, "words left, another's travel", [left, of_other].concat(), both);
    }
    all.add(OTHERS, "all travel", [arriving(1, 1, DATA, 7), all_in_one_column(&plan)].concat(), vec![0, 1, 2]);
}

/// On both wires that lead to the last node's memory by its column, a header for each of its two regions.
fn all_in_one_column(plan: &Plan) -> Pokes {
    let last = plan.nodes() - 1;
    let [from_north, from_south] = [NORTH, SOUTH].map(|side| neighbour(plan, last, side) as usize);
    let station = |node, side, route| Station { place: Place::Out, node, port: side as usize, choice: 0, route };
    [station(from_north, SOUTH, NORTH).with(8), station(from_south, NORTH, SOUTH).with(9)].concat()
}

/// Registers of nodes that the sheet lacks, as a machine might have them that reads on: every header and every unit.
fn missing_nodes(all: &mut Collection) {
    let plan = Rc::clone(&all.plan);
    // Such as lead to a neighbour's memory, from where neighbours of these nodes would be.
    for route in [NORTH, SOUTH, EAST, WEST, SOUTH << 2, WEST << 2 | EAST, EAST << 2 | WEST] {
        for place in [Place::Link, Place::Head, Place::Out] {
            let mut pokes = Vec::new();
            for node in plan.nodes() as usize..MOST_NODES {
                for port in 0..PORTS {
                    let station = Station { place, node, port, choice: (port as u32 + route) % 5 + 1, route };
                    pokes.extend(station.with(FIRST));
                }
            }
            if !pokes.is_empty() {
                all.add(name_of(place), "at missing nodes", pokes, Vec::new());
            }
        }
    }
    let units: Pokes = (plan.nodes()..ROW_WORDS as u32).flat_map(|node| arriving(node, 1, DATA, FIRST)).collect();
    all.add(UNITS, "at missing nodes", units, Vec::new());
}

/// Headers that go north for ever, at every node: they pass by all of its column.
fn endless_ways(all: &mut Collection) {
    let plan = Rc::clone(&all.plan);
    let around = |side: u32| vec![side; 8];
    let steps = [EAST, SOUTH, EAST, SOUTH, EAST, SOUTH, EAST, EAST];
    for outputs in [around(NORTH), around(EAST), around(WEST), steps.to_vec(), vec![SOUTH, WEST], vec![EAST]] {
        for place in [Place::Link, Place::Head, Place::Out] {
            for router in [0, outputs.len() - 1] {
                let at_router = |source: u32| {
                    let mut all =
                        stations(&plan, source, &outputs).into_iter().filter(|station| station.place == place);
                    all.nth(router).expect("eight codes fit")
                };
                let headers: Vec<Station> = (0..plan.nodes()).map(at_router).collect();
                let pokes = headers.iter().flat_map(|station| station.with(FIRST)).collect();
                all.add(headers[0].name(), "route that never ends", pokes, Vec::new());
            }
        }
    }
}

/// Ways of up to nine sides: all eight codes are used, or the memory is reached by the zeros behind them.
fn long_ways(all: &mut Collection) {
    let plan = Rc::clone(&all.plan);
    let [n, e, s, w] = [NORTH, EAST, SOUTH, WEST];
    let paths: [(&'static str, &[u32]); 8] = [
        ("eight codes", &[e, n, e, n, e, n, e]),
        ("eight codes", &[n, n, w, w, n, n, w]),
        ("eight codes, then zeros", &[e, s, e, s, e, s, e, s]),
        ("eight codes, then zeros", &[s, s, s, s, s, s, s, s]),
        ("eight codes, then zeros", &[w, w, s, s, w, n, w, s]),
        ("eight codes taken off, then zeros", &[e, e, s, e, s, e, s, w, s]),
        ("eight codes taken off, then zeros", &[n, w, n, w, s, w, s, w, s]),
        ("zeros among the codes", &[n, n, n, e, n]),
    ];
    for (number, circuit) in plan.circuits.iter().enumerate() {
        for (name, path) in paths {
            let on_the_way = stations_to(&plan, circuit.destination, path);
            for station in &on_the_way[..6] {
                all.add(station.name(), name, station.with(circuit.receive_offset), vec![number]);
            }
            all.add_arriving("long way, behind the regions", &on_the_way[number], circuit.destination, 11);
        }
    }
}

/// Transfers on sheet A, one of four hops, and the cycles in which document 01 has their last words land.
pub fn hand_made_flights() -> Vec<HandMadeFlight> {
    let with_offset = |offset: u32| {
        let mut plan = sheet_a();
        plan.schedules[0].entries[0].offset = offset;
        plan
    };
    let flight = |name, plan, order, cycles, count, last_landing| HandMadeFlight {
        name,
        plan,
        order,
        cycles,
        count,
        last_landing,
    };
    let mut flights = vec![
        flight("sheet A, one word", sheet_a(), None, 0, 1, 7),
        flight("sheet A, two words", sheet_a(), None, 0, 2, 8),
        flight("sheet A, three words in two packets", sheet_a(), None, 0, 3, 16),
        flight("sheet A, four words in two packets", sheet_a(), None, 0, 4, 17),
        flight("sheet A, started a cycle late", sheet_a(), None, 1, 2, 17),
        flight("sheet A, over a period's end", with_offset(6), None, 0, 2, 14),
        flight("sheet A, two packets over periods' ends", with_offset(6), None, 3, 4, 23),
        flight("four hops over a period's end", four_hops(), None, 0, 1, 16),
        flight("four hops over a switch", four_hops(), Some((1, 3)), 22, 1, 38),
        flight("four hops, two packets over a switch", four_hops(), Some((1, 3)), 21, 2, 59),
    ];
    flights.extend(flights_on_long_links());
    flights
}

/// One circuit of four hops, with a slot of one word in the first cycle; the second schedule's begins in the tenth.
fn four_hops() -> Plan {
    let circuit = Circuit { source: 0, destination: 10, ..sheet_a().circuits[0] };
    let route = EAST | EAST << 2 | SOUTH << 4 | SOUTH << 6;
    landing_plan(vec![circuit], route, [(11, 0), (24, 10)], false)
}

/// Circuit 0 of a grid of 4 by 4 with a slot of one word in each of two schedules, stated as period and offset.
pub fn landing_plan(circuits: Vec<Circuit>, route: u32, schedules: [(u32, u32); 2], long_links: bool) -> Plan {
    let schedule = |(period, offset)| {
        let entry = Entry { offset, length: 2, circuit: 0, route };
        Schedule { period, entries: vec![entry] }
    };
    Plan { columns: 4, rows: 4, long_links, circuits, schedules: schedules.map(schedule).to_vec(), ..sheet_a() }
}
