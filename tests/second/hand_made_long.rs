//! States made by hand about long vertical links (L7): cells in extra registers that are there, and in the words of
//! their rows that take part in nothing, by soundness, in a cycle, and for starts; and transfers over long links whose
//! last landing is known. What is expected stands here, whatever the second machine says.

use super::hand_made::{hand_made_plan, Expected, HandMade, HandMadeCycle};
use super::hand_made_travelling::{
    addresses, landing_plan, marks, plan_of_grid, stations, stations_to, Collection, HandMadeBusy, HandMadeFlight,
    Station, FIRST,
};
use super::lent::{Clause, Row, CYCLE, ROW_WORDS};
use super::machine::{EMPTY, HEADER, LAST, MEMORY, MOST_NODES, PAYLOAD, PORTS, VERTICAL_SIDES};
use super::sheets::{
    all_shortest_paths, is_vertical, neighbour, opposite, route_of, sheet_a, Circuit, Entry, Plan, Schedule, EAST,
    NORTH, SOUTH, WEST,
};
use super::travelling::Place;
use std::rc::Rc;

type Pokes = Vec<(usize, u32)>;

const LARGEST: u32 = u32::MAX;
const OTHER_OUTPUTS: [usize; 3] = [1, 3, 4];

/// What is in a register: a mark and a word.
type MarkedWord = (u32, u32);

fn in_extra(node: usize, output: usize, (mark, word): MarkedWord) -> Pokes {
    vec![(Row::ExtraMark.of_port(node, output), mark), (Row::ExtraWord.of_port(node, output), word)]
}

fn on_output(node: usize, output: usize, (mark, word): MarkedWord) -> Pokes {
    vec![(Row::OutMark.of_port(node, output), mark), (Row::OutWord.of_port(node, output), word)]
}

fn in_link(node: usize, input: usize, (mark, word): MarkedWord) -> Pokes {
    vec![(Row::LinkMark.of_port(node, input), mark), (Row::LinkWord.of_port(node, input), word)]
}

/// The plan of the hand-made states on long links, which take a longer period.
pub fn hand_made_long_plan() -> Plan {
    let mut plan = Plan { long_links: true, ..hand_made_plan() };
    for (schedule, period) in plan.schedules.iter_mut().zip([12, 14]) {
        schedule.period = period;
    }
    plan
}

/// States of `hand_made_long_plan`.
pub fn states_on_long_links() -> Vec<HandMade> {
    let nodes = hand_made_long_plan().nodes() as usize;
    let mut states = Vec::new();
    for node in 0..nodes {
        for side in VERTICAL_SIDES {
            let mut add = |name, cell, expected| {
                states.push(HandMade { name, pokes: in_extra(node, side, cell), expected });
            };
            for mark in [EMPTY, HEADER, PAYLOAD, LAST] {
                add("mark in an extra register", (mark, 0), Expected::CarriedOut);
            }
            for mark in [4, 5, 256, LARGEST] {
                add("mark in an extra register", (mark, 0), Expected::Unsound(Clause::ExtraMark));
                add("mark in an extra register", (mark, 1 << 30), Expected::Unsound(Clause::ExtraMark));
            }
            for word in [0, 0x3FFF_FFFF, 2 << 30, 0xBFFF_FFFF] {
                add("kind of a header in an extra register", (HEADER, word), Expected::CarriedOut);
            }
            for word in [1 << 30, (1 << 30) + 13, 3 << 30, LARGEST] {
                add("kind of a header in an extra register", (HEADER, word), Expected::Unsound(Clause::ExtraKind));
                for mark in [EMPTY, PAYLOAD, LAST] {
                    add("word of no header in an extra register", (mark, word), Expected::CarriedOut);
                }
            }
        }
        for output in OTHER_OUTPUTS {
            add_free(&mut states, "extra register of another output", node, output);
        }
    }
    for node in nodes..MOST_NODES {
        for output in [0, 1, 2] {
            add_free(&mut states, "extra register of a missing node", node, output);
        }
    }
    let everywhere =
        (0..ROW_WORDS).filter(|&place| place >= PORTS * nodes || place % PORTS % 2 == 1 || place % PORTS == 4);
    let pokes = everywhere.flat_map(|place| [(Row::ExtraMark.at(place), LARGEST), (Row::ExtraWord.at(place), LARGEST)]);
    let name = "all words of the rows that are no register";
    states.push(HandMade { name, pokes: pokes.collect(), expected: Expected::CarriedOut });
    states
}

/// Values that no register would be sound with.
fn add_free(states: &mut Vec<HandMade>, name: &'static str, node: usize, output: usize) {
    for cell in [(HEADER, 1 << 30), (HEADER, 13), (PAYLOAD, LARGEST), (4, 0), (LARGEST, LARGEST)] {
        states.push(HandMade { name, pokes: in_extra(node, output, cell), expected: Expected::CarriedOut });
    }
}

/// States of `hand_made_plan`, on whose short links nothing of the two rows counts.
pub fn states_on_short_links() -> Vec<HandMade> {
    let mut states = Vec::new();
    for node in 0..hand_made_plan().nodes() as usize {
        for output in 0..PORTS {
            add_free(&mut states, "extra register on short links", node, output);
        }
    }
    let all = Row::ExtraMark.at(0)..Row::ExtraWord.at(ROW_WORDS);
    for value in [1, 2, 3, 4, LARGEST] {
        let pokes = all.clone().map(|place| (place, value)).collect();
        let name = "both rows filled on short links";
        states.push(HandMade { name, pokes, expected: Expected::CarriedOut });
    }
    states
}

/// A cycle on cells of outputs and extra registers, on links of either kind; no transfer was started.
pub fn cycles_on_links() -> Vec<HandMadeCycle> {
    let mut cycles = Vec::new();
    for (columns, rows) in [(2, 2), (3, 3), (2, 4)] {
        for long_links in [false, true] {
            let plan = Plan { columns, rows, long_links, ..sheet_a() };
            let nodes = plan.nodes() as usize;
            let mut add = |name, pokes: Pokes, after: Pokes| {
                let after = [vec![(Row::Clock.at(CYCLE), 1)], after].concat();
                cycles.push(HandMadeCycle { name, plan: plan.clone(), pokes, number: 0, after });
            };
            // Without a packet nothing but a header may come to a memory, so that output is left out.
            for node in [0, 1, nodes - 1] {
                for side in 0..4 {
                    let far = neighbour(&plan, node as u32, side) as usize;
                    let into = opposite(side) as usize;
                    let side = side as usize;
                    let is_long = long_links && is_vertical(side as u32);
                    for mark in [EMPTY, HEADER, PAYLOAD, LAST] {
                        let (first, second) = ((mark, 0x8003_0000 + node as u32), (PAYLOAD, 77));
                        let put = on_output(node, side, first);
                        let kept = in_extra(node, side, first);
                        let both = [on_output(node, side, second), kept.clone()].concat();
                        if is_long {
                            add("from an output into a long link", put, kept.clone());
                            add("out of a long link", kept, in_link(far, into, first));
                            let after = [in_link(far, into, first), in_extra(node, side, second)].concat();
                            add("one behind the other on a long link", both, after);
                        } else {
                            add("from an output over a short link", put, in_link(far, into, first));
                            add("a word beside a short link stays", kept.clone(), kept.clone());
                            let after = [in_link(far, into, second), kept].concat();
                            add("a word beside a short link stays, another passes", both, after);
                        }
                    }
                }
                let beside_memory = in_extra(node, MEMORY, (4, LARGEST));
                add("a word beside a memory output stays", beside_memory.clone(), beside_memory);
            }
            if nodes < MOST_NODES {
                let missing: Pokes = (PORTS * nodes..ROW_WORDS)
                    .flat_map(|place| [(Row::ExtraMark.at(place), 5), (Row::ExtraWord.at(place), LARGEST)])
                    .collect();
                add("words beside missing nodes stay", missing.clone(), missing);
            }
        }
    }
    cycles
}

/// The stations of a way that lie in extra registers, on whichever links.
fn extra_stations(plan: &Plan, source: u32, outputs: &[u32]) -> Vec<Station> {
    let on_outputs = stations(plan, source, outputs).into_iter().filter(|station| station.place == Place::Out);
    let vertical = on_outputs.filter(|station| VERTICAL_SIDES.contains(&station.port));
    vertical.map(|station| Station { place: Place::Extra, ..station }).collect()
}

/// The same to a node's memory by the sides of a path.
fn extra_stations_to(plan: &Plan, destination: u32, path: &[u32]) -> Vec<Station> {
    let source = path.iter().rev().fold(destination, |node, &side| neighbour(plan, node, opposite(side)));
    extra_stations(plan, source, &[path, &[MEMORY as u32]].concat())
}

/// Headers in extra registers, and which circuits they make busy.
pub fn busy_on_long_links() -> Vec<HandMadeBusy> {
    let mut states = Vec::new();
    for (columns, rows) in [(2, 2), (3, 3), (2, 4), (4, 4)] {
        let mut all = Collection::new(plan_of_grid(columns, rows, true));
        extras_on_ways(&mut all);
        extras_that_go_elsewhere(&mut all);
        extras_on_long_ways(&mut all);
        other_outputs(&mut all);
        missing_nodes(&mut all);
        states.extend(all.states);
        let mut all = Collection::new(plan_of_grid(columns, rows, false));
        on_short_links(&mut all);
        states.extend(all.states);
    }
    states
}

/// In every extra register of every way to each circuit's region, one header.
fn extras_on_ways(all: &mut Collection) {
    let plan = Rc::clone(&all.plan);
    for (number, circuit) in plan.circuits.iter().enumerate() {
        for path in all_shortest_paths(&plan, circuit.source, circuit.destination) {
            for station in extra_stations_to(&plan, circuit.destination, &path) {
                addresses(all, number, &station);
                marks(all, number, &station);
            }
        }
    }
}

/// The last code leads on, or the codes are those of another node.
fn extras_that_go_elsewhere(all: &mut Collection) {
    let plan = Rc::clone(&all.plan);
    for &Circuit { source, destination, receive_offset, .. } in &plan.circuits {
        let paths = all_shortest_paths(&plan, source, destination);
        let path = &paths[paths.len() - 1];
        for side in [NORTH, EAST, SOUTH, WEST].into_iter().filter(|&side| side != opposite(path[path.len() - 1])) {
            for station in extra_stations(&plan, source, &[&path[..], &[side]].concat()) {
                if side == SOUTH {
                    let node = neighbour(&plan, destination, SOUTH);
                    all.add_arriving("code that leads to another node", &station, node, receive_offset);
                } else {
                    all.add(station.name(), "code that leads nowhere", station.with(receive_offset), Vec::new());
                }
            }
        }
        for other in (0..plan.nodes()).filter(|&node| node != source) {
            let node = path.iter().fold(other, |node, &side| neighbour(&plan, node, side));
            for station in extra_stations(&plan, other, &[&path[..], &[MEMORY as u32]].concat()) {
                all.add_arriving("from another node", &station, node, receive_offset);
            }
        }
    }
    // North for ever, from every node at once.
    let around = vec![NORTH; 8];
    let headers = (0..plan.nodes()).flat_map(|node| extra_stations(&plan, node, &around)[0].with(FIRST)).collect();
    all.add("extra", "route that never ends", headers, Vec::new());
}

/// All eight codes are used, or the memory is reached by the zeros behind them.
fn extras_on_long_ways(all: &mut Collection) {
    let plan = Rc::clone(&all.plan);
    let [n, e, s, w] = [NORTH, EAST, SOUTH, WEST];
    let paths: [(&'static str, &[u32]); 4] = [
        ("eight codes", &[n, e, n, e, n, e, n, e]),
        ("eight codes", &[s, w, s, w, s, w, s, w]),
        ("eight codes, then zeros", &[s, s, s, s, s, s, s, s, s]),
        ("eight codes, then zeros", &[n, w, n, w, s, w, s, w, s]),
    ];
    for (number, circuit) in plan.circuits.iter().enumerate() {
        for (name, path) in paths {
            let on_the_way = extra_stations_to(&plan, circuit.destination, path);
            all.add("extra", name, on_the_way[0].with(circuit.receive_offset), vec![number]);
        }
    }
}

/// A header that would come to a region if the outputs by east, west and to the memory had extra registers.
fn other_outputs(all: &mut Collection) {
    let plan = Rc::clone(&all.plan);
    for &Circuit { destination, receive_offset, .. } in &plan.circuits {
        for path in [[EAST], [WEST], [NORTH], [SOUTH]] {
            for station in stations_to(&plan, destination, &path) {
                if station.place == Place::Out && OTHER_OUTPUTS.contains(&station.port) {
                    let beside = Station { place: Place::Extra, ..station };
                    all.add("extra", "of another output", beside.with(receive_offset), Vec::new());
                }
            }
        }
    }
}

/// Every word of the rows behind the last node.
fn missing_nodes(all: &mut Collection) {
    let nodes = all.plan.nodes() as usize;
    if nodes == MOST_NODES {
        return;
    }
    for route in [NORTH, SOUTH, EAST, WEST, 0] {
        let headers = (nodes..MOST_NODES).flat_map(|node| {
            (0..PORTS).flat_map(move |port| {
                let station = Station { place: Place::Extra, node, port, choice: 0, route };
                station.with(FIRST)
            })
        });
        all.add("extra", "at missing nodes", headers.collect(), Vec::new());
    }
}

/// The headers that would make a circuit busy on long links.
fn on_short_links(all: &mut Collection) {
    let plan = Rc::clone(&all.plan);
    for circuit in &plan.circuits {
        for path in all_shortest_paths(&plan, circuit.source, circuit.destination) {
            for station in extra_stations_to(&plan, circuit.destination, &path) {
                all.add("extra", "on short links", station.with(circuit.receive_offset), Vec::new());
            }
        }
    }
}

/// Transfers over long links, and the cycles in which their last words land.
pub fn flights_on_long_links() -> Vec<HandMadeFlight> {
    let sheet_a_on_long = Plan { long_links: true, ..sheet_a() };
    let south = |offset: u32| {
        let circuits = vec![Circuit { destination: 2, ..sheet_a().circuits[0] }];
        let entry = Entry { offset, length: 3, circuit: 0, route: route_of(&[SOUTH]) };
        let schedules = vec![Schedule { period: 9, entries: vec![entry] }];
        Plan { circuits, schedules, ..sheet_a_on_long.clone() }
    };
    let rows_of_four = |path: &[u32], offset: u32, later: u32| {
        let destination =
            path.iter().fold(0, |node, &side| neighbour(&Plan { columns: 4, rows: 4, ..sheet_a() }, node, side));
        let circuits = vec![Circuit { destination, ..sheet_a().circuits[0] }];
        landing_plan(circuits, route_of(path), [(14, offset), (24, later)], true)
    };
    let flight = |name, plan, order, cycles, count, last_landing| HandMadeFlight {
        name,
        plan,
        order,
        cycles,
        count,
        last_landing,
    };
    let (north_north, south_south) = ([NORTH, NORTH], [SOUTH, SOUTH]);
    let far = [EAST, SOUTH, EAST, SOUTH];
    vec![
        flight("long links, sheet A, one word", sheet_a_on_long.clone(), None, 0, 1, 7),
        flight("long links, sheet A, three words in two packets", sheet_a_on_long.clone(), None, 0, 3, 16),
        flight("long links, one hop south, one word", south(0), None, 0, 1, 8),
        flight("long links, one hop south, two words", south(0), None, 0, 2, 9),
        flight("long links, one hop south, up to P + 5", south(5), None, 0, 2, 14),
        flight("long links, one hop south, two packets", south(5), None, 0, 4, 23),
        flight("long links, two hops north", rows_of_four(&north_north, 0, 0), None, 0, 1, 12),
        flight("long links, two hops south", rows_of_four(&south_south, 0, 0), None, 0, 1, 12),
        flight("long links, two hops north, two packets", rows_of_four(&north_north, 0, 0), None, 0, 2, 26),
        flight("long links, four hops", rows_of_four(&far, 0, 0), None, 0, 1, 18),
        // Left in cycle 8 of period 2, landed in cycle 5 of the next schedule's first period.
        flight(
            "long links, up to P + 5 over a switch, north",
            rows_of_four(&north_north, 7, 0),
            Some((1, 3)),
            29,
            1,
            47,
        ),
        flight(
            "long links, up to P + 5 over a switch, south",
            rows_of_four(&south_south, 7, 0),
            Some((1, 3)),
            29,
            1,
            47,
        ),
        flight("long links, two packets over a switch", rows_of_four(&south_south, 7, 0), Some((1, 3)), 29, 2, 54),
    ]
}
