//! Sheets for the tests and the measurement, always the same ones: the examples of
//! document 01 and sheets that pass, from the empty to the largest. They pass by the
//! way they are built, not because a checker said so.

/// A small generator of numbers (a counter put through a mixing function).
pub struct Random {
    state: u64,
}

impl Random {
    pub fn new(seed: u64) -> Random {
        Random { state: seed }
    }

    pub fn next(&mut self) -> u64 {
        self.state = self.state.wrapping_add(0x9E37_79B9_7F4A_7C15);
        let mut mixed = self.state;
        mixed = (mixed ^ (mixed >> 30)).wrapping_mul(0xBF58_476D_1CE4_E5B9);
        mixed = (mixed ^ (mixed >> 27)).wrapping_mul(0x94D0_49BB_1331_11EB);
        mixed ^ (mixed >> 31)
    }

    pub fn word(&mut self) -> u32 {
        (self.next() >> 32) as u32
    }

    /// A number from `low` to `high`, both included.
    pub fn between(&mut self, low: u32, high: u32) -> u32 {
        assert!(low <= high);
        let choices = u64::from(high) - u64::from(low) + 1;
        low + (self.next() % choices) as u32
    }

    pub fn position(&mut self, count: usize) -> usize {
        (self.next() % count as u64) as usize
    }

    pub fn once_in(&mut self, times: u32) -> bool {
        self.between(1, times) == 1
    }

    pub fn choose<T: Copy>(&mut self, list: &[T]) -> T {
        list[self.position(list.len())]
    }
}

#[derive(Clone, Copy)]
pub struct Circuit {
    pub source: u32,
    pub destination: u32,
    pub read_offset: u32,
    pub read_length: u32,
    pub receive_offset: u32,
    pub receive_length: u32,
}

#[derive(Clone, Copy)]
pub struct Entry {
    pub offset: u32,
    pub length: u32,
    pub circuit: u32,
    pub route: u32,
}

#[derive(Clone)]
pub struct Schedule {
    pub period: u32,
    pub entries: Vec<Entry>,
}

/// The routers of a sheet.
#[derive(Clone, Copy, Debug, PartialEq, Eq)]
pub struct Grid {
    pub columns: u32,
    pub rows: u32,
    pub long_links: bool,
}

/// A sheet before it is written out as words.
#[derive(Clone)]
pub struct Plan {
    pub columns: u32,
    pub rows: u32,
    /// Whether a vertical hop takes a cycle more (document 02, L7).
    pub long_links: bool,
    pub memory_words: u32,
    pub circuits: Vec<Circuit>,
    pub schedules: Vec<Schedule>,
}

/// A sheet to be judged. `expected` is its number where the way it is made settles that.
pub struct Case {
    pub name: &'static str,
    pub words: Vec<u32>,
    pub expected: Option<u32>,
}

impl Plan {
    pub fn nodes(&self) -> u32 {
        self.columns * self.rows
    }

    pub fn words(&self) -> Vec<u32> {
        // Rows that are out of range may wrap; they stay out of range.
        let rows = if self.long_links { self.rows.wrapping_add(256) } else { self.rows };
        let mut words =
            vec![self.columns, rows, self.memory_words, self.circuits.len() as u32, self.schedules.len() as u32];
        for circuit in &self.circuits {
            words.extend([
                circuit.source,
                circuit.destination,
                circuit.read_offset,
                circuit.read_length,
                circuit.receive_offset,
                circuit.receive_length,
            ]);
        }
        for schedule in &self.schedules {
            words.extend([schedule.period, schedule.entries.len() as u32]);
            for entry in &schedule.entries {
                words.extend([entry.offset, entry.length, entry.circuit, entry.route]);
            }
        }
        words
    }

    pub fn case(&self, name: &'static str, expected: u32) -> Case {
        Case { name, words: self.words(), expected: Some(expected) }
    }

    /// Whether a region of a node shares a word with a receive region there.
    pub fn meets_receive(&self, node: u32, offset: u32, length: u32) -> bool {
        self.circuits.iter().any(|circuit| {
            circuit.destination == node
                && circuit.receive_offset < offset + length
                && offset < circuit.receive_offset + circuit.receive_length
        })
    }

    /// Whether a region of a node shares a word with a read region there.
    pub fn meets_read(&self, node: u32, offset: u32, length: u32) -> bool {
        self.circuits.iter().any(|circuit| {
            circuit.source == node
                && circuit.read_offset < offset + length
                && offset < circuit.read_offset + circuit.read_length
        })
    }

    pub fn sort_circuits(&mut self) {
        self.circuits.sort_by_key(|circuit| (circuit.destination, circuit.receive_offset));
    }

    /// The circuits that have no entry in any schedule (document 02, L8).
    pub fn unserved(&self) -> Vec<usize> {
        let serves = |schedule: &Schedule, circuit: usize| {
            schedule.entries.iter().any(|entry| entry.circuit as usize == circuit)
        };
        (0..self.circuits.len())
            .filter(|&circuit| !self.schedules.iter().any(|schedule| serves(schedule, circuit)))
            .collect()
    }

    /// Drops the circuits that have no entry; later ones move up, in the entries too.
    pub fn drop_unserved(&mut self) {
        for circuit in self.unserved().into_iter().rev() {
            self.circuits.remove(circuit);
            for entry in self.schedules.iter_mut().flat_map(|schedule| &mut schedule.entries) {
                if entry.circuit as usize > circuit {
                    entry.circuit -= 1;
                }
            }
        }
    }

    /// Drops every entry of a circuit.
    pub fn unserve(&mut self, circuit: usize) {
        for schedule in &mut self.schedules {
            schedule.entries.retain(|entry| entry.circuit as usize != circuit);
        }
    }

    /// Gives a circuit a slot of two words, which begins once all other slots of the schedule have
    /// left the network. The period grows where it has to; 1,024 cycles hold 60 such slots.
    pub fn add_slot(&mut self, schedule: usize, circuit: usize) {
        let Circuit { source, destination, .. } = self.circuits[circuit];
        let route = route_of(&all_shortest_paths(self, source, destination)[0]);
        let entries = &self.schedules[schedule].entries;
        let offset = entries.iter().map(|entry| self.reach(entry) + 4).max().unwrap_or(0);
        let entry = Entry { offset, length: 2, circuit: circuit as u32, route };
        let needed = self.reach(&entry) - 2;
        let schedule = &mut self.schedules[schedule];
        schedule.period = schedule.period.max(needed);
        schedule.entries.push(entry);
    }

    pub fn hops(&self, entry: &Entry) -> u32 {
        let circuit = &self.circuits[entry.circuit as usize];
        let (columns, rows) = shortest_runs(self, circuit.source, circuit.destination);
        columns[0].1 + rows[0].1
    }

    /// The cycles that the hops of a right route take.
    pub fn delay(&self, entry: &Entry) -> u32 {
        self.delay_of(&path_of(self, entry))
    }

    /// Three a hop, and one more a vertical hop where vertical links are long.
    pub fn delay_of(&self, path: &[u32]) -> u32 {
        path.iter().map(|&side| if self.long_links && is_vertical(side) { 4 } else { 3 }).sum()
    }

    /// Offset + length − 1 and the cycles of the hops, which number 10 bounds.
    pub fn reach(&self, entry: &Entry) -> u32 {
        entry.offset + entry.length - 1 + self.delay(entry)
    }
}

impl Schedule {
    pub fn sort_entries(&mut self) {
        self.entries.sort_by_key(|entry| (entry.offset, entry.circuit));
    }
}

pub const NORTH: u32 = 0;
pub const EAST: u32 = 1;
pub const SOUTH: u32 = 2;
pub const WEST: u32 = 3;

pub fn is_vertical(side: u32) -> bool {
    side == NORTH || side == SOUTH
}

pub fn opposite(side: u32) -> u32 {
    (side + 2) % 4
}

pub fn neighbour(plan: &Plan, node: u32, side: u32) -> u32 {
    let column = node % plan.columns;
    let row = node / plan.columns;
    match side {
        NORTH => (row + plan.rows - 1) % plan.rows * plan.columns + column,
        EAST => row * plan.columns + (column + 1) % plan.columns,
        SOUTH => (row + 1) % plan.rows * plan.columns + column,
        _ => row * plan.columns + (column + plan.columns - 1) % plan.columns,
    }
}

/// The ways round one ring that are as short as can be: side and number of steps. Half
/// way round an even ring there are two.
fn runs_in_ring(forward: u32, ring: u32, forward_side: u32, backward_side: u32) -> Vec<(u32, u32)> {
    let backward = (ring - forward) % ring;
    if forward == backward && forward > 0 {
        vec![(forward_side, forward), (backward_side, backward)]
    } else if forward < backward || forward == 0 {
        vec![(forward_side, forward)]
    } else {
        vec![(backward_side, backward)]
    }
}

type Runs = Vec<(u32, u32)>;

pub fn shortest_runs(plan: &Plan, source: u32, destination: u32) -> (Runs, Runs) {
    let column_steps = (destination % plan.columns + plan.columns - source % plan.columns) % plan.columns;
    let row_steps = (destination / plan.columns + plan.rows - source / plan.columns) % plan.rows;
    (runs_in_ring(column_steps, plan.columns, EAST, WEST), runs_in_ring(row_steps, plan.rows, SOUTH, NORTH))
}

/// One shortest path, as the sides to leave by, any of them possible.
pub fn shortest_path(random: &mut Random, plan: &Plan, source: u32, destination: u32) -> Vec<u32> {
    let (column_runs, row_runs) = shortest_runs(plan, source, destination);
    let (column_side, mut column_steps) = random.choose(&column_runs);
    let (row_side, mut row_steps) = random.choose(&row_runs);
    let mut path = Vec::new();
    while column_steps + row_steps > 0 {
        if random.between(1, column_steps + row_steps) <= column_steps {
            path.push(column_side);
            column_steps -= 1;
        } else {
            path.push(row_side);
            row_steps -= 1;
        }
    }
    path
}

/// Every shortest path.
pub fn all_shortest_paths(plan: &Plan, source: u32, destination: u32) -> Vec<Vec<u32>> {
    let (column_runs, row_runs) = shortest_runs(plan, source, destination);
    let mut paths = Vec::new();
    for &column_run in &column_runs {
        for &row_run in &row_runs {
            add_mixtures(&mut paths, Vec::new(), column_run, row_run);
        }
    }
    paths
}

/// All orders in which the steps of two runs can be taken.
fn add_mixtures(paths: &mut Vec<Vec<u32>>, taken: Vec<u32>, first: (u32, u32), second: (u32, u32)) {
    if first.1 + second.1 == 0 {
        paths.push(taken);
        return;
    }
    if first.1 > 0 {
        let longer = [taken.clone(), vec![first.0]].concat();
        add_mixtures(paths, longer, (first.0, first.1 - 1), second);
    }
    if second.1 > 0 {
        let longer = [taken, vec![second.0]].concat();
        add_mixtures(paths, longer, first, (second.0, second.1 - 1));
    }
}

/// The route of a path: its sides, lowest first, then the code of the side the packet
/// came in by at the last router.
pub fn route_of(path: &[u32]) -> u32 {
    let mut route = 0;
    for (position, &side) in path.iter().enumerate() {
        route |= side << (2 * position);
    }
    route | opposite(path[path.len() - 1]) << (2 * path.len())
}

/// The kinds of wire: a node has one from its source, four to its sides, one to memory.
#[derive(Clone, Copy, PartialEq, Eq)]
pub enum WireKind {
    Source,
    Side,
    Memory,
}

/// A wire as a number (six a node), its kind, its place along the path (side outputs from
/// 1), and the cycle in which the header is there.
#[derive(Clone, Copy)]
pub struct Use {
    pub wire: usize,
    pub kind: WireKind,
    pub place: u32,
    pub cycle: u32,
}

pub fn uses(plan: &Plan, source: u32, path: &[u32], offset: u32) -> Vec<Use> {
    let at = |node: u32, output: u32, kind: WireKind, place: usize, cycle: u32| Use {
        wire: (6 * node + output) as usize,
        kind,
        place: place as u32,
        cycle,
    };
    let mut list = vec![at(source, 4, WireKind::Source, 0, offset)];
    let mut node = source;
    let mut cycle = offset + 3;
    for (position, &side) in path.iter().enumerate() {
        list.push(at(node, side, WireKind::Side, position + 1, cycle));
        node = neighbour(plan, node, side);
        // A long link is behind its side output.
        cycle += plan.delay_of(&[side]);
    }
    list.push(at(node, 5, WireKind::Memory, path.len() + 1, cycle));
    list
}

/// The wires of an entry with a right route.
fn uses_of(plan: &Plan, entry: &Entry) -> Vec<Use> {
    let source = plan.circuits[entry.circuit as usize].source;
    uses(plan, source, &path_of(plan, entry), entry.offset)
}

/// The path of a right route.
pub fn path_of(plan: &Plan, entry: &Entry) -> Vec<u32> {
    (0..plan.hops(entry)).map(|position| entry.route >> (2 * position) & 3).collect()
}

/// No wire is used later than this in a period of 1,024 cycles.
const CYCLES: usize = 1_040;

/// Which wires are in use in which cycles of one schedule.
pub struct Occupied {
    cells: Vec<bool>,
}

impl Occupied {
    pub fn new(plan: &Plan) -> Occupied {
        Occupied { cells: vec![false; plan.nodes() as usize * 6 * CYCLES] }
    }

    pub fn of(plan: &Plan, schedule: &Schedule) -> Occupied {
        let mut occupied = Occupied::new(plan);
        for entry in &schedule.entries {
            occupied.mark(&uses_of(plan, entry), entry.length);
        }
        occupied
    }

    /// Takes an entry's slot where all of it is free; whether it was.
    pub fn take_entry(&mut self, plan: &Plan, entry: &Entry) -> bool {
        self.take(&uses_of(plan, entry), entry.length)
    }

    fn mark(&mut self, list: &[Use], length: u32) {
        for used in list {
            let start = used.wire * CYCLES + used.cycle as usize;
            self.cells[start..start + length as usize].fill(true);
        }
    }

    /// Takes a slot where all of it is free; whether it was.
    fn take(&mut self, list: &[Use], length: u32) -> bool {
        let free = list.iter().all(|used| {
            let start = used.wire * CYCLES + used.cycle as usize;
            !self.cells[start..start + length as usize].contains(&true)
        });
        if free {
            self.mark(list, length);
        }
        free
    }

    /// The use and the cycle of every clash with what is there already.
    pub fn clashes(&self, list: &[Use], length: u32) -> Vec<(Use, u32)> {
        let mut found = Vec::new();
        for used in list {
            for cycle in used.cycle..used.cycle + length {
                if self.cells[used.wire * CYCLES + cycle as usize] {
                    found.push((*used, cycle));
                }
            }
        }
        found
    }
}

/// What a sheet that passes should be like; the numbers are aims, not promises.
#[derive(Clone, Copy)]
pub struct Wish {
    pub columns: u32,
    pub rows: u32,
    pub long_links: bool,
    pub memory_words: u32,
    pub circuits: u32,
    pub longest_region: u32,
    pub schedules: u32,
    pub period: Option<u32>,
    pub entries: u32,
    pub length: Option<u32>,
}

/// A region within memory: random, at either end, or touching another one.
fn some_region(random: &mut Random, memory_words: u32, longest: u32, others: &[(u32, u32)]) -> (u32, u32) {
    let length = random.between(1, longest.min(memory_words));
    let last_offset = memory_words - length;
    let offset = match random.between(0, 5) {
        0 => 0,
        1 => last_offset,
        2 | 3 if !others.is_empty() => {
            let (offset, other_length) = random.choose(others);
            if random.once_in(2) {
                (offset + other_length).min(last_offset)
            } else {
                offset.saturating_sub(length)
            }
        }
        _ => random.between(0, last_offset),
    };
    (offset, length)
}

fn add_circuits(random: &mut Random, plan: &mut Plan, wish: &Wish) {
    let nodes = plan.nodes();
    for _ in 0..8 * wish.circuits {
        if plan.circuits.len() as u32 == wish.circuits {
            break;
        }
        let source = random.between(0, nodes - 1);
        let destination = (source + random.between(1, nodes - 1)) % nodes;
        let regions_at = |node: u32| -> Vec<(u32, u32)> {
            let mut list = Vec::new();
            for circuit in &plan.circuits {
                if circuit.source == node {
                    list.push((circuit.read_offset, circuit.read_length));
                }
                if circuit.destination == node {
                    list.push((circuit.receive_offset, circuit.receive_length));
                }
            }
            list
        };
        let (read_offset, read_length) =
            some_region(random, plan.memory_words, wish.longest_region, &regions_at(source));
        let (receive_offset, receive_length) =
            some_region(random, plan.memory_words, wish.longest_region, &regions_at(destination));
        if plan.meets_receive(source, read_offset, read_length)
            || plan.meets_receive(destination, receive_offset, receive_length)
            || plan.meets_read(destination, receive_offset, receive_length)
        {
            continue;
        }
        plan.circuits.push(Circuit { source, destination, read_offset, read_length, receive_offset, receive_length });
    }
    plan.sort_circuits();
}

/// The last offset that number 10 allows where the hops take so many cycles, if there is one.
pub fn last_offset(period: u32, length: u32, delay: u32) -> Option<u32> {
    (period + 2).checked_sub(length - 1 + delay)
}

pub fn some_schedule(random: &mut Random, plan: &Plan, period: u32, aim: u32, length: Option<u32>) -> Schedule {
    let mut schedule = Schedule { period, entries: Vec::new() };
    if plan.circuits.is_empty() {
        return schedule;
    }
    let mut occupied = Occupied::new(plan);
    // The last entries of a full schedule need many attempts.
    for _ in 0..8 * aim + if aim > 200 { 40_000 } else { 0 } {
        if schedule.entries.len() as u32 == aim {
            break;
        }
        let circuit = random.position(plan.circuits.len());
        let Circuit { source, destination, .. } = plan.circuits[circuit];
        let path = shortest_path(random, plan, source, destination);
        let length = length.unwrap_or_else(|| match random.between(0, 4) {
            0 => 2,
            1 => 16,
            2 => 3,
            _ => random.between(2, 16),
        });
        let Some(last) = last_offset(period, length, plan.delay_of(&path)) else {
            continue;
        };
        let offset = match random.between(0, 7) {
            0 => 0,
            1 => last,
            // Directly behind or before another slot.
            2 | 3 if !schedule.entries.is_empty() => {
                let other = random.choose(&schedule.entries);
                if random.once_in(2) {
                    (other.offset + other.length).min(last)
                } else {
                    other.offset.saturating_sub(length).min(last)
                }
            }
            _ => random.between(0, last),
        };
        if occupied.take(&uses(plan, source, &path, offset), length) {
            schedule.entries.push(Entry { offset, length, circuit: circuit as u32, route: route_of(&path) });
        }
    }
    schedule.sort_entries();
    schedule
}

pub fn some_period(random: &mut Random) -> u32 {
    match random.between(0, 7) {
        0 => 9,
        1 => 1_024,
        2 => random.between(9, 16),
        3 => 1_023,
        _ => random.between(17, 400),
    }
}

/// Gives circuits without an entry a slot of two words, where a place for it is soon found. Schedules
/// without entries stay so.
pub fn serve_unserved(random: &mut Random, plan: &mut Plan) {
    let unserved = plan.unserved();
    let in_use = |&schedule: &usize| !plan.schedules[schedule].entries.is_empty();
    let schedules: Vec<usize> = (0..plan.schedules.len()).filter(in_use).collect();
    if unserved.is_empty() || schedules.is_empty() {
        return;
    }
    let length = 2;
    let mut occupied: Vec<Occupied> = plan.schedules.iter().map(|schedule| Occupied::of(plan, schedule)).collect();
    for circuit in unserved {
        let Circuit { source, destination, .. } = plan.circuits[circuit];
        for _ in 0..40 {
            let schedule = random.choose(&schedules);
            let path = shortest_path(random, plan, source, destination);
            let Schedule { period, entries } = &plan.schedules[schedule];
            let Some(last) = last_offset(*period, length, plan.delay_of(&path)).filter(|_| entries.len() < 256) else {
                continue;
            };
            let offset = random.between(0, last);
            if occupied[schedule].take(&uses(plan, source, &path, offset), length) {
                let entry = Entry { offset, length, circuit: circuit as u32, route: route_of(&path) };
                plan.schedules[schedule].entries.push(entry);
                break;
            }
        }
    }
    plan.schedules.iter_mut().for_each(Schedule::sort_entries);
}

/// A sheet that passes 1 to 11; circuits may be without an entry.
pub fn wished_plan(random: &mut Random, wish: &Wish) -> Plan {
    let mut plan = Plan {
        columns: wish.columns,
        rows: wish.rows,
        long_links: wish.long_links,
        memory_words: wish.memory_words,
        circuits: Vec::new(),
        schedules: Vec::new(),
    };
    add_circuits(random, &mut plan, wish);
    for _ in 0..wish.schedules {
        let period = wish.period.unwrap_or_else(|| some_period(random));
        let schedule = some_schedule(random, &plan, period, wish.entries, wish.length);
        plan.schedules.push(schedule);
    }
    plan
}

/// The same without the circuits that have no entry.
pub fn passing_plan(random: &mut Random, wish: &Wish) -> Plan {
    let mut plan = wished_plan(random, wish);
    plan.drop_unserved();
    plan
}

/// Sheets that pass, of one grid: empty ones, small and crowded ones, memories of 1 to
/// 16,384 words.
fn passing_plans_of_grid(random: &mut Random, columns: u32, rows: u32) -> Vec<Plan> {
    let mut plans = Vec::new();
    for schedules in [1, 2, 8] {
        for period in [9, 1_024] {
            let wish = Wish {
                columns,
                rows,
                long_links: false,
                memory_words: random.choose(&[1, 2, 16_384]),
                circuits: 0,
                longest_region: 1,
                schedules,
                period: Some(period),
                entries: 0,
                length: None,
            };
            plans.push(passing_plan(random, &wish));
        }
    }
    for turn in 0..120 {
        let memory_words = match turn % 6 {
            0 => random.choose(&[1, 2, 3]),
            1 => random.between(4, 40),
            2 => random.between(41, 1_000),
            3 => random.between(1_001, 16_384),
            4 => 16_383,
            _ => 16_384,
        };
        let circuits = match turn % 5 {
            0 => random.between(1, 3),
            1 => 64,
            _ => random.between(2, 24),
        };
        let longest_region = match random.between(0, 2) {
            0 => 1,
            1 => memory_words.div_ceil(8),
            _ => memory_words.div_ceil(24),
        };
        let entries = match turn % 8 {
            0 => 0,
            1 => 1,
            2 => random.between(30, 80),
            _ => random.between(2, 24),
        };
        let wish = Wish {
            columns,
            rows,
            long_links: false,
            memory_words,
            circuits,
            longest_region,
            schedules: random.choose(&[1, 1, 2, 3, 8]),
            period: None,
            entries,
            length: random.choose(&[None, None, None, Some(2), Some(16)]),
        };
        let mut plan = wished_plan(random, &wish);
        // One schedule with entries, or no circuit would be left.
        if entries == 0 {
            let chosen = random.position(plan.schedules.len());
            plan.schedules[chosen] = some_schedule(random, &plan, plan.schedules[chosen].period, 12, wish.length);
        }
        if turn % 2 == 1 {
            serve_unserved(random, &mut plan);
        }
        plan.drop_unserved();
        plans.push(plan);
    }
    plans
}

pub fn passing_plans() -> Vec<Plan> {
    let mut plans = Vec::new();
    for columns in 2..=4 {
        for rows in 2..=4 {
            let mut random = Random::new(u64::from(1_000 + 10 * columns + rows));
            plans.extend(passing_plans_of_grid(&mut random, columns, rows));
        }
    }
    plans
}

/// 64 circuits in memories of sixteen words, and schedules without entries.
pub fn sixty_four_circuits(schedules: usize) -> Plan {
    let circuit = |number: u32| {
        let (destination, turn) = (number / 4, number % 4);
        Circuit {
            source: (destination + 4 * turn + 1) % 16,
            destination,
            read_offset: 8,
            read_length: 8,
            receive_offset: 2 * turn,
            receive_length: 2,
        }
    };
    Plan {
        columns: 4,
        rows: 4,
        long_links: false,
        memory_words: 16,
        circuits: (0..64).map(circuit).collect(),
        schedules: vec![Schedule { period: 9, entries: Vec::new() }; schedules],
    }
}

/// The largest sheet: 64 circuits, eight schedules of 256 entries, period 1,024. Every
/// circuit goes to the node two columns and two rows away, so that every slot has four
/// hops, and every slot has sixteen words.
pub fn largest(seed: u64) -> Plan {
    largest_on(seed, false)
}

/// The same on links of either kind.
pub fn largest_on(seed: u64, long_links: bool) -> Plan {
    let mut random = Random::new(seed);
    let region = 2_048;
    let mut plan = Plan {
        columns: 4,
        rows: 4,
        long_links,
        memory_words: 8 * region,
        circuits: Vec::new(),
        schedules: Vec::new(),
    };
    for destination in 0..16 {
        let source = (destination / 4 + 2) % 4 * 4 + (destination % 4 + 2) % 4;
        for number in 0..4 {
            plan.circuits.push(Circuit {
                source,
                destination,
                read_offset: (4 + number) * region,
                read_length: region,
                receive_offset: number * region,
                receive_length: region,
            });
        }
    }
    for _ in 0..8 {
        plan.schedules.push(full_schedule(&mut random, &plan));
    }
    plan
}

/// Four slots of sixteen words for each of 64 circuits.
fn full_schedule(random: &mut Random, plan: &Plan) -> Schedule {
    let (period, length) = (1_024, 16);
    let mut schedule = Schedule { period, entries: Vec::new() };
    let mut occupied = Occupied::new(plan);
    while schedule.entries.len() < 256 {
        // Every source in turn, and each of its four circuits in turn.
        let turn = schedule.entries.len();
        let circuit = turn % 16 * 4 + turn / 16 % 4;
        let Circuit { source, destination, .. } = plan.circuits[circuit];
        let path = shortest_path(random, plan, source, destination);
        let last = last_offset(period, length, plan.delay_of(&path)).expect("a period of 1,024");
        // The first slots lie at the limits.
        let offset = match schedule.entries.len() {
            0..=7 => random.choose(&[0, last]),
            _ => random.between(0, last),
        };
        if occupied.take(&uses(plan, source, &path, offset), length) {
            let route = route_of(&path);
            schedule.entries.push(Entry { offset, length, circuit: circuit as u32, route });
        }
    }
    schedule.sort_entries();
    schedule
}

/// As large as the largest sheet, with slots and routes of every length.
pub fn largest_mixed(seed: u64) -> Plan {
    let mut random = Random::new(seed);
    loop {
        let wish = Wish {
            columns: 4,
            rows: 4,
            long_links: false,
            memory_words: 16_384,
            circuits: 64,
            longest_region: 400,
            schedules: 8,
            period: Some(1_024),
            entries: 256,
            length: None,
        };
        let plan = passing_plan(&mut random, &wish);
        if plan.words().len() == 8_597 {
            return plan;
        }
    }
}

/// A middle sheet: sixteen nodes, 30 circuits, three schedules of 40 entries.
pub fn middle(seed: u64) -> Plan {
    let mut random = Random::new(seed);
    loop {
        let wish = Wish {
            columns: 4,
            rows: 4,
            long_links: false,
            memory_words: 1_024,
            circuits: 30,
            longest_region: 64,
            schedules: 3,
            period: Some(300),
            entries: 40,
            length: None,
        };
        let plan = passing_plan(&mut random, &wish);
        if plan.circuits.len() == 30 && plan.schedules.iter().all(|schedule| schedule.entries.len() == 40) {
            return plan;
        }
    }
}

/// Sheet A of document 01.
pub fn sheet_a() -> Plan {
    Plan {
        columns: 2,
        rows: 2,
        long_links: false,
        memory_words: 8,
        circuits: vec![Circuit {
            source: 0,
            destination: 1,
            read_offset: 0,
            read_length: 4,
            receive_offset: 0,
            receive_length: 4,
        }],
        schedules: vec![Schedule { period: 9, entries: vec![Entry { offset: 0, length: 3, circuit: 0, route: 13 }] }],
    }
}

/// The idle network that a sheet of no words stands for, as the second checker has it too.
pub fn idle_network() -> Plan {
    Plan {
        columns: 2,
        rows: 2,
        long_links: false,
        memory_words: 1,
        circuits: Vec::new(),
        schedules: vec![Schedule { period: 9, entries: Vec::new() }],
    }
}

/// The two circuits of examples (h) to (j); the second slot begins at `offset`.
fn two_circuits(offset: u32) -> Plan {
    let mut plan = sheet_a();
    let first = plan.circuits[0];
    plan.circuits = vec![
        Circuit { source: 0, destination: 3, receive_offset: 0, ..first },
        Circuit { source: 1, destination: 3, receive_offset: 4, ..first },
    ];
    plan.schedules[0].entries =
        vec![Entry { offset: 0, length: 2, circuit: 0, route: 9 }, Entry { offset, length: 2, circuit: 1, route: 2 }];
    plan
}

/// The examples (a) to (l) of document 01.
pub fn examples() -> Vec<Case> {
    let with_entry = |offset: u32, route: u32| {
        let mut plan = sheet_a();
        plan.schedules[0].entries[0].offset = offset;
        plan.schedules[0].entries[0].route = route;
        plan
    };
    let first_circuit_alone = |offset: u32| {
        let mut plan = two_circuits(0);
        plan.circuits.truncate(1);
        plan.schedules[0].entries.truncate(1);
        plan.schedules[0].entries[0].offset = offset;
        plan
    };
    let mut one_word_more = sheet_a().words();
    one_word_more.push(0);
    vec![
        sheet_a().case("example (a)", 0),
        Case { name: "example (b)", words: Vec::new(), expected: Some(0) },
        with_entry(6, 13).case("example (c)", 0),
        with_entry(7, 13).case("example (d)", 10),
        with_entry(0, 7).case("example (e)", 0),
        with_entry(0, 0).case("example (f)", 9),
        Case { name: "example (g)", words: one_word_more, expected: Some(3) },
        two_circuits(0).case("example (h)", 0),
        two_circuits(2).case("example (i)", 11),
        two_circuits(5).case("example (j)", 0),
        first_circuit_alone(4).case("example (k)", 0),
        first_circuit_alone(5).case("example (l)", 10),
    ]
}
