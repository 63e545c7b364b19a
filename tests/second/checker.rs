//! A second checker of circuit sheets, coded from document 01 and the requests of document 02 alone. One
//! function a number and no speed sought: it has to be seen to be right. All sums are of 64 bits, so none of
//! them wraps.

use std::collections::{HashSet, VecDeque};

pub struct Circuit {
    pub source: u64,
    pub destination: u64,
    pub read_offset: u64,
    pub read_length: u64,
    pub receive_offset: u64,
    pub receive_length: u64,
}

pub struct Entry {
    pub offset: u64,
    pub length: u64,
    pub circuit: u64,
    pub route: u64,
}

pub struct Schedule {
    pub period: u64,
    pub entries: Vec<Entry>,
}

pub struct Sheet {
    pub columns: u64,
    pub rows: u64,
    /// Whether a vertical hop takes a cycle more (document 02, L7).
    pub long_links: bool,
    pub memory_words: u64,
    pub circuits: Vec<Circuit>,
    pub schedules: Vec<Schedule>,
}

#[derive(Clone, Copy, PartialEq, Eq)]
pub enum Side {
    North,
    East,
    South,
    West,
}

/// The three kinds of wire of document 01, "The router".
#[derive(Clone, Copy, PartialEq, Eq, Hash)]
enum Wire {
    SourceIntoRouter { node: u64 },
    SideOutput { node: u64, side: u64 },
    OutputToMemory { node: u64 },
}

/// The idle network that a sheet of no words stands for (document 02, L2): 2 columns, 2 rows,
/// a memory word a node, no circuits, and one schedule of period 9 without entries.
const IDLE_NETWORK: [u32; 7] = [2, 2, 1, 0, 1, 9, 0];

/// The words that a sheet stands for: its own, or those of the idle network where it has none.
pub fn meant(words: &[u32]) -> &[u32] {
    if words.is_empty() {
        &IDLE_NETWORK
    } else {
        words
    }
}

/// What the second head word carries besides the rows where vertical links are long (document 02, L7).
const LONG_LINKS: u64 = 256;

/// The rows that the second head word states, and whether vertical links are long.
fn rows_stated(word: u64) -> (u64, bool) {
    if word >= LONG_LINKS {
        (word - LONG_LINKS, true)
    } else {
        (word, false)
    }
}

/// Whether a number applies to a sheet that could be read.
type Rule = fn(&Sheet) -> bool;

/// 0 when the sheet passes, else the first of the numbers 1 to 11 and 26 that applies: the answer
/// of the checker and of a load.
pub fn verdict(words: &[u32]) -> u32 {
    let number = verdict_to_11(words);
    if number != 0 {
        return number;
    }
    let sheet = read(meant(words)).expect("number 3 does not apply");
    if rule26(&sheet) {
        return 26;
    }
    0
}

/// The same by the numbers 1 to 11 alone, by which entries are handed back and a state is sound.
pub fn verdict_to_11(words: &[u32]) -> u32 {
    let words = meant(words);
    if rule1(words) {
        return 1;
    }
    if rule2(words) {
        return 2;
    }
    if rule3(words) {
        return 3;
    }
    let sheet = read(words).expect("number 3 does not apply");
    let later: [(u32, Rule); 8] = [
        (4, rule4),
        (5, rule5),
        (6, rule6),
        (7, rule7),
        (8, rule8),
        (9, rule9),
        (10, rule10),
        (11, rule11),
    ];
    for (number, refuses) in later {
        if refuses(&sheet) {
            return number;
        }
    }
    0
}

/// The part of a sheet that holds one schedule's entries (document 01, "The sheet"): the
/// place of its first word, and its words. Where the sheet's own number of 1 to 11 is not 0 that
/// number, else 15 where it has no such schedule. A sheet of no words has the idle network's
/// schedule, whose entries are the empty part at its start.
pub fn entries(words: &[u32], number: u32, schedule: u32) -> Result<(usize, Vec<u64>), u32> {
    if number != 0 {
        return Err(number);
    }
    let [circuits, schedules] = [meant(words)[3], meant(words)[4]];
    if schedule >= schedules {
        return Err(15);
    }
    if words.is_empty() {
        return Ok((0, Vec::new()));
    }
    // Five words of head and six a circuit are passed by, then each earlier schedule:
    // period, number of entries, and four words an entry.
    let mut place = 5 + 6 * circuits as usize;
    for _ in 0..schedule {
        place += 2 + 4 * words[place + 1] as usize;
    }
    let length = 4 * words[place + 1] as usize;
    place += 2;
    let part = &words[place..place + length];
    Ok((place, part.iter().map(|&word| u64::from(word)).collect()))
}

// Each rule answers whether its number applies.

fn rule1(words: &[u32]) -> bool {
    (1..=4).contains(&words.len())
}

fn rule2(words: &[u32]) -> bool {
    let [columns, rows, memory_words, circuits, schedules] =
        [words[0], words[1], words[2], words[3], words[4]];
    let (rows, _) = rows_stated(u64::from(rows));
    !(2..=4).contains(&columns)
        || !(2..=4).contains(&rows)
        || !(1..=16_384).contains(&memory_words)
        || !(0..=64).contains(&circuits)
        || !(1..=8).contains(&schedules)
}

fn rule3(words: &[u32]) -> bool {
    read(words).is_none()
}

fn rule4(sheet: &Sheet) -> bool {
    let nodes = sheet.columns * sheet.rows;
    sheet.circuits.iter().any(|circuit| {
        circuit.source >= nodes
            || circuit.destination >= nodes
            || circuit.source == circuit.destination
            || circuit.read_length == 0
            || circuit.receive_length == 0
            || circuit.read_offset + circuit.read_length > sheet.memory_words
            || circuit.receive_offset + circuit.receive_length > sheet.memory_words
    })
}

fn rule5(sheet: &Sheet) -> bool {
    sheet.circuits.windows(2).any(|pair| {
        let first = (pair[0].destination, pair[0].receive_offset);
        let second = (pair[1].destination, pair[1].receive_offset);
        first >= second
    })
}

fn rule6(sheet: &Sheet) -> bool {
    for (position, receiver) in sheet.circuits.iter().enumerate() {
        for (other_position, other) in sheet.circuits.iter().enumerate() {
            let receive_meets_receive = position != other_position
                && receiver.destination == other.destination
                && regions_share_a_word(
                    (receiver.receive_offset, receiver.receive_length),
                    (other.receive_offset, other.receive_length),
                );
            let receive_meets_read = receiver.destination == other.source
                && regions_share_a_word(
                    (receiver.receive_offset, receiver.receive_length),
                    (other.read_offset, other.read_length),
                );
            if receive_meets_receive || receive_meets_read {
                return true;
            }
        }
    }
    false
}

fn rule7(sheet: &Sheet) -> bool {
    let circuits = sheet.circuits.len() as u64;
    sheet.schedules.iter().any(|schedule| {
        !(9..=1_024).contains(&schedule.period)
            || schedule.entries.iter().any(|entry| {
                entry.offset >= schedule.period
                    || !(2..=16).contains(&entry.length)
                    || entry.circuit >= circuits
                    || entry.route > 65_535
            })
    })
}

fn rule8(sheet: &Sheet) -> bool {
    sheet.schedules.iter().any(|schedule| {
        schedule.entries.windows(2).any(|pair| {
            let first = (pair[0].offset, pair[0].circuit);
            let second = (pair[1].offset, pair[1].circuit);
            first >= second
        })
    })
}

fn rule9(sheet: &Sheet) -> bool {
    sheet.schedules.iter().any(|schedule| {
        schedule.entries.iter().any(|entry| {
            let circuit = &sheet.circuits[entry.circuit as usize];
            match walk(sheet, circuit.source, entry.route) {
                None => true,
                Some(path) => {
                    let hops = path.side_outputs.len() as u64;
                    path.last_node != circuit.destination
                        || hops > distance(sheet, circuit.source, circuit.destination)
                        || path.bits_left != 0
                }
            }
        })
    })
}

fn rule10(sheet: &Sheet) -> bool {
    sheet.schedules.iter().any(|schedule| {
        schedule.entries.iter().any(|entry| {
            let source = sheet.circuits[entry.circuit as usize].source;
            let path = walk(sheet, source, entry.route).expect("number 9 does not apply");
            let hops = path.side_outputs.len() as u64;
            let vertical_hops = extra_cycles(sheet, &path.side_outputs);
            entry.offset + entry.length - 1 + 3 * hops + vertical_hops > schedule.period + 2
        })
    })
}

fn rule11(sheet: &Sheet) -> bool {
    for schedule in &sheet.schedules {
        let mut used: HashSet<(Wire, u64)> = HashSet::new();
        for entry in &schedule.entries {
            // A shortest route meets no wire twice, so a use found in the set is
            // another entry's. The whole slot counts, from its header on.
            for (wire, delay) in wires(sheet, entry) {
                for word in 0..entry.length {
                    if !used.insert((wire, entry.offset + delay + word)) {
                        return true;
                    }
                }
            }
        }
    }
    false
}

/// Some circuit has no entry in any schedule (document 02, L8).
pub fn rule26(sheet: &Sheet) -> bool {
    for circuit in 0..sheet.circuits.len() as u64 {
        let is_its_own = |entry: &Entry| entry.circuit == circuit;
        if !sheet.schedules.iter().any(|schedule| schedule.entries.iter().any(is_its_own)) {
            return true;
        }
    }
    false
}

/// The sheet read from the front, from the words that it stands for; nothing where number 3
/// applies. The count of entries is tested before it is used (document 01, number 3).
pub fn read(words: &[u32]) -> Option<Sheet> {
    let mut rest = words.iter().map(|&word| u64::from(word));
    let columns = rest.next()?;
    let (rows, long_links) = rows_stated(rest.next()?);
    let memory_words = rest.next()?;
    let circuit_count = rest.next()?;
    let schedule_count = rest.next()?;

    let mut circuits = Vec::new();
    for _ in 0..circuit_count {
        circuits.push(Circuit {
            source: rest.next()?,
            destination: rest.next()?,
            read_offset: rest.next()?,
            read_length: rest.next()?,
            receive_offset: rest.next()?,
            receive_length: rest.next()?,
        });
    }

    let mut schedules = Vec::new();
    for _ in 0..schedule_count {
        let period = rest.next()?;
        let entry_count = rest.next()?;
        if entry_count > 256 {
            return None;
        }
        let mut entries = Vec::new();
        for _ in 0..entry_count {
            entries.push(Entry {
                offset: rest.next()?,
                length: rest.next()?,
                circuit: rest.next()?,
                route: rest.next()?,
            });
        }
        schedules.push(Schedule { period, entries });
    }

    if rest.next().is_some() {
        return None;
    }
    Some(Sheet { columns, rows, long_links, memory_words, circuits, schedules })
}

fn regions_share_a_word(first: (u64, u64), second: (u64, u64)) -> bool {
    let (first_offset, first_length) = first;
    let (second_offset, second_length) = second;
    first_offset < second_offset + second_length && second_offset < first_offset + first_length
}

pub fn side_of_code(code: u64) -> Side {
    match code {
        0 => Side::North,
        1 => Side::East,
        2 => Side::South,
        3 => Side::West,
        _ => unreachable!("a code has two bits"),
    }
}

fn opposite(side: Side) -> Side {
    match side {
        Side::North => Side::South,
        Side::East => Side::West,
        Side::South => Side::North,
        Side::West => Side::East,
    }
}

pub fn neighbour(sheet: &Sheet, node: u64, side: Side) -> u64 {
    let column = node % sheet.columns;
    let row = node / sheet.columns;
    let (new_column, new_row) = match side {
        Side::North => (column, if row == 0 { sheet.rows - 1 } else { row - 1 }),
        Side::East => (if column == sheet.columns - 1 { 0 } else { column + 1 }, row),
        Side::South => (column, if row == sheet.rows - 1 { 0 } else { row + 1 }),
        Side::West => (if column == 0 { sheet.columns - 1 } else { column - 1 }, row),
    };
    new_row * sheet.columns + new_column
}

/// Fewest steps between two nodes, by a search in widening circles.
pub fn distance(sheet: &Sheet, from: u64, to: u64) -> u64 {
    let mut steps: Vec<Option<u64>> = vec![None; (sheet.columns * sheet.rows) as usize];
    steps[from as usize] = Some(0);
    let mut waiting = VecDeque::from([from]);
    while let Some(node) = waiting.pop_front() {
        let here = steps[node as usize].expect("a waiting node has been reached");
        if node == to {
            return here;
        }
        for side in [Side::North, Side::East, Side::South, Side::West] {
            let next = neighbour(sheet, node, side);
            if steps[next as usize].is_none() {
                steps[next as usize] = Some(here + 1);
                waiting.push_back(next);
            }
        }
    }
    unreachable!("every node of the grid can be reached")
}

struct Path {
    /// Node and side code of each hop.
    side_outputs: Vec<(u64, u64)>,
    last_node: u64,
    bits_left: u64,
}

/// Follows a route of sixteen bits, one code a router, up to the output to memory.
/// Nothing when eight codes do not get there: that is more hops than any distance.
fn walk(sheet: &Sheet, source: u64, route: u64) -> Option<Path> {
    let mut node = source;
    let mut came_in_by: Option<Side> = None;
    let mut bits = route;
    let mut side_outputs = Vec::new();
    for _ in 0..8 {
        let code = bits & 3;
        bits >>= 2;
        let side = side_of_code(code);
        if came_in_by == Some(side) {
            return Some(Path { side_outputs, last_node: node, bits_left: bits });
        }
        side_outputs.push((node, code));
        node = neighbour(sheet, node, side);
        came_in_by = Some(opposite(side));
    }
    None
}

/// The cycles that links add behind these hops: one a vertical hop where vertical links are long, else none.
fn extra_cycles(sheet: &Sheet, hops: &[(u64, u64)]) -> u64 {
    let is_vertical = |&&(_, code): &&(u64, u64)| matches!(side_of_code(code), Side::North | Side::South);
    if sheet.long_links {
        hops.iter().filter(is_vertical).count() as u64
    } else {
        0
    }
}

/// Each wire of an entry, with the cycles between source and wire. A link's extra register is no wire, and only
/// what lies behind it is later.
fn wires(sheet: &Sheet, entry: &Entry) -> Vec<(Wire, u64)> {
    let source = sheet.circuits[entry.circuit as usize].source;
    let path = walk(sheet, source, entry.route).expect("number 9 does not apply");
    let hops = path.side_outputs.len() as u64;
    let mut list = vec![(Wire::SourceIntoRouter { node: source }, 0)];
    for (position, &(node, side)) in path.side_outputs.iter().enumerate() {
        let before = extra_cycles(sheet, &path.side_outputs[..position]);
        list.push((Wire::SideOutput { node, side }, 3 * (position as u64 + 1) + before));
    }
    let vertical_hops = extra_cycles(sheet, &path.side_outputs);
    list.push((Wire::OutputToMemory { node: path.last_node }, 3 * (hops + 1) + vertical_hops));
    list
}
