//! Frozen, so that ours is timed against the same code for ever: a checker of circuit sheets, linear in the sheet and in
//! the wires' use: a pass over the circuits, a pass over the entries, and a table of the wires in use. No heap. The table is
//! a parameter: bytes one at a time, as one writes it first, or tuned, sixteen bytes at once.

use std::cell::RefCell;

const MOST_NODES: usize = 16;
const MOST_CIRCUITS: usize = 64;
/// Four sides, source into router, output to memory.
const WIRES_PER_NODE: usize = 6;
const SOURCE: usize = 4;
const MEMORY: usize = 5;
/// By document 01, number 10 the last cycle of any wire is P + 5.
const CYCLES_BEYOND_PERIOD: usize = 6;
const WIDEST_SLOT: usize = 16;
/// A slot may be taken as sixteen bytes at once, so the last row has room behind it.
const TABLE_BYTES: usize = MOST_NODES * WIRES_PER_NODE * (1_024 + CYCLES_BEYOND_PERIOD) + WIDEST_SLOT;

thread_local! {
    static OCCUPIED: RefCell<[u8; TABLE_BYTES]> = const { RefCell::new([0; TABLE_BYTES]) };
}

/// How a table of wires and cycles is cleared, and how a slot is tested and taken in it.
trait Table {
    /// Before the first schedule, with the longest period.
    fn open(bytes: &mut [u8; TABLE_BYTES], wires: usize, longest_period: u32) -> Self;
    /// Before each schedule.
    fn begin(&mut self, bytes: &mut [u8; TABLE_BYTES], schedule: u32, period: u32);
    /// Bytes from a wire to the next.
    fn row_bytes(&self) -> usize;
    /// Takes a slot; whether it was free.
    fn take(&self, bytes: &mut [u8; TABLE_BYTES], start: usize, length: usize) -> bool;
}

/// A byte at a time, cleared for each schedule.
struct Plain {
    wires: usize,
    row_bytes: usize,
}

impl Table for Plain {
    fn open(_: &mut [u8; TABLE_BYTES], wires: usize, _: u32) -> Plain {
        Plain { wires, row_bytes: 0 }
    }

    fn begin(&mut self, bytes: &mut [u8; TABLE_BYTES], _: u32, period: u32) {
        self.row_bytes = period as usize + CYCLES_BEYOND_PERIOD;
        bytes[..self.wires * self.row_bytes].fill(0);
    }

    fn row_bytes(&self) -> usize {
        self.row_bytes
    }

    fn take(&self, bytes: &mut [u8; TABLE_BYTES], start: usize, length: usize) -> bool {
        let slot = &mut bytes[start..start + length];
        let free = slot.iter().all(|&byte| byte == 0);
        slot.fill(1);
        free
    }
}

/// Sixteen bytes at once. Schedule s marks bit s: there are at most eight, so one clearing serves the whole sheet.
struct Tuned {
    row_bytes: usize,
    schedule: u32,
}

impl Table for Tuned {
    fn open(bytes: &mut [u8; TABLE_BYTES], wires: usize, longest_period: u32) -> Tuned {
        let row_bytes = longest_period as usize + CYCLES_BEYOND_PERIOD;
        bytes[..wires * row_bytes + WIDEST_SLOT].fill(0);
        Tuned { row_bytes, schedule: 0 }
    }

    fn begin(&mut self, _: &mut [u8; TABLE_BYTES], schedule: u32, _: u32) {
        self.schedule = schedule;
    }

    fn row_bytes(&self) -> usize {
        self.row_bytes
    }

    fn take(&self, bytes: &mut [u8; TABLE_BYTES], start: usize, length: usize) -> bool {
        let ones = u128::MAX / 255;
        let mark = ones >> (128 - 8 * length) << self.schedule;
        let Some(slot) = bytes[start..].first_chunk_mut::<WIDEST_SLOT>() else {
            unreachable!("number 10 keeps every slot within the table")
        };
        let present = u128::from_le_bytes(*slot);
        *slot = (present | mark).to_le_bytes();
        present & mark == 0
    }
}

/// Larger than every number that one entry can give.
const NOTHING_FOUND: u32 = 12;

/// 0 when the sheet passes, else the first of the numbers 1 to 11 and 26 that applies.
pub fn verdict(sheet: &[u32]) -> u32 {
    verdict_with::<Plain>(sheet)
}

/// The same with the tuned table.
pub fn tuned_verdict(sheet: &[u32]) -> u32 {
    verdict_with::<Tuned>(sheet)
}

fn verdict_with<T: Table>(sheet: &[u32]) -> u32 {
    let &[columns, rows_word, memory_words, circuit_count, schedule_count, ref body @ ..] = sheet else {
        // No words stand for an idle network, which passes.
        return if sheet.is_empty() { 0 } else { 1 };
    };
    // 256 more than the rows says that the vertical links are long.
    let long = rows_word >= 256;
    let rows = if long { rows_word - 256 } else { rows_word };
    if !(2..=4).contains(&columns)
        || !(2..=4).contains(&rows)
        || !(1..=16_384).contains(&memory_words)
        || circuit_count > 64
        || !(1..=8).contains(&schedule_count)
    {
        return 2;
    }

    let Some((circuit_words, schedule_words)) = body.split_at_checked(6 * circuit_count as usize) else {
        return 3;
    };
    let mut rest = schedule_words;
    let mut longest_period = 0;
    for _ in 0..schedule_count {
        let &[period, entry_count, ref following @ ..] = rest else {
            return 3;
        };
        if entry_count > 256 {
            return 3;
        }
        let Some(after) = following.get(4 * entry_count as usize..) else {
            return 3;
        };
        longest_period = longest_period.max(period);
        rest = after;
    }
    if !rest.is_empty() {
        return 3;
    }

    let (circuits, _) = circuit_words.as_chunks::<6>();
    let number = circuits_verdict(columns, rows, memory_words, circuits);
    if number != 0 {
        return number;
    }
    if longest_period > 1_024 {
        return 7;
    }
    OCCUPIED.with_borrow_mut(|occupied| {
        schedules_verdict::<T>(columns, rows, long, circuits, schedule_words, longest_period, occupied)
    })
}

/// Numbers 4 to 6, or 0.
fn circuits_verdict(columns: u32, rows: u32, memory_words: u32, circuits: &[[u32; 6]]) -> u32 {
    let nodes = columns * rows;
    let memory_words = u64::from(memory_words);
    let mut ascending = true;
    let mut previous = None;
    for &[source, destination, read_offset, read_length, receive_offset, receive_length] in circuits {
        if source >= nodes
            || destination >= nodes
            || source == destination
            || read_length == 0
            || receive_length == 0
            || u64::from(read_offset) + u64::from(read_length) > memory_words
            || u64::from(receive_offset) + u64::from(receive_length) > memory_words
        {
            return 4;
        }
        let key = Some((destination, receive_offset));
        ascending &= previous < key;
        previous = key;
    }
    if !ascending {
        return 5;
    }

    // In order, receive regions are apart when neighbours are.
    for pair in circuits.windows(2) {
        let [_, first_node, _, _, first_offset, first_length] = pair[0];
        let [_, second_node, _, _, second_offset, _] = pair[1];
        if first_node == second_node && first_offset + first_length > second_offset {
            return 6;
        }
    }
    // A node's receive regions lie together in the list, so a read region is held only
    // against the first of them that does not end before it.
    let mut first = [0u8; MOST_NODES + 1];
    for circuit in circuits {
        first[circuit[1] as usize + 1] += 1;
    }
    for node in 0..MOST_NODES {
        first[node + 1] += first[node];
    }
    for &[source, _, read_offset, read_length, _, _] in circuits {
        let node = source as usize;
        let received = &circuits[first[node] as usize..first[node + 1] as usize];
        let next = received.partition_point(|circuit| circuit[4] + circuit[5] <= read_offset);
        if next < received.len() && received[next][4] < read_offset + read_length {
            return 6;
        }
    }
    0
}

fn distance(columns: u32, rows: u32, source: u32, destination: u32) -> u32 {
    let column_steps = (source % columns).abs_diff(destination % columns);
    let row_steps = (source / columns).abs_diff(destination / columns);
    column_steps.min(columns - column_steps) + row_steps.min(rows - row_steps)
}

/// Numbers 7 to 11 and 26, or 0. One pass over all entries: once a number is found, only what
/// would give a lower one is still tested.
fn schedules_verdict<T: Table>(
    columns: u32,
    rows: u32,
    long: bool,
    circuits: &[[u32; 6]],
    schedule_words: &[u32],
    longest_period: u32,
    occupied: &mut [u8; TABLE_BYTES],
) -> u32 {
    let nodes = (columns * rows) as usize;
    let mut neighbours = [[0u8; 4]; MOST_NODES];
    for node in 0..columns * rows {
        let (row, column) = (node / columns, node % columns);
        let at = |row: u32, column: u32| (row % rows * columns + column % columns) as u8;
        neighbours[node as usize] =
            [at(row + rows - 1, column), at(row, column + 1), at(row + 1, column), at(row, column + columns - 1)];
    }
    // Cycles that the links by the sides take.
    let links = [usize::from(long), 0, usize::from(long), 0];
    let mut distances = [0u32; MOST_CIRCUITS];
    for (steps, circuit) in distances.iter_mut().zip(circuits) {
        *steps = distance(columns, rows, circuit[0], circuit[1]);
    }
    let mut table = T::open(occupied, nodes * WIRES_PER_NODE, longest_period);

    let mut found = NOTHING_FOUND;
    // A bit for each circuit that has an entry.
    let mut served = 0u64;
    let mut schedule = 0;
    let mut rest = schedule_words;
    while let &[period, entry_count, ref following @ ..] = rest {
        let (entry_words, after) = following.split_at(4 * entry_count as usize);
        rest = after;
        if !(9..=1_024).contains(&period) {
            return 7;
        }
        table.begin(occupied, schedule, period);
        let row_bytes = table.row_bytes();
        let mut previous = -1;
        for &[offset, length, circuit, route] in entry_words.as_chunks::<4>().0 {
            if offset >= period || !(2..=16).contains(&length) || circuit as usize >= circuits.len() || route > 65_535 {
                return 7;
            }
            served |= 1 << circuit;

            let key = (offset << 6 | circuit) as i32;
            if key <= previous {
                found = 8;
            }
            previous = key;
            if found <= 8 {
                continue;
            }

            // By number 9 a right route has just as many hops as the distance, so the walk
            // has that many steps and only the code of the side come in by is then left. A
            // turn on the way leads nowhere else: with two steps lost the end is not reached.
            let [source, destination, ..] = circuits[circuit as usize];
            let hops = distances[circuit as usize] as usize;
            let mut starts = [0usize; 6];
            let mut node = source as usize;
            let mut cycle = offset as usize;
            starts[0] = (node * WIRES_PER_NODE + SOURCE) * row_bytes + cycle;
            let mut codes = route;
            let mut came_in_by = 4;
            for start in &mut starts[1..=hops] {
                let side = codes & 3;
                codes >>= 2;
                cycle += 3;
                *start = (node * WIRES_PER_NODE + side as usize) * row_bytes + cycle;
                cycle += links[side as usize];
                node = neighbours[node][side as usize] as usize;
                came_in_by = side ^ 2;
            }
            if node != destination as usize || codes != came_in_by {
                found = 9;
            }
            if found <= 9 {
                continue;
            }

            let length = length as usize;
            if cycle + length - 1 > period as usize + 2 {
                found = 10;
            }
            if found <= 10 {
                continue;
            }

            starts[hops + 1] = (node * WIRES_PER_NODE + MEMORY) * row_bytes + cycle + 3;
            for &start in &starts[..hops + 2] {
                if !table.take(occupied, start, length) {
                    found = 11;
                }
            }
        }
        schedule += 1;
    }
    if found != NOTHING_FOUND {
        found
    } else if (served.trailing_ones() as usize) < circuits.len() {
        26
    } else {
        0
    }
}
