//! Weeks laid out from their first minute on, piece behind piece, so that they cannot break the rule; and random ones.

use super::sheets::Random;
use super::timetable::Hours;

pub const WEEK: u32 = 10_080;
pub const LAST: u32 = WEEK - 1;

pub fn until(schedule: u32, minute: u32) -> Hours {
    Hours::Until { schedule, minute }
}

/// A stretch of the week: a window with its schedule, or time without a window.
#[derive(Clone, Copy)]
pub struct Piece {
    pub start: u32,
    length: u32,
    window: Option<u32>,
}

impl Piece {
    pub fn schedule(self) -> u32 {
        self.window.unwrap_or(0)
    }
}

/// A week laid out from its first minute on, piece behind piece, so that it cannot break the rule.
pub struct Layout {
    pub pieces: Vec<Piece>,
}

impl Layout {
    pub fn new() -> Layout {
        Layout { pieces: Vec::new() }
    }

    /// Where the next piece will start.
    pub fn end(&self) -> u32 {
        self.pieces.last().map_or(0, |piece| piece.start + piece.length)
    }

    pub fn window(mut self, length: u32, schedule: u32) -> Layout {
        assert!(length >= 1 && length <= WEEK - self.end() && schedule <= 7);
        self.pieces.push(Piece { start: self.end(), length, window: Some(schedule) });
        self
    }

    pub fn gap(mut self, length: u32) -> Layout {
        assert!(length <= WEEK - self.end());
        if length > 0 {
            self.pieces.push(Piece { start: self.end(), length, window: None });
        }
        self
    }

    pub fn windows(mut self, lengths: &[u32], schedule: u32) -> Layout {
        for &length in lengths {
            self = self.window(length, schedule);
        }
        self
    }

    /// The rest of the week is without windows.
    pub fn closed(self) -> Layout {
        let rest = WEEK - self.end();
        self.gap(rest)
    }

    /// The last window goes on up to `end`, where it does not yet.
    pub fn lengthened_to(mut self, end: u32) -> Layout {
        let missing = end.saturating_sub(self.end());
        if let Some(piece) = self.pieces.last_mut() {
            piece.length += missing;
        }
        self
    }

    pub fn list(&self) -> Vec<u32> {
        self.triples().concat()
    }

    pub fn triples(&self) -> Vec<[u32; 3]> {
        let windows = self.pieces.iter().filter(|piece| piece.window.is_some());
        windows.map(|piece| [piece.start, piece.length, piece.schedule()]).collect()
    }

    /// The minutes of the week at which a window starts or ends.
    pub fn edges(&self) -> Vec<u32> {
        let mut edges: Vec<u32> =
            self.triples().iter().flat_map(|triple| [triple[0], (triple[0] + triple[1]) % WEEK]).collect();
        edges.sort_unstable();
        edges.dedup();
        edges
    }

    /// What the layout was made for: the first piece ahead, round the week, that has another schedule.
    pub fn expected(&self, minute: u32) -> Hours {
        let count = self.pieces.len();
        let holds = |piece: &Piece| piece.start <= minute && minute < piece.start + piece.length;
        let held = self.pieces.iter().position(holds).expect("a closed layout holds each minute");
        let schedule = self.pieces[held].schedule();
        for step in 1..count {
            let piece = self.pieces[(held + step) % count];
            if piece.schedule() != schedule {
                return until(schedule, piece.start);
            }
        }
        Hours::Always(schedule)
    }
}

/// Cuts `total` minutes into `count` lengths of at least one minute.
pub fn parts(random: &mut Random, total: u32, count: u32) -> Vec<u32> {
    assert!(1 <= count && count <= total);
    let mut left = total;
    let mut lengths = Vec::new();
    for waiting in (2..=count).rev() {
        let most = (2 * left / waiting).min(left - (waiting - 1));
        let length = random.between(1, most);
        lengths.push(length);
        left -= length;
    }
    lengths.push(left);
    lengths
}

/// One of the numbers that tempt to a fault, or any from `low` to `high`.
pub fn one_of(random: &mut Random, tempting: &[u32], low: u32, high: u32) -> u32 {
    let drawn = random.between(low, high);
    if random.position(tempting.len() + 1) == 0 {
        return drawn;
    }
    random.choose(tempting)
}

/// A schedule that differs from the one outside all windows.
pub fn busy(random: &mut Random) -> u32 {
    random.between(1, 7)
}

/// A schedule other than `schedule`.
pub fn other_than(random: &mut Random, schedule: u32) -> u32 {
    (schedule + random.between(1, 7)) % 8
}

/// How the pieces of a random layout are drawn.
struct Style {
    gap: u32,
    least_gap: u32,
    first_gap: u32,
    length: u32,
    close: u32,
    schedule: u32,
    pair: [u32; 2],
    last_like_first: bool,
}

impl Style {
    fn drawn(random: &mut Random) -> Style {
        Style {
            gap: random.between(0, 3),
            least_gap: random.between(0, 1),
            first_gap: random.between(0, 4),
            length: random.between(0, 3),
            close: random.between(0, 3),
            schedule: random.between(0, 5),
            pair: [random.between(0, 7), random.between(0, 7)],
            last_like_first: random.once_in(3),
        }
    }

    fn first_gap(&self, random: &mut Random, spare: u32) -> u32 {
        match self.first_gap {
            0 | 1 => 0,
            2 => 1.min(spare),
            3 => random.between(0, spare),
            // All windows stand at the week's end.
            _ => spare,
        }
    }

    fn schedule(&self, random: &mut Random, before: u32) -> u32 {
        match self.schedule {
            0 => random.between(0, 7),
            1 => self.pair[0],
            2 => random.choose(&self.pair),
            3 if random.once_in(3) => random.between(0, 7),
            3 => before,
            4 if random.once_in(3) => random.between(0, 7),
            4 => 0,
            _ => before % 7 + 1,
        }
    }
}

/// A length by style: the least one, close to it, up to the share, or any of these.
fn extent(random: &mut Random, style: u32, least: u32, most: u32, share: u32) -> u32 {
    let drawn = if style == 3 { random.between(0, 2) } else { style };
    let wished = match drawn {
        0 => least,
        1 => least + random.between(0, 2),
        _ => random.between(least, least + share),
    };
    wished.min(most)
}

/// A closed layout of `count` windows of at least `least` minutes each.
pub fn random_layout(random: &mut Random, count: u32, least: u32) -> Layout {
    let style = Style::drawn(random);
    let mut layout = Layout::new();
    let mut schedule = style.pair[0];
    let mut first_schedule = None;
    for waiting in (1..=count).rev() {
        // What can be spent with each window to come still having its least length.
        let mut spare = WEEK - layout.end() - waiting * least;
        let share = 2 * spare / waiting;
        let gap = match first_schedule {
            None => style.first_gap(random, spare),
            Some(_) => extent(random, style.gap, style.least_gap, spare, share),
        };
        spare -= gap;
        let length = extent(random, style.length, least, least + spare, share);
        schedule = style.schedule(random, schedule);
        let first = *first_schedule.get_or_insert(schedule);
        let taken = if waiting == 1 && style.last_like_first { first } else { schedule };
        layout = layout.gap(gap).window(length, taken);
    }
    match style.close {
        0 => layout.lengthened_to(WEEK),
        1 => layout.lengthened_to(LAST),
        _ => layout,
    }
    .closed()
}
