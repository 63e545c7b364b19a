//! The second model of the weekly timetable: the whole week as an array of minutes, asked minute by minute.

const WEEK: u64 = 10_080;
const MOST_WINDOWS: u64 = 64;
const HIGHEST_SCHEDULE: u64 = 7;
const WRONG_LIST: u32 = 31;
const WRONG_MINUTE: u32 = 32;

/// What a timetable says of a minute.
#[derive(Clone, Copy, PartialEq, Eq, Debug)]
pub enum Hours {
    /// The schedule at the minute, and the next minute of the week at which it differs.
    Until { schedule: u32, minute: u32 },
    /// The schedule at the minute, which never changes.
    Always(u32),
    /// The number with which the list or the minute is turned away.
    Refused(u32),
}

/// What the timetable in `list` says of `minute`, found by walking ahead one minute at a time.
pub fn hours(list: &[u32], minute: u32) -> Hours {
    match schedules_of(list) {
        Some(schedules) => walked(&schedules, minute),
        None => Hours::Refused(WRONG_LIST),
    }
}

/// What the call answers.
pub fn answer(list: &[u32], minute: u32, field: u32) -> u64 {
    answer_of(hours(list, minute), field)
}

/// One field of `hours`, as number * 2^32 + value.
pub fn answer_of(hours: Hours, field: u32) -> u64 {
    let (number, value) = match (hours, field) {
        (Hours::Refused(number), _) => (number, 0),
        (Hours::Until { schedule, .. }, 0) => (0, schedule),
        (Hours::Until { .. }, 1) => (0, 1),
        (Hours::Until { minute, .. }, 2) => (0, minute),
        (Hours::Always(schedule), 0) => (0, schedule),
        _ => (0, 0),
    };
    u64::from(number) * 4_294_967_296 + u64::from(value)
}

/// A timetable that keeps the rule, prepared once to be asked for many minutes.
pub struct Week {
    schedules: Vec<u32>,
    ahead: Vec<u64>,
}

impl Week {
    /// None where the list is turned away with 31.
    pub fn of(list: &[u32]) -> Option<Week> {
        let schedules = schedules_of(list)?;
        let ahead = minutes_ahead(&schedules);
        Some(Week { schedules, ahead })
    }

    /// The answer from the prepared distances.
    pub fn hours(&self, minute: u32) -> Hours {
        if u64::from(minute) >= WEEK {
            return Hours::Refused(WRONG_MINUTE);
        }
        let schedule = self.schedules[minute as usize];
        match self.ahead[minute as usize] {
            0 => Hours::Always(schedule),
            ahead => Hours::Until { schedule, minute: ((u64::from(minute) + ahead) % WEEK) as u32 },
        }
    }

    /// The same answer by the plain walk, to hold the prepared distances against.
    pub fn walked(&self, minute: u32) -> Hours {
        walked(&self.schedules, minute)
    }
}

/// The schedule of each minute of the week, or None where the list is turned away with 31.
fn schedules_of(list: &[u32]) -> Option<Vec<u32>> {
    let words = list.len() as u64;
    if words % 3 != 0 || words / 3 > MOST_WINDOWS {
        return None;
    }
    let mut owners: Vec<Option<u32>> = vec![None; WEEK as usize];
    let mut start_before = 0;
    for window in list.chunks_exact(3) {
        let (start, length, schedule) = (u64::from(window[0]), u64::from(window[1]), u64::from(window[2]));
        if start >= WEEK || length == 0 || schedule > HIGHEST_SCHEDULE {
            return None;
        }
        // The end itself is no minute of the window, so it may be the first minute of the next week.
        if start + length > WEEK {
            return None;
        }
        // Windows that share no minute can still be out of order.
        if start < start_before {
            return None;
        }
        start_before = start;
        for minute in start..start + length {
            // A minute with two owners is an overlap, also where two windows have one start.
            if owners[minute as usize].is_some() {
                return None;
            }
            owners[minute as usize] = Some(window[2]);
        }
    }
    Some(owners.iter().map(|owner| owner.unwrap_or(0)).collect())
}

/// Walks ahead until the schedule differs; after 10,079 minutes each other minute of the week has been seen.
fn walked(schedules: &[u32], minute: u32) -> Hours {
    if u64::from(minute) >= WEEK {
        return Hours::Refused(WRONG_MINUTE);
    }
    let schedule = schedules[minute as usize];
    for ahead in 1..WEEK {
        let there = (u64::from(minute) + ahead) % WEEK;
        if schedules[there as usize] != schedule {
            return Hours::Until { schedule, minute: there as u32 };
        }
    }
    Hours::Always(schedule)
}

/// For each minute how far ahead the schedule differs, 0 for never, by one pass backward over two weeks.
fn minutes_ahead(schedules: &[u32]) -> Vec<u64> {
    let mut found = vec![0; WEEK as usize];
    let mut ahead = 0;
    for minute in (0..2 * WEEK - 1).rev() {
        let here = schedules[(minute % WEEK) as usize];
        let behind = schedules[((minute + 1) % WEEK) as usize];
        if here != behind {
            ahead = 1;
        } else if ahead > 0 {
            ahead += 1;
        }
        // Only the first week's minutes have a whole week ahead of them.
        if minute < WEEK {
            found[minute as usize] = ahead;
        }
    }
    found
}
