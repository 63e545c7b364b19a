//! A copy of the second model into which one fault at a time can be planted, to see that the run notices it.

use super::timetable::Hours;

const WEEK: i64 = 10_080;

/// The fault that is planted.
#[derive(Clone, Copy, PartialEq, Eq, Debug)]
pub enum Plant {
    Nothing,
    EndBelongs,
    StartDoesNotBelong,
    ScheduleStaysBehindWindow,
    StoppedAtWeekEnd,
    FarthestMinuteMissed,
    EqualEdgeIsChange,
    EqualEdgeAtZeroIsChange,
    SecondEqualEdgeIsChange,
    IdleWindowIsChange,
    IdleWindowAtZeroIsChange,
    MinuteZeroIsChange,
    MinuteZeroMissed,
    NextWeekFromFirstWindow,
    GapIsNoChange,
    GivesUpBehindManyWindows,
    GivesUpBehindManyEdges,
    MinutesAhead,
    WeekEndForZero,
    AlwaysAsUntil,
    AlwaysWithMinuteAsked,
    ScheduleBehindChange,
    SixtyFiveTaken,
    SixtyFourRefused,
    CountInEightBits,
    WordsInSixteenBits,
    LengthInWordsLimited,
    OneWordTaken,
    TwoWordsTaken,
    EmptyRefused,
    StartOfWeekEndTaken,
    StartSigned,
    StartInSixteenBits,
    StartUncheckedAndWrapping,
    LengthZeroTaken,
    LengthInSixteenBits,
    LengthInTwentyFourBits,
    LengthInThirtyOneBits,
    WrappingSum,
    SignedSum,
    EndOfWeekRefused,
    OneMinutePastTaken,
    PastTakenAndCut,
    ScheduleEightTaken,
    ScheduleSevenRefused,
    ScheduleSigned,
    ScheduleInEightBits,
    OverlapOfOneTaken,
    LargerOverlapTaken,
    OneStartTaken,
    AdjoiningRefused,
    AdjoiningOfOneScheduleRefused,
    UnsortedTaken,
    FirstWindowUnchecked,
    LastWindowUnchecked,
    LastPairUnchecked,
    WindowsAheadUnchecked,
    MinuteOfWeekEndTaken,
    MinuteModuloWeek,
    MinuteSigned,
    MinuteInSixteenBits,
    ThirtyOneForThirtyTwo,
    ThirtyTwoFirst,
    ThirtyTwoForThirtyOne,
    FieldThreeLikeTwo,
    FieldInEightBits,
    NumberLostBesideOtherField,
    ValueBesideRefusal,
    NumberInLowHalf,
    OtherFieldRefused,
    ListKnownByLength,
}

/// Each fault with its name.
pub const PLANTS: [(Plant, &str); 70] = [
    (Plant::EndBelongs, "an end belongs to its window"),
    (Plant::StartDoesNotBelong, "a start does not belong to its window"),
    (Plant::ScheduleStaysBehindWindow, "behind a window its schedule stays"),
    (Plant::StoppedAtWeekEnd, "the search is stopped at the week's end"),
    (Plant::FarthestMinuteMissed, "a change 10,079 minutes ahead is missed"),
    (Plant::EqualEdgeIsChange, "an edge between equal schedules is taken for a change"),
    (Plant::EqualEdgeAtZeroIsChange, "an edge between equal schedules at minute 0 is taken for a change"),
    (Plant::SecondEqualEdgeIsChange, "the second edge between equal schedules is taken for a change"),
    (Plant::IdleWindowIsChange, "a window of schedule 0 is taken for a change"),
    (Plant::IdleWindowAtZeroIsChange, "a window of schedule 0 beside none is taken for a change at minute 0"),
    (Plant::MinuteZeroIsChange, "minute 0 is always taken for a change"),
    (Plant::MinuteZeroMissed, "a change at minute 0 is missed"),
    (Plant::NextWeekFromFirstWindow, "the next week is looked at from its first window on"),
    (Plant::GapIsNoChange, "time without windows is no change"),
    (Plant::GivesUpBehindManyWindows, "the search gives up behind 62 windows"),
    (Plant::GivesUpBehindManyEdges, "the search gives up behind 125 edges"),
    (Plant::MinutesAhead, "the change is given as minutes ahead"),
    (Plant::WeekEndForZero, "the next minute is 10,080 in place of 0"),
    (Plant::AlwaysAsUntil, "always is answered as until"),
    (Plant::AlwaysWithMinuteAsked, "always gives the minute asked as the next"),
    (Plant::ScheduleBehindChange, "the schedule behind the change is given"),
    (Plant::SixtyFiveTaken, "65 windows are taken"),
    (Plant::SixtyFourRefused, "64 windows are refused"),
    (Plant::CountInEightBits, "the number of windows is kept in eight bits"),
    (Plant::WordsInSixteenBits, "windows are counted by sixteen bits of the number of words"),
    (Plant::LengthInWordsLimited, "64 words are taken for the limit"),
    (Plant::OneWordTaken, "a list with a rest of one word is taken"),
    (Plant::TwoWordsTaken, "a list with a rest of two words is taken"),
    (Plant::EmptyRefused, "an empty list is refused"),
    (Plant::StartOfWeekEndTaken, "a start of 10,080 is taken"),
    (Plant::StartSigned, "a start is compared as a signed number"),
    (Plant::StartInSixteenBits, "a start is kept in sixteen bits"),
    (Plant::StartUncheckedAndWrapping, "a start is not checked and the end is a wrapping sum"),
    (Plant::LengthZeroTaken, "a length of 0 is taken"),
    (Plant::LengthInSixteenBits, "a length is kept in sixteen bits"),
    (Plant::LengthInTwentyFourBits, "a length is kept in twenty-four bits"),
    (Plant::LengthInThirtyOneBits, "a length is kept in thirty-one bits"),
    (Plant::WrappingSum, "the end is a wrapping sum of 32 bits"),
    (Plant::SignedSum, "the end is a signed sum of 32 bits"),
    (Plant::EndOfWeekRefused, "an end of 10,080 is refused"),
    (Plant::OneMinutePastTaken, "an end of 10,081 is taken"),
    (Plant::PastTakenAndCut, "a window past the week's end is cut"),
    (Plant::ScheduleEightTaken, "schedule 8 is taken"),
    (Plant::ScheduleSevenRefused, "schedule 7 is refused"),
    (Plant::ScheduleSigned, "a schedule is compared as a signed number"),
    (Plant::ScheduleInEightBits, "a schedule is kept in eight bits"),
    (Plant::OverlapOfOneTaken, "an overlap of one minute is taken"),
    (Plant::LargerOverlapTaken, "only the starts are held in order"),
    (Plant::OneStartTaken, "two windows with one start are taken"),
    (Plant::AdjoiningRefused, "adjoining windows are refused"),
    (Plant::AdjoiningOfOneScheduleRefused, "adjoining windows of one schedule are refused"),
    (Plant::UnsortedTaken, "windows out of order are taken"),
    (Plant::FirstWindowUnchecked, "the first window is not checked"),
    (Plant::LastWindowUnchecked, "the last window is not checked"),
    (Plant::LastPairUnchecked, "the last pair is not checked"),
    (Plant::WindowsAheadUnchecked, "windows behind the minute asked are not checked"),
    (Plant::MinuteOfWeekEndTaken, "minute 10,080 is taken"),
    (Plant::MinuteModuloWeek, "any minute is taken as one of the week"),
    (Plant::MinuteSigned, "a minute is compared as a signed number"),
    (Plant::MinuteInSixteenBits, "a minute is kept in sixteen bits"),
    (Plant::ThirtyOneForThirtyTwo, "31 is given for 32"),
    (Plant::ThirtyTwoFirst, "32 comes before 31"),
    (Plant::ThirtyTwoForThirtyOne, "32 is given for 31"),
    (Plant::FieldThreeLikeTwo, "field 3 answers like field 2"),
    (Plant::FieldInEightBits, "a field is kept in eight bits"),
    (Plant::NumberLostBesideOtherField, "a refusal's number is lost beside another field"),
    (Plant::ValueBesideRefusal, "a value stands beside a refusal"),
    (Plant::NumberInLowHalf, "a refusal's number stands in the place of the value"),
    (Plant::OtherFieldRefused, "another field is refused"),
    (Plant::ListKnownByLength, "a list of the same length is taken for the one before"),
];

/// The copy of the model with its fault, and what it knows of the list asked last.
pub struct Planted {
    plant: Plant,
    list: Option<Vec<u32>>,
    minute: Option<u32>,
    hours: Hours,
    week: PlantedWeek,
}

/// A list as the copy sees it.
#[derive(Default)]
struct PlantedWeek {
    is_kept: bool,
    owners: Vec<Option<u32>>,
    schedules: Vec<u32>,
    starts: Vec<bool>,
    ends: Vec<bool>,
    false_changes: Vec<bool>,
    first_start: i64,
}

impl Planted {
    pub fn new(plant: Plant) -> Planted {
        let hours = Hours::Refused(0);
        Planted { plant, list: None, minute: None, hours, week: PlantedWeek::default() }
    }

    pub fn answer(&mut self, list: &[u32], minute: u32, field: u32) -> u64 {
        if !self.is_known(list) {
            self.week = PlantedWeek::of(self.plant, list);
            self.list = Some(list.to_vec());
            self.minute = None;
        }
        if self.minute != Some(minute) {
            if self.plant == Plant::WindowsAheadUnchecked {
                self.week.is_kept = is_kept(self.plant, windows_up_to(list, minute));
            }
            self.hours = self.hours_at(minute);
            self.minute = Some(minute);
        }
        packed(self.plant, self.hours, minute, field)
    }

    fn is_known(&self, list: &[u32]) -> bool {
        match &self.list {
            Some(known) if self.plant == Plant::ListKnownByLength => known.len() == list.len(),
            Some(known) => known == list,
            None => false,
        }
    }

    fn hours_at(&self, minute: u32) -> Hours {
        let (minute, minute_is_kept) = taken_minute(self.plant, minute);
        let (list_number, minute_number) = match self.plant {
            Plant::ThirtyOneForThirtyTwo => (31, 31),
            Plant::ThirtyTwoForThirtyOne => (32, 32),
            _ => (31, 32),
        };
        if self.plant == Plant::ThirtyTwoFirst && !minute_is_kept {
            return Hours::Refused(minute_number);
        }
        if !self.week.is_kept {
            return Hours::Refused(list_number);
        }
        if !minute_is_kept {
            return Hours::Refused(minute_number);
        }
        let schedule = self.week.schedules[minute as usize];
        match self.minutes_ahead(minute) {
            None if self.plant == Plant::AlwaysAsUntil => Hours::Until { schedule, minute: minute as u32 },
            None => Hours::Always(schedule),
            Some(ahead) => self.until(minute, ahead),
        }
    }

    fn until(&self, minute: i64, ahead: i64) -> Hours {
        let there = (minute + ahead) % WEEK;
        let asked = if self.plant == Plant::ScheduleBehindChange { there } else { minute };
        let next = match self.plant {
            Plant::MinutesAhead => ahead,
            Plant::WeekEndForZero if there == 0 => WEEK,
            _ => there,
        };
        Hours::Until { schedule: self.week.schedules[asked as usize], minute: next as u32 }
    }

    fn minutes_ahead(&self, minute: i64) -> Option<i64> {
        let limit = match self.plant {
            Plant::StoppedAtWeekEnd => WEEK - minute,
            Plant::FarthestMinuteMissed => WEEK - 1,
            _ => WEEK,
        };
        let (mut starts, mut edges) = (0, 0);
        let mut false_changes = 0;
        for ahead in 1..limit {
            let there = (minute + ahead) % WEEK;
            if self.differs(minute, there) {
                return Some(ahead);
            }
            let (starts_here, ends_here) = (self.week.starts[there as usize], self.week.ends[there as usize]);
            starts += i64::from(starts_here);
            edges += i64::from(starts_here || ends_here);
            if self.gives_up(starts, edges) {
                return None;
            }
            false_changes += i64::from(self.week.false_changes[there as usize]);
            let patience = i64::from(self.plant == Plant::SecondEqualEdgeIsChange);
            if false_changes > patience {
                return Some(ahead);
            }
        }
        None
    }

    fn gives_up(&self, starts: i64, edges: i64) -> bool {
        match self.plant {
            Plant::GivesUpBehindManyWindows => starts > 62,
            Plant::GivesUpBehindManyEdges => edges > 125,
            _ => false,
        }
    }

    fn differs(&self, minute: i64, there: i64) -> bool {
        if self.week.schedules[there as usize] == self.week.schedules[minute as usize] {
            return false;
        }
        match self.plant {
            Plant::MinuteZeroMissed => there != 0,
            Plant::NextWeekFromFirstWindow => there > minute || there >= self.week.first_start,
            Plant::GapIsNoChange => self.week.owners[there as usize].is_some(),
            _ => true,
        }
    }
}

impl PlantedWeek {
    fn of(plant: Plant, list: &[u32]) -> PlantedWeek {
        let is_kept = is_kept(plant, list);
        // A list that is turned away is not laid out, but where the minute asked could still have it taken.
        if !is_kept && plant != Plant::WindowsAheadUnchecked {
            return PlantedWeek::default();
        }
        let owners = owners_of(plant, list);
        let mut schedule = 0;
        let mut schedules = Vec::new();
        for owner in &owners {
            let outside = if plant == Plant::ScheduleStaysBehindWindow { schedule } else { 0 };
            schedule = owner.unwrap_or(outside);
            schedules.push(schedule);
        }
        let mut starts = vec![false; WEEK as usize];
        let mut ends = starts.clone();
        for window in list.chunks_exact(3) {
            starts[start_of(plant, window).rem_euclid(WEEK) as usize] = true;
            ends[end_of(plant, window).rem_euclid(WEEK) as usize] = true;
        }
        let false_changes = false_changes_of(plant, list);
        let first_start = list.first().map_or(0, |&start| i64::from(start));
        PlantedWeek { is_kept, owners, schedules, starts, ends, false_changes, first_start }
    }
}

/// The windows from the list's start up to the first that starts behind the minute.
fn windows_up_to(list: &[u32], minute: u32) -> &[u32] {
    let needed = list.chunks_exact(3).take_while(|window| window[0] <= minute).count();
    if list.len() % 3 != 0 || list.len() > 3 * 64 {
        return list;
    }
    &list[..3 * needed]
}

/// The minute as the copy takes it, and whether it takes it at all.
fn taken_minute(plant: Plant, minute: u32) -> (i64, bool) {
    let natural = i64::from(minute);
    let is_kept = match plant {
        Plant::MinuteOfWeekEndTaken => natural <= WEEK,
        Plant::MinuteModuloWeek => true,
        Plant::MinuteSigned => i64::from(minute as i32) < WEEK,
        Plant::MinuteInSixteenBits => i64::from(minute as u16) < WEEK,
        _ => natural < WEEK,
    };
    (natural % WEEK, is_kept)
}

fn packed(plant: Plant, hours: Hours, minute: u32, field: u32) -> u64 {
    let field = match plant {
        Plant::FieldThreeLikeTwo if field == 3 => 2,
        Plant::FieldInEightBits => field % 256,
        _ => field,
    };
    let (number, value) = match (hours, field) {
        (Hours::Refused(_), 3..) if plant == Plant::NumberLostBesideOtherField => (0, 0),
        (Hours::Refused(number), 2) if plant == Plant::ValueBesideRefusal => (number, minute),
        (Hours::Refused(number), _) if plant == Plant::NumberInLowHalf => (0, number),
        (Hours::Refused(number), _) => (number, 0),
        (_, 3..) if plant == Plant::OtherFieldRefused => (31, 0),
        (Hours::Until { schedule, .. } | Hours::Always(schedule), 0) => (0, schedule),
        (Hours::Until { .. }, 1) => (0, 1),
        (Hours::Until { minute: next, .. }, 2) => (0, next),
        (Hours::Always(_), 2) if plant == Plant::AlwaysWithMinuteAsked => (0, minute),
        _ => (0, 0),
    };
    (u64::from(number) << 32) + u64::from(value)
}

fn end_of(plant: Plant, window: &[u32]) -> i64 {
    let (start, length) = (window[0], window[1]);
    match plant {
        Plant::WrappingSum | Plant::StartUncheckedAndWrapping => i64::from(start.wrapping_add(length)),
        Plant::SignedSum => i64::from((start as i32).wrapping_add(length as i32)),
        Plant::StartInSixteenBits => start_of(plant, window) + i64::from(length),
        Plant::StartSigned => start_of(plant, window) + i64::from(length as i32),
        Plant::LengthInSixteenBits => i64::from(start) + i64::from(length as u16),
        Plant::LengthInTwentyFourBits => i64::from(start) + i64::from(length % (1 << 24)),
        Plant::LengthInThirtyOneBits => i64::from(start) + i64::from(length % (1 << 31)),
        Plant::PastTakenAndCut => (i64::from(start) + i64::from(length)).min(WEEK),
        _ => i64::from(start) + i64::from(length),
    }
}

fn start_of(plant: Plant, window: &[u32]) -> i64 {
    match plant {
        Plant::StartInSixteenBits => i64::from(window[0] as u16),
        Plant::StartSigned => i64::from(window[0] as i32),
        _ => i64::from(window[0]),
    }
}

/// Which window each minute of the week belongs to, by schedule.
fn owners_of(plant: Plant, list: &[u32]) -> Vec<Option<u32>> {
    let mut owners = vec![None; WEEK as usize];
    for window in list.chunks_exact(3) {
        let first = start_of(plant, window) + i64::from(plant == Plant::StartDoesNotBelong);
        let end = end_of(plant, window) + i64::from(plant == Plant::EndBelongs);
        for minute in first.clamp(0, WEEK)..end.clamp(0, WEEK) {
            owners[minute as usize] = Some(window[2]);
        }
    }
    owners
}

/// Minutes that the copy takes for a change though the schedule may not differ there.
fn false_changes_of(plant: Plant, list: &[u32]) -> Vec<bool> {
    let windows: Vec<&[u32]> = list.chunks_exact(3).collect();
    let edge = |window: &[u32]| (start_of(plant, window), end_of(plant, window));
    let mut found = vec![false; WEEK as usize];
    let mut mark = |minute: i64, here: bool| found[minute.rem_euclid(WEEK) as usize] |= here;
    let is_joint = plant == Plant::EqualEdgeIsChange || plant == Plant::SecondEqualEdgeIsChange;
    for pair in windows.windows(2) {
        mark(edge(pair[1]).0, is_joint && edge(pair[0]).1 == edge(pair[1]).0);
    }
    for window in windows.iter().filter(|window| window[2] == 0 && plant == Plant::IdleWindowIsChange) {
        mark(edge(window).0, true);
        mark(edge(window).1, true);
    }
    mark(0, plant == Plant::MinuteZeroIsChange);
    if let (Some(first), Some(last)) = (windows.first(), windows.last()) {
        let (at_start, at_end) = (edge(first).0 == 0, edge(last).1 == WEEK);
        mark(0, plant == Plant::EqualEdgeAtZeroIsChange && at_start && at_end);
        let is_idle = if at_start { first[2] == 0 } else { last[2] == 0 };
        mark(0, plant == Plant::IdleWindowAtZeroIsChange && at_start != at_end && is_idle);
    }
    found
}

fn is_kept(plant: Plant, list: &[u32]) -> bool {
    let windows: Vec<&[u32]> = list.chunks_exact(3).collect();
    let checked = match plant {
        Plant::FirstWindowUnchecked => windows.get(1..).unwrap_or(&[]),
        Plant::LastWindowUnchecked => &windows[..windows.len().saturating_sub(1)],
        Plant::WordsInSixteenBits => &windows[..list.len() % 65_536 / 3],
        _ => &windows,
    };
    let paired = match plant {
        Plant::LastPairUnchecked => &windows[..windows.len().saturating_sub(1)],
        _ => checked,
    };
    size_is_kept(plant, list.len())
        && checked.iter().all(|window| window_is_kept(plant, window))
        && paired.windows(2).all(|pair| pair_is_kept(plant, pair[0], pair[1]))
}

fn size_is_kept(plant: Plant, words: usize) -> bool {
    let (count, rest) = (words / 3, words % 3);
    let count_is_kept = match plant {
        Plant::SixtyFiveTaken => count <= 65,
        Plant::SixtyFourRefused => count <= 63,
        Plant::CountInEightBits => count % 256 <= 64,
        Plant::WordsInSixteenBits => words % 65_536 / 3 <= 64,
        Plant::LengthInWordsLimited => words <= 64,
        Plant::EmptyRefused => (1..=64).contains(&count),
        _ => count <= 64,
    };
    let rest_is_kept = match plant {
        Plant::OneWordTaken => rest != 2,
        Plant::TwoWordsTaken => rest != 1,
        _ => rest == 0,
    };
    count_is_kept && rest_is_kept
}

fn window_is_kept(plant: Plant, window: &[u32]) -> bool {
    let (start, end, schedule) = (start_of(plant, window), end_of(plant, window), window[2]);
    let start_is_kept = match plant {
        Plant::StartOfWeekEndTaken => start <= WEEK,
        Plant::StartUncheckedAndWrapping => true,
        _ => start < WEEK,
    };
    let end_is_kept = match plant {
        Plant::EndOfWeekRefused => end < WEEK,
        Plant::OneMinutePastTaken => end <= WEEK + 1,
        Plant::StartOfWeekEndTaken => start == WEEK || end <= WEEK,
        _ => end <= WEEK,
    };
    let schedule_is_kept = match plant {
        Plant::ScheduleEightTaken => schedule <= 8,
        Plant::ScheduleSevenRefused => schedule <= 6,
        Plant::ScheduleSigned => schedule as i32 <= 7,
        Plant::ScheduleInEightBits => schedule as u8 <= 7,
        _ => schedule <= 7,
    };
    let length_is_kept = plant == Plant::LengthZeroTaken || window[1] > 0;
    start_is_kept && length_is_kept && end_is_kept && schedule_is_kept
}

fn pair_is_kept(plant: Plant, before: &[u32], behind: &[u32]) -> bool {
    let (start, end) = (start_of(plant, before), end_of(plant, before));
    let next = start_of(plant, behind);
    let equal = before[2] == behind[2];
    match plant {
        Plant::OverlapOfOneTaken => next > start && next + 1 >= end,
        Plant::LargerOverlapTaken => next > start,
        Plant::OneStartTaken => next >= end || next == start,
        Plant::AdjoiningRefused => next > end,
        Plant::AdjoiningOfOneScheduleRefused => next > end || next == end && !equal,
        Plant::UnsortedTaken => next >= end || end_of(plant, behind) <= start,
        _ => next >= end,
    }
}
