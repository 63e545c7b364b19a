//! Timetables of a named shape that keep the rule, with answers written down from the numbers they were made of.

use super::sheets::Random;
use super::timetable::Hours;
use super::timetable_layouts::{busy, one_of, other_than, parts, until, Layout, LAST, WEEK};

/// A closed layout, with answers written down from the numbers it was made of.
pub struct Shape {
    pub layout: Layout,
    pub by_hand: Vec<(u32, Hours)>,
}

fn shape(layout: Layout, by_hand: &[(u32, Hours)]) -> Shape {
    Shape { layout: layout.closed(), by_hand: by_hand.to_vec() }
}

pub type MakeShape = fn(&mut Random) -> Shape;

pub const SHAPES: [(&str, MakeShape); 26] = [
    ("kept: no windows", no_windows),
    ("kept: one window of the whole week", whole_week),
    ("kept: one window inside the week", inside_the_week),
    ("kept: a window that ends at 10,080", ends_with_the_week),
    ("kept: a window that ends at 10,079", ends_a_minute_early),
    ("kept: a window that starts at 0", starts_with_the_week),
    ("kept: one minute with a window", one_minute),
    ("kept: one minute without a window", all_but_one_minute),
    ("kept: adjoining windows of one schedule", adjoining),
    ("kept: two windows of one schedule meet over the week's end", meeting_over_the_end),
    ("kept: many windows of one schedule meet over the week's end", many_meeting_over_the_end),
    ("kept: windows of schedule 0 only", idle_only),
    ("kept: windows of schedule 0 around another", idle_around),
    ("kept: a window of schedule 0 at the week's end", idle_at_the_end),
    ("kept: a window of schedule 0 at the week's start", idle_at_the_start),
    ("kept: a window of schedule 0 between two of one schedule", idle_between),
    ("kept: adjoining windows of one schedule fill the week", filled_week),
    ("kept: 64 adjoining windows of one schedule fill the week", filled_by_most),
    ("kept: 64 windows and the change behind them all", change_behind_all),
    ("kept: 64 windows and the change at the last", change_at_the_last),
    ("kept: 64 windows fill the week and only the first differs", only_the_first_differs),
    ("kept: two windows of two schedules fill the week", two_fill_the_week),
    ("kept: gaps of one minute", gaps_of_one_minute),
    ("kept: windows of one minute", windows_of_one_minute),
    ("kept: the only change in the next week", change_next_week),
    ("kept: 63 windows of schedule 0 apart and one other", most_edges),
];

fn no_windows(random: &mut Random) -> Shape {
    let always = Hours::Always(0);
    shape(Layout::new(), &[(0, always), (LAST, always), (random.between(0, LAST), always)])
}

fn whole_week(random: &mut Random) -> Shape {
    let schedule = random.between(0, 7);
    let always = Hours::Always(schedule);
    let layout = Layout::new().window(WEEK, schedule);
    shape(layout, &[(0, always), (LAST, always), (random.between(0, LAST), always)])
}

fn inside_the_week(random: &mut Random) -> Shape {
    let start = random.between(1, LAST - 1);
    let end = random.between(start + 1, LAST);
    let schedule = busy(random);
    let (open, shut) = (until(schedule, end), until(0, start));
    let by_hand = [(start - 1, shut), (start, open), (end - 1, open), (end, shut), (0, shut), (LAST, shut)];
    shape(Layout::new().gap(start).window(end - start, schedule), &by_hand)
}

fn ends_with_the_week(random: &mut Random) -> Shape {
    let start = one_of(random, &[1, 2, 5_000, LAST - 1, LAST], 1, LAST);
    let schedule = busy(random);
    let (open, shut) = (until(schedule, 0), until(0, start));
    let by_hand = [(start, open), (LAST, open), (0, shut), (start - 1, shut)];
    shape(Layout::new().gap(start).window(WEEK - start, schedule), &by_hand)
}

fn ends_a_minute_early(random: &mut Random) -> Shape {
    let start = one_of(random, &[1, 2, 5_000, LAST - 1], 1, LAST - 1);
    let schedule = busy(random);
    let (open, shut) = (until(schedule, LAST), until(0, start));
    let by_hand = [(start, open), (LAST - 1, open), (LAST, shut), (0, shut)];
    shape(Layout::new().gap(start).window(LAST - start, schedule), &by_hand)
}

fn starts_with_the_week(random: &mut Random) -> Shape {
    let length = one_of(random, &[1, 2, 5_000, LAST - 1, LAST], 1, LAST);
    let schedule = busy(random);
    let (open, shut) = (until(schedule, length), until(0, 0));
    let by_hand = [(0, open), (length - 1, open), (length, shut), (LAST, shut)];
    shape(Layout::new().window(length, schedule), &by_hand)
}

/// Just behind the one minute the change is 10,079 minutes ahead.
fn one_minute(random: &mut Random) -> Shape {
    let minute = one_of(random, &[0, 1, LAST - 1, LAST], 0, LAST);
    let (before, behind) = ((minute + LAST) % WEEK, (minute + 1) % WEEK);
    let schedule = busy(random);
    let by_hand = [(minute, until(schedule, behind)), (behind, until(0, minute)), (before, until(0, minute))];
    shape(Layout::new().gap(minute).window(1, schedule), &by_hand)
}

/// The same within a schedule other than 0, which also goes on over the week's end.
fn all_but_one_minute(random: &mut Random) -> Shape {
    let minute = one_of(random, &[0, 1, LAST - 1, LAST], 0, LAST);
    let (before, behind) = ((minute + LAST) % WEEK, (minute + 1) % WEEK);
    let schedule = busy(random);
    let mut layout = Layout::new();
    if minute > 0 {
        layout = layout.window(minute, schedule);
    }
    layout = layout.gap(1);
    if minute < LAST {
        layout = layout.window(LAST - minute, schedule);
    }
    let open = until(schedule, minute);
    shape(layout, &[(minute, until(0, behind)), (behind, open), (before, open)])
}

fn adjoining(random: &mut Random) -> Shape {
    let count = one_of(random, &[2, 2, 3, 4], 2, 64);
    let start = random.between(1, WEEK - 1 - count);
    let end = random.between(start + count, LAST);
    let schedule = busy(random);
    let lengths = parts(random, end - start, count);
    let (open, shut) = (until(schedule, end), until(0, start));
    let by_hand = [(start, open), (start + lengths[0], open), (end - 1, open), (end, shut), (start - 1, shut)];
    shape(Layout::new().gap(start).windows(&lengths, schedule), &by_hand)
}

fn meeting_over_the_end(random: &mut Random) -> Shape {
    let end = one_of(random, &[1, 2], 1, LAST - 1);
    let start = one_of(random, &[LAST, end + 1], end + 1, LAST);
    let schedule = busy(random);
    let (open, shut) = (until(schedule, end), until(0, start));
    let by_hand = [(start, open), (LAST, open), (0, open), (end - 1, open), (end, shut), (start - 1, shut)];
    let layout = Layout::new().window(end, schedule).gap(start - end).window(WEEK - start, schedule);
    shape(layout, &by_hand)
}

fn many_meeting_over_the_end(random: &mut Random) -> Shape {
    let first_count = random.between(1, 63);
    let last_count = random.between(1, 64 - first_count);
    let end = random.between(first_count, 5_000);
    let start = random.between(5_001, WEEK - last_count);
    let schedule = busy(random);
    let first = parts(random, end, first_count);
    let last = parts(random, WEEK - start, last_count);
    let (open, shut) = (until(schedule, end), until(0, start));
    let by_hand = [(start, open), (LAST, open), (0, open), (end - 1, open), (end, shut), (start - 1, shut)];
    shape(Layout::new().windows(&first, schedule).gap(start - end).windows(&last, schedule), &by_hand)
}

fn idle_only(random: &mut Random) -> Shape {
    let count = one_of(random, &[1, 1, 2, 64], 1, 64);
    let mut layout = Layout::new();
    // Gaps of up to twenty minutes find room before each window.
    for length in parts(random, WEEK - 20 * count, count) {
        let gap = random.choose(&[0, 0, 1, 20]);
        layout = layout.gap(gap).window(length, 0);
    }
    let minute = layout.pieces[0].start;
    let always = Hours::Always(0);
    shape(layout, &[(0, always), (LAST, always), (minute, always), (random.between(0, LAST), always)])
}

fn idle_around(random: &mut Random) -> Shape {
    let lengths = parts(random, WEEK, 5);
    let schedule = busy(random);
    let start = lengths[0] + lengths[1];
    let end = start + lengths[2];
    let (open, shut) = (until(schedule, end), until(0, start));
    let by_hand = [(0, shut), (lengths[0], shut), (start, open), (end, shut), (end + lengths[3], shut)];
    let layout = Layout::new().gap(lengths[0]).window(lengths[1], 0).window(lengths[2], schedule);
    shape(layout.window(lengths[3], 0), &by_hand)
}

/// At minute 0 a window of schedule 0 meets no window.
fn idle_at_the_end(random: &mut Random) -> Shape {
    let lengths = parts(random, WEEK, 4);
    let gap = if random.once_in(2) { 0 } else { lengths[2] };
    let schedule = busy(random);
    let (start, end) = (lengths[0], lengths[0] + lengths[1]);
    let (open, shut) = (until(schedule, end), until(0, start));
    let by_hand = [(start, open), (end, shut), (end + gap, shut), (LAST, shut), (0, shut)];
    let layout = Layout::new().gap(start).window(lengths[1], schedule).gap(gap);
    shape(layout.window(WEEK - end - gap, 0), &by_hand)
}

/// At minute 0 no window meets a window of schedule 0.
fn idle_at_the_start(random: &mut Random) -> Shape {
    let lengths = parts(random, WEEK, 4);
    let gap = if random.once_in(2) { 0 } else { lengths[1] };
    let schedule = busy(random);
    let start = lengths[0] + gap;
    let end = start + lengths[2];
    let (open, shut) = (until(schedule, end), until(0, start));
    let by_hand = [(0, shut), (start, open), (end, shut), (LAST, shut)];
    shape(Layout::new().window(lengths[0], 0).gap(gap).window(lengths[2], schedule), &by_hand)
}

fn idle_between(random: &mut Random) -> Shape {
    let lengths = parts(random, WEEK, 5);
    let schedule = busy(random);
    let start = lengths[0];
    let pause = start + lengths[1];
    let again = pause + lengths[2];
    let end = again + lengths[3];
    let by_hand = [
        (start, until(schedule, pause)),
        (pause, until(0, again)),
        (again, until(schedule, end)),
        (end, until(0, start)),
    ];
    let layout = Layout::new().gap(start).window(lengths[1], schedule).window(lengths[2], 0);
    shape(layout.window(lengths[3], schedule), &by_hand)
}

fn filled(random: &mut Random, count: u32) -> Shape {
    let schedule = random.between(0, 7);
    let lengths = parts(random, WEEK, count);
    let always = Hours::Always(schedule);
    let layout = Layout::new().windows(&lengths, schedule);
    shape(layout, &[(0, always), (lengths[0], always), (LAST, always), (random.between(0, LAST), always)])
}

fn filled_week(random: &mut Random) -> Shape {
    let count = random.between(2, 63);
    filled(random, count)
}

fn filled_by_most(random: &mut Random) -> Shape {
    filled(random, 64)
}

fn change_behind_all(random: &mut Random) -> Shape {
    let start = random.between(1, WEEK - 65);
    // At the week's end the change behind all windows is at minute 0.
    let end = if random.once_in(2) { WEEK } else { random.between(start + 64, LAST) };
    let schedule = busy(random);
    let lengths = parts(random, end - start, 64);
    let (open, shut) = (until(schedule, end % WEEK), until(0, start));
    let by_hand = [(start, open), (start + lengths[0], open), (end - 1, open), (start - 1, shut), (0, shut)];
    shape(Layout::new().gap(start).windows(&lengths, schedule), &by_hand)
}

fn change_at_the_last(random: &mut Random) -> Shape {
    let lengths = parts(random, WEEK, 64);
    let schedule = random.between(0, 7);
    let last = other_than(random, schedule);
    let start = WEEK - lengths[63];
    let by_hand = [(0, until(schedule, start)), (start - 1, until(schedule, start)), (start, until(last, 0))];
    shape(Layout::new().windows(&lengths[..63], schedule).window(lengths[63], last), &by_hand)
}

fn only_the_first_differs(random: &mut Random) -> Shape {
    let lengths = parts(random, WEEK, 64);
    let schedule = random.between(0, 7);
    let first = other_than(random, schedule);
    let start = lengths[0];
    let by_hand = [(start, until(schedule, 0)), (LAST, until(schedule, 0)), (0, until(first, start))];
    shape(Layout::new().window(start, first).windows(&lengths[1..], schedule), &by_hand)
}

fn two_fill_the_week(random: &mut Random) -> Shape {
    let edge = one_of(random, &[1, LAST], 1, LAST);
    let first = random.between(0, 7);
    let second = other_than(random, first);
    let by_hand = [
        (0, until(first, edge)),
        (edge - 1, until(first, edge)),
        (edge, until(second, 0)),
        (LAST, until(second, 0)),
    ];
    shape(Layout::new().window(edge, first).window(WEEK - edge, second), &by_hand)
}

fn gaps_of_one_minute(random: &mut Random) -> Shape {
    let count = one_of(random, &[2, 3, 64], 2, 64);
    let lengths = parts(random, WEEK - count, count);
    let schedule = busy(random);
    let mut layout = Layout::new();
    let mut by_hand = Vec::new();
    for &length in &lengths {
        let start = layout.end();
        let end = start + length;
        by_hand.push((start, until(schedule, end)));
        by_hand.push((end, until(0, (end + 1) % WEEK)));
        layout = layout.window(length, schedule).gap(1);
    }
    shape(layout, &by_hand[by_hand.len().saturating_sub(6)..])
}

fn windows_of_one_minute(random: &mut Random) -> Shape {
    let count = one_of(random, &[2, 3, 64], 2, 64);
    let start = one_of(random, &[1, WEEK - count], 1, WEEK - count);
    let mut layout = Layout::new().gap(start);
    let mut by_hand = vec![(start - 1, until(0, start))];
    for index in 0..count {
        let schedule = index % 7 + 1;
        by_hand.push((start + index, until(schedule, (start + index + 1) % WEEK)));
        layout = layout.window(1, schedule);
    }
    shape(layout, &by_hand[by_hand.len().saturating_sub(6)..])
}

/// Behind the one busy window the search goes over the week's end and over idle windows to its start.
fn change_next_week(random: &mut Random) -> Shape {
    let idle = random.between(1, 31);
    let lengths = parts(random, WEEK, 2 * idle + 3);
    let schedule = busy(random);
    let (before, rest) = lengths[1..].split_at(idle as usize);
    let start = lengths[0] + before.iter().sum::<u32>();
    let end = start + rest[0];
    let behind = &rest[1..rest.len() - 1];
    let shut = until(0, start);
    let by_hand = [(start, until(schedule, end)), (end, shut), (LAST, shut), (0, shut), (lengths[0], shut)];
    let layout = Layout::new().gap(lengths[0]).windows(before, 0).window(rest[0], schedule);
    shape(layout.windows(behind, 0), &by_hand)
}

/// From the end of the one busy window the search passes the edges of all others before its start.
fn most_edges(random: &mut Random) -> Shape {
    let lengths = parts(random, WEEK, 128);
    let chosen = random.position(64);
    let schedule = busy(random);
    let mut layout = Layout::new();
    let mut by_hand = Vec::new();
    for (index, pair) in lengths.chunks_exact(2).enumerate() {
        let (start, end) = (layout.end() + pair[0], layout.end() + pair[0] + pair[1]);
        layout = layout.gap(pair[0]).window(pair[1], if index == chosen { schedule } else { 0 });
        if index == chosen {
            let shut = until(0, start);
            by_hand = vec![(start, until(schedule, end)), (end % WEEK, shut), (start - 1, shut), (LAST, shut)];
        }
    }
    // The last window ends with the week, so at its end the next week begins.
    if chosen == 63 {
        by_hand.pop();
    }
    shape(layout, &by_hand)
}
