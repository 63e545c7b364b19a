//! Lists that break one clause of number 31 each, and very long ones.

use super::sheets::Random;
use super::timetable_layouts::{one_of, random_layout, WEEK};

/// A list that keeps the rule, as windows, for a break to be made in it.
fn drawn_windows(random: &mut Random, count: u32, least: u32) -> Vec<[u32; 3]> {
    random_layout(random, count, least).triples()
}

pub type BreakList = fn(&mut Random) -> Vec<u32>;

/// Breaks of the list's length; behind them each whole window keeps the rule.
pub const LIST_BREAKS: [(&str, BreakList); 6] = [
    ("31: one word too many", one_word_too_many),
    ("31: two words too many", two_words_too_many),
    ("31: one word too few", one_word_too_few),
    ("31: two words too few", two_words_too_few),
    ("31: 65 windows", one_window_too_many),
    ("31: more than 65 windows", many_windows_too_many),
];

/// Words that begin a window which would itself keep the rule.
fn with_words(random: &mut Random, words: usize) -> Vec<u32> {
    let count = one_of(random, &[0, 1, 2, 63], 0, 63);
    let mut list = random_layout(random, count + 1, 1).list();
    list.truncate(3 * count as usize + words);
    list
}

fn one_word_too_many(random: &mut Random) -> Vec<u32> {
    with_words(random, 1)
}

fn two_words_too_many(random: &mut Random) -> Vec<u32> {
    with_words(random, 2)
}

fn without_words(random: &mut Random, words: usize) -> Vec<u32> {
    let count = one_of(random, &[1, 2, 64], 1, 64);
    let mut list = random_layout(random, count, 1).list();
    list.truncate(list.len() - words);
    list
}

fn one_word_too_few(random: &mut Random) -> Vec<u32> {
    without_words(random, 1)
}

fn two_words_too_few(random: &mut Random) -> Vec<u32> {
    without_words(random, 2)
}

/// Adjoining windows of one minute, which keep the rule but for their number.
fn row_of_minutes(random: &mut Random, count: u32) -> Vec<u32> {
    let start = one_of(random, &[0, WEEK - count], 0, WEEK - count);
    let schedule = random.between(0, 7);
    let windows = (0..count).map(|index| [start + index, 1, (schedule + index) % 8]);
    windows.collect::<Vec<_>>().concat()
}

fn too_many(random: &mut Random, count: u32) -> Vec<u32> {
    if random.once_in(3) {
        return random_layout(random, count, 1).list();
    }
    row_of_minutes(random, count)
}

fn one_window_too_many(random: &mut Random) -> Vec<u32> {
    too_many(random, 65)
}

/// Among them numbers that eight bits would take for a few windows.
fn many_windows_too_many(random: &mut Random) -> Vec<u32> {
    let count = one_of(random, &[66, 67, 85, 86, 128, 129, 256, 257, 258, 320], 66, 320);
    too_many(random, count)
}

/// The window or the pair of windows at which a list breaks.
#[derive(Clone, Copy, PartialEq, Eq)]
pub enum Place {
    First,
    Middle,
    Last,
}

impl Place {
    fn index(self, random: &mut Random, count: usize) -> usize {
        match self {
            Place::First => 0,
            Place::Middle => 1 + random.position(count - 2),
            Place::Last => count - 1,
        }
    }
}

/// Windows that keep the rule, and which of them is to break it.
fn window_at(random: &mut Random, place: Place) -> (Vec<[u32; 3]>, usize) {
    let alone = place == Place::First && random.once_in(3);
    let count = if alone { 1 } else { one_of(random, &[3, 4, 63, 64], 3, 64) };
    let windows = drawn_windows(random, count, 1);
    let index = place.index(random, windows.len());
    (windows, index)
}

/// Windows that keep the rule, and the first of the pair that is to break it.
fn pair_at(random: &mut Random, place: Place, least: u32) -> (Vec<[u32; 3]>, usize) {
    let alone = place == Place::First && random.once_in(3);
    let count = if alone { 2 } else { one_of(random, &[4, 5, 63, 64], 4, 64) };
    let windows = drawn_windows(random, count, least);
    let index = place.index(random, windows.len() - 1);
    (windows, index)
}

pub type BreakWindow = fn(&mut Random, Place) -> Vec<u32>;

/// Breaks of one window or of one pair; what follows of itself, as an end past the week, is no second break.
pub const WINDOW_BREAKS: [(&str, BreakWindow); 14] = [
    ("31: a start of 10,080", start_at_the_end),
    ("31: a start out of range", start_out_of_range),
    ("31: a start out of range with a sum that wraps", start_that_wraps),
    ("31: a length of 0", no_length),
    ("31: one minute past the week's end", one_minute_past),
    ("31: far past the week's end", far_past),
    ("31: past the week's end with a sum that wraps", past_that_wraps),
    ("31: a schedule of 8", schedule_of_eight),
    ("31: a schedule out of range", schedule_out_of_range),
    ("31: an overlap of one minute", overlap_of_one_minute),
    ("31: a larger overlap", larger_overlap),
    ("31: two windows with one start", one_start),
    ("31: two windows swapped", swapped),
    ("31: a window far out of order", far_out_of_order),
];

fn start_at_the_end(random: &mut Random, place: Place) -> Vec<u32> {
    let (mut windows, index) = window_at(random, place);
    windows[index][0] = WEEK;
    if random.once_in(2) {
        windows[index][1] = 1;
    }
    windows.concat()
}

fn start_out_of_range(random: &mut Random, place: Place) -> Vec<u32> {
    let (mut windows, index) = window_at(random, place);
    let start = windows[index][0];
    let drawn = random.between(WEEK, u32::MAX);
    // Some of these a narrower or a signed number would take for a minute of the week.
    let tempting = [WEEK + 1, 2 * WEEK, WEEK + start, 65_536 + start, 1 << 31, (1 << 31) + start, u32::MAX, drawn];
    windows[index][0] = random.choose(&tempting);
    windows.concat()
}

/// In 32 bits the window seems to end where it did before.
fn start_that_wraps(random: &mut Random, place: Place) -> Vec<u32> {
    let (mut windows, index) = window_at(random, place);
    let end = windows[index][0] + windows[index][1];
    let before = one_of(random, &[1, 2, WEEK], 1, WEEK);
    windows[index][0] = u32::MAX - before + 1;
    windows[index][1] = before + if random.once_in(4) { 0 } else { end };
    windows.concat()
}

fn no_length(random: &mut Random, place: Place) -> Vec<u32> {
    let (mut windows, index) = window_at(random, place);
    windows[index][1] = 0;
    windows.concat()
}

fn one_minute_past(random: &mut Random, place: Place) -> Vec<u32> {
    let (mut windows, index) = window_at(random, place);
    windows[index][1] = WEEK + 1 - windows[index][0];
    windows.concat()
}

/// Sums that 32 bits still hold, among them some that a narrower or a signed number would not.
fn far_past(random: &mut Random, place: Place) -> Vec<u32> {
    let (mut windows, index) = window_at(random, place);
    let [start, length, _] = windows[index];
    let least = WEEK + 2 - start;
    let drawn = random.between(least, u32::MAX - start);
    let narrow = [65_536 + length, (1 << 24) + length, (1 << 31) + length];
    let wide = [least, WEEK, (1 << 31) - start, 1 << 31, u32::MAX - start, drawn];
    let lengths = [&narrow[..], &wide].concat();
    windows[index][1] = random.choose(&lengths).max(least);
    windows.concat()
}

/// In 32 bits the window seems to end before its start, and so before the next window.
fn past_that_wraps(random: &mut Random, place: Place) -> Vec<u32> {
    let (mut windows, index) = window_at(random, place);
    // From minute 0 on no length wraps, so another list is drawn.
    while windows[index][0] == 0 {
        windows = drawn_windows(random, windows.len() as u32, 1);
    }
    let start = windows[index][0];
    let seeming_end = one_of(random, &[0, 1.min(start - 1), start - 1], 0, start - 1);
    windows[index][1] = u32::MAX - start + 1 + seeming_end;
    windows.concat()
}

fn schedule_of_eight(random: &mut Random, place: Place) -> Vec<u32> {
    let (mut windows, index) = window_at(random, place);
    windows[index][2] = 8;
    windows.concat()
}

fn schedule_out_of_range(random: &mut Random, place: Place) -> Vec<u32> {
    let (mut windows, index) = window_at(random, place);
    let schedule = windows[index][2];
    let drawn = random.between(8, u32::MAX);
    let tempting = [9, 15, 16, 255, 256 + schedule, 65_536 + schedule, (1 << 31) + schedule, u32::MAX, drawn];
    windows[index][2] = random.choose(&tempting);
    windows.concat()
}

fn overlap_of_one_minute(random: &mut Random, place: Place) -> Vec<u32> {
    let (mut windows, index) = pair_at(random, place, 1);
    let [start, length, _] = windows[index];
    let next = windows[index + 1][0];
    if length >= 2 && random.once_in(2) {
        // The second one starts on the last minute of the first.
        windows[index + 1][1] += next - (start + length - 1);
        windows[index + 1][0] = start + length - 1;
    } else {
        // The first one ends behind the first minute of the second.
        windows[index][1] = next + 1 - start;
    }
    windows.concat()
}

fn larger_overlap(random: &mut Random, place: Place) -> Vec<u32> {
    let (mut windows, index) = pair_at(random, place, 2);
    let [next, next_length, _] = windows[index + 1];
    let shared = one_of(random, &[2, next_length], 2, next_length);
    windows[index][1] = next + shared - windows[index][0];
    windows.concat()
}

fn one_start(random: &mut Random, place: Place) -> Vec<u32> {
    let (mut windows, index) = pair_at(random, place, 1);
    match random.between(0, 2) {
        0 => windows[index + 1] = windows[index],
        1 => windows[index + 1][0] = windows[index][0],
        _ => windows[index + 1] = [windows[index][0], 1, windows[index + 1][2]],
    }
    windows.concat()
}

fn swapped(random: &mut Random, place: Place) -> Vec<u32> {
    let (mut windows, index) = pair_at(random, place, 1);
    windows.swap(index, index + 1);
    windows.concat()
}

fn far_out_of_order(random: &mut Random, place: Place) -> Vec<u32> {
    let (mut windows, index) = pair_at(random, place, 1);
    match place {
        Place::First => windows.rotate_left(1),
        Place::Middle => windows[index..].rotate_left(1),
        Place::Last => windows.rotate_right(1),
    }
    windows.concat()
}

/// Lists that are too long, most of them by far, and some for a second reason.
pub fn very_long_lists(random: &mut Random) -> Vec<Vec<u32>> {
    let mut lists: Vec<Vec<u32>> =
        [65, 192, 256, 257, 320, 1_000, 3_360, WEEK].iter().map(|&count| row_of_minutes(random, count)).collect();
    for count in [65, 66, 128, 1_000] {
        for rest in [1, 2] {
            let mut list = row_of_minutes(random, count);
            list.truncate(3 * count as usize - rest);
            lists.push(list);
        }
    }
    // Sixteen bits would count 63 windows in the first of these, and none in the second.
    for words in [65_536 + 191, 65_536 + 2] {
        let mut list = row_of_minutes(random, 64);
        list.resize(words, 0);
        lists.push(list);
    }
    for words in [3 * 65, 3 * 65 + 1, 3 * 65 + 2, 3 * 1_000] {
        lists.push(vec![0; words]);
        lists.push(vec![u32::MAX; words]);
        lists.push((0..words).map(|_| random.word()).collect());
    }
    lists
}
