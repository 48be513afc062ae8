//! System information messages for a question file: any that are listed, ones
//! whose windows meet, fill their period or reach over t = 0, ones that leave
//! little or nothing usable, and ones that aren't listed.

use super::random::Random;
use super::refusals::{random_above, random_unlisted};
use super::special_messages::{window_fills_period, window_reaches_over_zero, windows_overlap};
use super::words::Word;
use crate::model::cell::Cell;
use crate::model::system_information::{
    Messages, Schedule, COPY_SIZES, LARGEST_OFFSET, MESSAGE_PERIOD, PERIODS, REPETITION_PATTERNS,
    WINDOW_LENGTHS,
};

const NAMES: [&str; 4] = ["m1", "m2", "m3", "m4"];

/// A schedule with listed numbers, for windows of so many frames; often with
/// one of the shortest periods.
fn random_schedule(random: &mut Random, frames: u64) -> Schedule {
    let mut periods = PERIODS.to_vec();
    periods.retain(|&period| period >= frames);
    let most = random.pick(&[1, 2, 2, periods.len()]);
    Schedule {
        period: random.pick(&periods[..most]),
        every: random.pick(&REPETITION_PATTERNS),
        size: random.pick(&COPY_SIZES),
    }
}

/// Numbers for an entry that isn't read.
fn random_unread_schedule(random: &mut Random) -> Schedule {
    let mut number = || random.pick(&[0, 1, 2, 8, 63, 64, 128, 1 << 32, u64::MAX]);
    Schedule {
        period: number(),
        every: number(),
        size: number(),
    }
}

/// So many listed schedules, with windows of any listed length.
fn random_messages_of_count(random: &mut Random, count: u64) -> Messages {
    let mut messages = Messages {
        window: random.pick(&WINDOW_LENGTHS),
        offset: random.below(LARGEST_OFFSET + 1),
        count,
        entries: [(); 4].map(|()| random_unread_schedule(random)),
    };
    for at in 0..count as usize {
        messages.entries[at] = random_schedule(random, messages.window_frames());
    }
    messages
}

/// One to four listed schedules.
fn random_listed_messages(random: &mut Random) -> Messages {
    let count = random.pick(&[1, 1, 2, 2, 3, 4]);
    random_messages_of_count(random, count)
}

/// Made anew until it is as wanted; any where that doesn't come.
fn random_until(random: &mut Random, wanted: fn(&Messages) -> bool) -> Messages {
    let mut messages = random_listed_messages(random);
    for _ in 0..40 {
        if wanted(&messages) {
            break;
        }
        messages = random_listed_messages(random);
    }
    messages
}

/// Periods past the frame number's turn at 1,024.
fn messages_with_long_periods(random: &mut Random) -> Messages {
    let mut messages = random_listed_messages(random);
    for at in 0..messages.count as usize {
        messages.entries[at].period = random.pick(&PERIODS[4..]);
    }
    messages
}

/// Four windows that follow each other and fill the period between them.
fn messages_in_a_row(random: &mut Random) -> Messages {
    let mut messages = random_messages_of_count(random, 4);
    messages.window = random.pick(&[160, 320, 640, 1280]);
    let period = 4 * messages.window_frames();
    for entry in &mut messages.entries {
        entry.period = period;
    }
    messages
}

/// Full copies in windows that follow each other closely: little is left.
fn messages_leaving_little(random: &mut Random) -> Messages {
    let mut messages = random_listed_messages(random);
    for at in 0..messages.count as usize {
        let frames = messages.window_frames();
        let shortest = PERIODS.into_iter().find(|&period| period >= frames);
        let entry = &mut messages.entries[at];
        entry.period = shortest.unwrap_or(entry.period);
        entry.every = random.pick(&REPETITION_PATTERNS[..2]);
        entry.size = 8;
    }
    messages
}

/// Full copies, each period twice the one before: a window takes part of what
/// the entries before it leave, and what is left comes seldom.
fn messages_with_doubling_periods(random: &mut Random) -> Messages {
    let count = random.between(2, 4);
    let mut messages = random_messages_of_count(random, count);
    let (window, mut period) = random.pick(&[(480, 64), (480, 64), (960, 128)]);
    messages.window = window;
    for entry in &mut messages.entries[..count as usize] {
        *entry = Schedule {
            period,
            every: 2,
            size: 8,
        };
        period *= 2;
    }
    messages
}

/// Listed messages, most often of a special kind.
fn random_special_messages(random: &mut Random) -> Messages {
    match random.below(9) {
        0 => random_listed_messages(random),
        1 => messages_with_long_periods(random),
        2 => random_until(random, windows_overlap),
        3 => random_until(random, window_fills_period),
        4 => random_until(random, window_reaches_over_zero),
        5 => messages_in_a_row(random),
        6 => messages_with_doubling_periods(random),
        _ => messages_leaving_little(random),
    }
}

/// Messages for a cell; off the anchor, where they change nothing, less often.
pub fn random_messages(random: &mut Random, carrier: u64) -> Messages {
    let share = if carrier == 0 { 60 } else { 20 };
    if random.chance(share) {
        random_special_messages(random)
    } else {
        random_messages_of_count(random, 0)
    }
}

/// Number 18: messages that leave nothing usable of the cell.
pub fn messages_taking_all(random: &mut Random, cell: &Cell) -> Messages {
    let mut cell = cell.clone();
    for _ in 0..6 {
        cell.messages = messages_leaving_little(random);
        if cell.accept().is_err() {
            return cell.messages;
        }
    }
    // Two windows of 640 ms in 64 frames, both open all the time: of each two
    // frames at most 15 subframes are free, and 16 are wanted.
    let count = random.between(2, 4);
    let mut messages = random_messages_of_count(random, count);
    messages.window = 640;
    for entry in &mut messages.entries[..count as usize] {
        *entry = Schedule {
            period: 64,
            every: 2,
            size: 8,
        };
    }
    messages
}

/// Number 21: a number not listed, a fifth schedule, or a window longer than its T.
pub fn unlisted_messages(random: &mut Random) -> Messages {
    let mut messages = match random.chance(70) {
        true => random_listed_messages(random),
        false => random_messages_of_count(random, 0),
    };
    match random.below(10) {
        0 | 1 => messages.window = random_unlisted(random, &UNLISTED_WINDOW_LENGTHS, 1600),
        2 => messages.offset = random_above(random, LARGEST_OFFSET),
        3 => messages.count = random_above(random, 4),
        _ => unlist_an_entry(random, &mut messages),
    }
    messages
}

/// Windows beside the listed ones, in milliseconds and in frames.
const UNLISTED_WINDOW_LENGTHS: [u64; 12] =
    [0, 1, 10, 16, 80, 159, 161, 800, 1120, 1440, 1599, 1920];

/// One number of an entry that isn't listed, or its period too short.
fn unlist_an_entry(random: &mut Random, messages: &mut Messages) {
    if messages.count == 0 {
        *messages = random_messages_of_count(random, 1);
    }
    let at = random.below(messages.count) as usize;
    let entry = &mut messages.entries[at];
    match random.below(4) {
        0 => entry.period = random_unlisted(random, &[0, 1, 32, 63, 65, 96, 160, 1000, 8192], 4096),
        1 => entry.every = random_unlisted(random, &[0, 1, 3, 6, 15, 17, 32], 16),
        2 => entry.size = random_unlisted(random, &[0, 1, 3, 4, 7, 9, 16], 8),
        _ => {
            let (window, period) = random.pick(&[(960, 64), (1280, 64), (1600, 64), (1600, 128)]);
            messages.window = window;
            entry.period = period;
        }
    }
}

/// The words that set messages; entries that aren't read are given now and then.
pub fn message_words(random: &mut Random, messages: &Messages) -> Vec<Word> {
    let mut words = vec![
        ("siwindow", messages.window.to_string()),
        ("sioffset", messages.offset.to_string()),
        ("messages", messages.count.to_string()),
    ];
    for (at, name) in NAMES.into_iter().enumerate() {
        if (at as u64) < messages.count || random.chance(25) {
            let Schedule {
                period,
                every,
                size,
            } = messages.entries[at];
            words.push((name, format!("{period},{every},{size}")));
        }
    }
    words
}

/// A subframe near the begin or the end of a window or a copy, below three
/// periods; none without messages.
pub fn subframe_near_window(random: &mut Random, messages: &Messages) -> Option<u64> {
    if messages.count == 0 {
        return None;
    }
    let entry = random.below(messages.count) as usize;
    let window = random.pick(&messages.windows(entry));
    let every = messages.entries[entry].every;
    let at = match random.below(4) {
        0 => window.start,
        1 => window.end,
        2 => window.start + 10 * every * random.below(messages.window_frames().div_ceil(every)),
        _ => random.between(window.start, window.end),
    };
    let turns = random.below(2);
    Some(MESSAGE_PERIOD * turns + (at + random.below(12)).saturating_sub(6))
}
