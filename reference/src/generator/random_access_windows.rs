//! Random access windows for a question file: any that are listed, ones that
//! overlap, that reach over t = 0, that leave little or nothing free, and ones
//! that aren't listed.

use super::random::Random;
use super::refusals::{random_above, random_unlisted};
use super::words::Word;
use crate::model::random_access_windows::{
    Window, Windows, FORMATS, PERIODS, REPETITIONS, STARTS, UNITS_IN_MILLISECOND, WINDOW_TONES,
};
use crate::model::uplink_slots::SlotUse;

const NAMES: [&str; 4] = ["w1", "w2", "w3", "w4"];

/// A first tone: most often of a window that meets the granted tones, also
/// one that just misses them.
fn random_tone(random: &mut Random, slot_use: &SlotUse) -> u64 {
    let tones = slot_use.tones_at_3_75();
    let lowest = (tones.start + 1).saturating_sub(WINDOW_TONES);
    let highest = (tones.end - 1).min(48 - WINDOW_TONES);
    match random.below(10) {
        0..=6 => random.between(lowest, highest),
        7 => random.pick(&[lowest, highest]),
        8 => random.pick(&[
            lowest.saturating_sub(1),
            (highest + 1).min(48 - WINDOW_TONES),
        ]),
        _ => random.below(48 - WINDOW_TONES + 1),
    }
}

/// A window with listed numbers.
fn random_window(random: &mut Random, slot_use: &SlotUse) -> Window {
    let most = random.between(1, 7) as usize;
    Window {
        period: random.pick(&PERIODS),
        start: random.pick(&STARTS),
        length: random.pick(&FORMATS) * random.pick(&REPETITIONS[..most]),
        tone: random_tone(random, slot_use),
    }
}

/// A window that begins below t = 0 and reaches over it.
fn random_window_over_zero(random: &mut Random, slot_use: &SlotUse) -> Window {
    loop {
        let window = random_window(random, slot_use);
        if window.overlaps_time(&(0..1)) && !window.is_longer_than_period() {
            return window;
        }
    }
}

/// A window that is longer than its period: its tones are never free.
fn random_endless_window(random: &mut Random, tone: u64) -> Window {
    loop {
        let window = Window {
            period: random.pick(&PERIODS),
            start: random.pick(&STARTS),
            length: random.pick(&FORMATS) * random.pick(&REPETITIONS),
            tone,
        };
        if window.is_longer_than_period() {
            return window;
        }
    }
}

/// The window before, one of its numbers made anew.
fn random_similar_window(random: &mut Random, slot_use: &SlotUse, before: Window) -> Window {
    let other = random_window(random, slot_use);
    match random.below(4) {
        0 => before,
        1 => Window {
            start: other.start,
            ..before
        },
        2 => Window {
            length: other.length,
            ..before
        },
        _ => Window {
            tone: other.tone,
            ..before
        },
    }
}

/// Numbers for an entry that isn't read.
fn random_unread_window(random: &mut Random) -> Window {
    let mut number = || random.pick(&[0, 1, 8, 37, 40, 48, 172_032, 1 << 32, u64::MAX]);
    Window {
        period: number(),
        start: number(),
        length: number(),
        tone: number(),
    }
}

/// So many windows; the entries that are read are set afterwards.
fn windows_of_count(random: &mut Random, count: u64) -> Windows {
    let entries = [(); 4].map(|()| random_unread_window(random));
    Windows { count, entries }
}

/// One to four listed windows.
fn random_listed_windows(random: &mut Random, slot_use: &SlotUse) -> Windows {
    let count = random.pick(&[1, 1, 1, 2, 2, 3, 4]);
    let mut windows = windows_of_count(random, count);
    let style = random.below(6);
    for at in 0..count as usize {
        windows.entries[at] = match style {
            0 => random_window_over_zero(random, slot_use),
            1 | 2 if at > 0 => random_similar_window(random, slot_use, windows.entries[at - 1]),
            3 => {
                let tone = random_tone(random, slot_use);
                random_endless_window(random, tone)
            }
            _ => random_window(random, slot_use),
        };
    }
    windows
}

/// Windows for an accepted grant of so many slots; very long scans come seldom.
pub fn random_windows(random: &mut Random, slot_use: &SlotUse, slots: u64) -> Windows {
    if random.chance(25) {
        return windows_of_count(random, 0);
    }
    let tight = random.chance(15);
    for _ in 0..40 {
        let windows = random_listed_windows(random, slot_use);
        let Ok(free) = windows.free_groups(slot_use) else {
            continue;
        };
        let steps = slots * free.group_count() / free.free_count();
        let bearable = steps < 60_000 || random.chance(1);
        if bearable && (!tight || 8 * free.free_count() < free.group_count()) {
            return windows;
        }
    }
    windows_of_count(random, 0)
}

/// Number 20: windows that together leave no group free on the granted tones.
pub fn windows_leaving_nothing_free(random: &mut Random, slot_use: &SlotUse) -> Windows {
    for _ in 0..10 {
        let count = random.between(1, 4);
        let mut windows = windows_of_count(random, count);
        for entry in &mut windows.entries[..count as usize] {
            *entry = random_window(random, slot_use);
            entry.period = random.pick(&PERIODS[..3]);
        }
        if windows.free_groups(slot_use) == Err(20) {
            return windows;
        }
    }
    let tones = slot_use.tones_at_3_75();
    let tone = tones.start.min(48 - WINDOW_TONES);
    let mut windows = random_listed_windows(random, slot_use);
    let at = random.below(windows.count) as usize;
    windows.entries[at] = random_endless_window(random, tone);
    windows
}

/// Number 19: a fifth window, a number not listed, or tones past 47.
pub fn unlisted_windows(random: &mut Random, slot_use: &SlotUse) -> Windows {
    let mut windows = random_listed_windows(random, slot_use);
    if random.chance(25) {
        windows.count = random_above(random, 4);
        return windows;
    }
    let at = random.below(windows.count) as usize;
    let entry = &mut windows.entries[at];
    match random.below(4) {
        0 => entry.period = random_unlisted(random, &[0, 20, 39, 41, 60, 240, 1024, 5120], 2560),
        1 => {
            entry.start = random_unlisted(random, &[0, 1, 4, 7, 9, 24, 40, 1000, 1025, 2048], 1024)
        }
        2 => entry.length = random_unlisted(random, &UNLISTED_LENGTHS, 12_582_912),
        _ => entry.tone = random_unlisted(random, &[37, 38, 47, 48], 36),
    }
    windows
}

/// Lengths beside the listed ones: halves, sums, 128 repetitions.
const UNLISTED_LENGTHS: [u64; 12] = [
    0, 1, 30_720, 86_016, 98_304, 172_031, 172_033, 196_607, 196_609, 516_096, 22_020_096,
    25_165_824,
];

/// The words that set windows; entries that aren't read are given now and then.
pub fn window_words(random: &mut Random, windows: &Windows) -> Vec<Word> {
    let mut words = vec![("windows", windows.count.to_string())];
    for (at, name) in NAMES.into_iter().enumerate() {
        if (at as u64) < windows.count || random.chance(25) {
            let Window {
                period,
                start,
                length,
                tone,
            } = windows.entries[at];
            words.push((name, format!("{period},{start},{length},{tone}")));
        }
    }
    words
}

impl Window {
    fn is_longer_than_period(&self) -> bool {
        self.length > self.period * UNITS_IN_MILLISECOND
    }
}
