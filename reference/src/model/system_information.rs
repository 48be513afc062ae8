//! System information messages: their schedules, and what they take of the
//! subframes that the anchor and the bitmap leave free (02, "L5"; TS 36.331).

use super::refusal::{refuse, Refusal};
use std::ops::Range;

/// The subframes after which everything repeats: the longest period, which
/// every other one divides, and 2,560 too.
pub const MESSAGE_PERIOD: u64 = 40_960;

/// Window lengths in milliseconds.
pub const WINDOW_LENGTHS: [u64; 7] = [160, 320, 480, 640, 960, 1280, 1600];
/// The largest offset, in frames.
pub const LARGEST_OFFSET: u64 = 15;
/// Periods in frames.
pub const PERIODS: [u64; 7] = [64, 128, 256, 512, 1024, 2048, 4096];
/// A copy begins at every 2nd, 4th, 8th or 16th frame of a window.
pub const REPETITION_PATTERNS: [u64; 4] = [2, 4, 8, 16];
/// Subframes of a copy.
pub const COPY_SIZES: [u64; 2] = [2, 8];

/// One entry: a message, and how it is repeated.
#[derive(Clone, Copy, Debug, Default, PartialEq, Eq)]
pub struct Schedule {
    /// T, in frames.
    pub period: u64,
    /// In frames.
    pub every: u64,
    /// In subframes.
    pub size: u64,
}

/// The windows' length and offset, a count of schedules and their entries;
/// those past the count aren't read.
#[derive(Clone, Copy, Debug, PartialEq, Eq)]
pub struct Messages {
    /// w, in milliseconds.
    pub window: u64,
    /// In frames.
    pub offset: u64,
    pub count: u64,
    pub entries: [Schedule; 4],
}

impl Default for Messages {
    fn default() -> Messages {
        Messages {
            window: 160,
            offset: 0,
            count: 0,
            entries: [Schedule::default(); 4],
        }
    }
}

impl Schedule {
    fn is_listed(&self) -> bool {
        PERIODS.contains(&self.period)
            && REPETITION_PATTERNS.contains(&self.every)
            && COPY_SIZES.contains(&self.size)
    }

    /// Sends the copies of one window, given by what is free in it. A copy begins
    /// at every such frame counted from the window's start; each, in order, takes
    /// the first subframes still free from there, and stops at the window's end.
    fn take_in_window(&self, window: &mut [bool]) {
        for begin in (0..window.len()).step_by(10 * self.every as usize) {
            let free = window[begin..].iter_mut().filter(|free| **free);
            for taken in free.take(self.size as usize) {
                *taken = false;
            }
        }
    }
}

impl Messages {
    /// The entries up to the count.
    pub fn entries_in_use(&self) -> &[Schedule] {
        &self.entries[..self.count as usize]
    }

    /// A window's frames.
    pub fn window_frames(&self) -> u64 {
        self.window / 10
    }

    /// Number 21: window, offset and count are always judged, entries up to the count.
    pub fn judge(&self) -> Result<(), Refusal> {
        refuse(21, !WINDOW_LENGTHS.contains(&self.window))?;
        refuse(21, self.offset > LARGEST_OFFSET)?;
        refuse(21, self.count > 4)?;
        for entry in self.entries_in_use() {
            refuse(21, !entry.is_listed())?;
            refuse(21, self.window_frames() > entry.period)?;
        }
        Ok(())
    }

    /// The frame, modulo the entry's period, in which its windows open;
    /// entries are counted from 0 here.
    pub fn opening_frame(&self, entry: usize) -> u64 {
        (entry as u64 * self.window_frames() + self.offset) % self.entries[entry].period
    }

    /// The windows of an entry that open in subframes 0 to 40,959.
    pub fn windows(&self, entry: usize) -> Vec<Range<u64>> {
        let period = self.entries[entry].period as usize;
        let frames = (self.opening_frame(entry)..MESSAGE_PERIOD / 10).step_by(period);
        let window = |frame| 10 * frame..10 * frame + self.window;
        frames.map(window).collect()
    }

    /// The entries in use take free subframes of a period, earlier entries first;
    /// what they take is no longer free. A window that reaches over the period's
    /// end goes on at its beginning: there lies what the window a period earlier,
    /// from before t = 0, takes.
    pub fn take_subframes(&self, free: &mut [bool]) {
        let at = |t: u64| (t % MESSAGE_PERIOD) as usize;
        for (entry, schedule) in self.entries_in_use().iter().enumerate() {
            for subframes in self.windows(entry) {
                let mut window: Vec<bool> = subframes.clone().map(|t| free[at(t)]).collect();
                schedule.take_in_window(&mut window);
                for (t, left) in subframes.zip(window) {
                    free[at(t)] = left;
                }
            }
        }
    }
}
