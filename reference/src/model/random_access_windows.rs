//! Random access windows, which push uplink slots aside (02, "L4"; TS 36.211
//! clause 10.1.3.6).

use super::refusal::{refuse, Refusal};
use super::uplink_slots::{group_milliseconds, slots_in_group, SlotUse};
use std::ops::Range;

/// Milliseconds after which all windows repeat: the longest period, which
/// every other one divides.
pub const WINDOW_PERIOD: u64 = 2560;

/// Units of a window's length in a millisecond.
pub const UNITS_IN_MILLISECOND: u64 = 30720;

/// Tones of a window, at 3.75 kHz.
pub const WINDOW_TONES: u64 = 12;

pub const PERIODS: [u64; 7] = [40, 80, 160, 320, 640, 1280, 2560];
pub const STARTS: [u64; 8] = [8, 16, 32, 64, 128, 256, 512, 1024];

/// The length of one repetition of preamble formats 0 and 1; 1 to 64
/// repetitions, a power of two.
pub const FORMATS: [u64; 2] = [172_032, 196_608];
pub const REPETITIONS: [u64; 7] = [1, 2, 4, 8, 16, 32, 64];

/// One entry: windows begin at every t equal to the start modulo the period,
/// below 0 too.
#[derive(Clone, Copy, Debug, Default, PartialEq, Eq)]
pub struct Window {
    /// In milliseconds.
    pub period: u64,
    /// In milliseconds.
    pub start: u64,
    /// In units of 1/30720 ms.
    pub length: u64,
    /// The first of twelve tones at 3.75 kHz.
    pub tone: u64,
}

/// A count of windows and their entries; those past the count aren't read.
#[derive(Clone, Copy, Debug, Default, PartialEq, Eq)]
pub struct Windows {
    pub count: u64,
    pub entries: [Window; 4],
}

impl Window {
    fn is_listed(&self) -> bool {
        let length_of = |format: u64| REPETITIONS.map(|r| r * format).contains(&self.length);
        PERIODS.contains(&self.period)
            && STARTS.contains(&self.start)
            && FORMATS.into_iter().any(length_of)
            && self.tone <= 48 - WINDOW_TONES
    }

    /// Does it take one of these tones of 3.75 kHz?
    fn overlaps_tones(&self, tones: &Range<u64>) -> bool {
        self.tone < tones.end && tones.start < self.tone + WINDOW_TONES
    }

    /// Does a window overlap the milliseconds in time? Meeting end to start is
    /// no overlap. Of all that begin before their end, the last one ends last.
    pub fn overlaps_time(&self, time: &Range<u64>) -> bool {
        let (period, start) = (self.period as i64, self.start as i64);
        let last = time.end as i64 - 1;
        let begin = last - (last - start).rem_euclid(period);
        let units = UNITS_IN_MILLISECOND as i64;
        begin * units + self.length as i64 > time.start as i64 * units
    }
}

/// The groups of one period that no window touches, by the slots' time.
#[derive(Clone, Debug, PartialEq, Eq)]
pub struct FreeGroups {
    spacing: u64,
    free: Vec<bool>,
}

impl Windows {
    /// The entries up to the count.
    pub fn entries_in_use(&self) -> &[Window] {
        &self.entries[..self.count as usize]
    }

    /// Numbers 19 and 20, then the groups that are free on the granted tones.
    pub fn free_groups(&self, slot_use: &SlotUse) -> Result<FreeGroups, Refusal> {
        refuse(19, self.count > 4)?;
        refuse(19, !self.entries_in_use().iter().all(Window::is_listed))?;
        let groups = self.find_free_groups(slot_use);
        refuse(20, groups.free_count() == 0)?;
        Ok(groups)
    }

    fn find_free_groups(&self, slot_use: &SlotUse) -> FreeGroups {
        let mut windows = self.entries_in_use().to_vec();
        windows.retain(|w| w.overlaps_tones(&slot_use.tones_at_3_75()));
        let long = group_milliseconds(slot_use.spacing);
        let begins = (0..WINDOW_PERIOD).step_by(long as usize);
        let is_free = |begin| {
            !windows
                .iter()
                .any(|w| w.overlaps_time(&(begin..begin + long)))
        };
        FreeGroups {
            spacing: slot_use.spacing,
            free: begins.map(is_free).collect(),
        }
    }
}

impl FreeGroups {
    /// Free groups in a period.
    pub fn free_count(&self) -> u64 {
        self.free.iter().filter(|&&free| free).count() as u64
    }

    /// Groups in a period, free or not.
    pub fn group_count(&self) -> u64 {
        self.free.len() as u64
    }

    /// Is the group that begins with this slot free?
    pub fn is_free(&self, slot: u64) -> bool {
        let group = slot / slots_in_group(self.spacing);
        self.free[(group % self.group_count()) as usize]
    }
}
