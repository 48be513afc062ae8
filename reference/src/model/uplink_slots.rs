//! Uplink slots: where they lie in time, which of them a grant sends and what
//! it uses of each (01, "Time and grid" and "Uplink grants"; 02, "L4").

use super::elements::{Element, SYMBOLS};
use super::random_access_windows::FreeGroups;
use std::ops::Range;

/// Time is counted in half milliseconds: 256 ms of sending and postponements,
/// 40 ms empty.
const SENDING_TIME: u64 = 2 * 256;
const GAP_TIME: u64 = 2 * 40;

/// What a grant uses of each slot that it sends.
#[derive(Clone, Debug, PartialEq, Eq)]
pub struct SlotUse {
    pub spacing: u64,
    /// The granted tones.
    pub tones: Range<u64>,
    /// The symbols l that carry the reference.
    pub references: Range<u64>,
}

impl SlotUse {
    /// Subcarriers of the grid at this spacing.
    pub fn subcarriers(&self) -> u64 {
        if self.spacing == 0 {
            48
        } else {
            12
        }
    }

    /// The granted tones as tones of 3.75 kHz: a 15 kHz tone k covers 4k to 4k + 3.
    pub fn tones_at_3_75(&self) -> Range<u64> {
        if self.spacing == 0 {
            self.tones.clone()
        } else {
            4 * self.tones.start..4 * self.tones.end
        }
    }

    /// Inside the uplink grid of this spacing.
    pub fn in_grid(&self, e: Element) -> bool {
        e.l < SYMBOLS && e.k < self.subcarriers()
    }

    /// Data elements of a slot, by l, then k.
    pub fn data_elements(&self) -> Vec<Element> {
        let mut list = Vec::new();
        for l in 0..SYMBOLS {
            for k in self.tones.clone() {
                if !self.references.contains(&l) {
                    list.push(Element { slot: 0, l, k });
                }
            }
        }
        list
    }

    /// 1 at a reference symbol of the granted tones, else 0.
    pub fn reference_kind(&self, e: Element) -> u64 {
        u64::from(self.references.contains(&e.l) && self.tones.contains(&e.k))
    }
}

/// g: the slots that are sent together.
pub fn slots_in_group(spacing: u64) -> u64 {
    if spacing == 0 {
        1
    } else {
        2
    }
}

/// How long a slot lasts, in half milliseconds.
fn slot_time(spacing: u64) -> u64 {
    if spacing == 0 {
        4
    } else {
        1
    }
}

/// How long a group lasts, in milliseconds.
pub fn group_milliseconds(spacing: u64) -> u64 {
    slots_in_group(spacing) * slot_time(spacing) / 2
}

/// The subframe in which a slot begins.
pub fn first_subframe_of(spacing: u64, slot: u64) -> u64 {
    slot * slot_time(spacing) / 2
}

/// Is the slot in the 40 ms left empty after every 256 ms? Both run from the
/// slot that the grant first names.
pub fn is_in_gap(spacing: u64, first_named: u64, slot: u64) -> bool {
    let time = (slot - first_named) * slot_time(spacing);
    time % (SENDING_TIME + GAP_TIME) >= SENDING_TIME
}

/// The first slot that begins after the end of a subframe.
pub fn first_slot_after(spacing: u64, subframe: u64) -> u64 {
    let end = 2 * (subframe + 1);
    let mut slot = 2 * subframe / slot_time(spacing);
    while slot * slot_time(spacing) < end {
        slot += 1;
    }
    slot
}

/// Step group by group from the slot that the grant first names. There 256 ms
/// begin in which a group is sent if it is free and else postponed, then 40 ms
/// that are left empty, and so on.
pub fn sent_slots(spacing: u64, start: u64, count: u64, free: &FreeGroups) -> Vec<u64> {
    let mut list = Vec::new();
    let mut slot = start;
    while (list.len() as u64) < count {
        if !is_in_gap(spacing, start, slot) && free.is_free(slot) {
            list.extend(slot..slot + slots_in_group(spacing));
        }
        slot += slots_in_group(spacing);
    }
    list
}
