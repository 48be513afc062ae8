//! NPUSCH format 1 grants (01, "Uplink grants").

use super::downlink::{LARGEST_N, SUBFRAMES};
use super::listing::{copy_order, Listing};
use super::random_access_windows::Windows;
use super::refusal::{refuse, Refusal};
use super::uplink_slots::{first_slot_after, sent_slots, slots_in_group, SlotUse};
use std::ops::Range;

/// Copies of an NPUSCH by field.
pub const COPIES: [u64; 8] = [1, 2, 4, 8, 16, 32, 64, 128];

const DELAY: [u64; 4] = [8, 16, 32, 64];

/// Size in bits by row and unit field.
const SIZE: [[u64; 8]; 5] = [
    [16, 32, 56, 88, 120, 152, 208, 256],
    [24, 56, 88, 144, 176, 208, 256, 344],
    [32, 72, 144, 176, 208, 256, 328, 424],
    [40, 104, 176, 208, 256, 328, 440, 568],
    [56, 120, 208, 256, 328, 408, 552, 680],
];

/// Size row and modulation order of one tone, by MCS.
const ONE_TONE_ROW: [usize; 5] = [0, 2, 1, 3, 4];
const ONE_TONE_ORDER: [u64; 5] = [1, 1, 2, 2, 2];

/// An NPUSCH grant, all but n fields, and the windows that push it aside.
#[derive(Clone, Copy, Debug, Default, PartialEq, Eq)]
pub struct Npusch {
    pub n: u64,
    pub spacing: u64,
    pub subcarrier: u64,
    pub units: u64,
    pub copies: u64,
    pub delay: u64,
    pub mcs: u64,
    pub windows: Windows,
}

impl Npusch {
    fn judge(&self) -> Result<(), Refusal> {
        refuse(9, self.n > LARGEST_N)?;
        refuse(10, self.spacing > 1 || self.subcarrier > 63)?;
        refuse(10, self.units > 7 || self.copies > 7)?;
        refuse(10, self.delay > 3 || self.mcs > 15)?;
        let fields = if self.spacing == 0 { 48 } else { 19 };
        refuse(11, self.subcarrier >= fields)?;
        refuse(13, self.mcs > 4)
    }

    /// The granted tones.
    fn tones(&self) -> Range<u64> {
        let f = self.subcarrier;
        if self.spacing == 0 {
            return f..f + 1;
        }
        match f {
            0..=11 => f..f + 1,
            12..=15 => 3 * (f - 12)..3 * (f - 12) + 3,
            16..=17 => 6 * (f - 16)..6 * (f - 16) + 6,
            _ => 0..12,
        }
    }

    fn tone_count(&self) -> u64 {
        self.tones().count() as u64
    }

    /// What is used of each slot: the tones, and the symbol that carries the reference.
    pub fn slot_use(&self) -> SlotUse {
        let l = if self.spacing == 0 { 4 } else { 3 };
        SlotUse {
            spacing: self.spacing,
            tones: self.tones(),
            references: l..l + 1,
        }
    }

    /// Slots of a resource unit.
    pub fn slots_in_unit(&self) -> u64 {
        match self.tone_count() {
            1 => 16,
            3 => 8,
            6 => 4,
            _ => 2,
        }
    }

    /// The slot first named: the first that begins after the end of subframe n + delay.
    pub fn start(&self) -> u64 {
        first_slot_after(self.spacing, self.n + DELAY[self.delay as usize])
    }

    /// m: how often a group of slots is sent before the next one.
    fn repeats_in_pass(&self, copies: u64) -> u64 {
        if self.tone_count() == 1 {
            1
        } else {
            copies.div_ceil(2).min(4)
        }
    }

    /// N: the codeword's slots.
    fn codeword_slots(&self) -> u64 {
        SUBFRAMES[self.units as usize] * self.slots_in_unit()
    }

    /// How many slots an accepted grant sends.
    pub fn slot_count(&self) -> u64 {
        COPIES[self.copies as usize] * self.codeword_slots()
    }

    /// Judge the grant, then list what is sent.
    pub fn list(&self) -> Result<Listing, Refusal> {
        self.judge()?;
        let free = self.windows.free_groups(&self.slot_use())?;
        let copies = COPIES[self.copies as usize];
        let slots = self.codeword_slots();
        let g = slots_in_group(self.spacing);
        let m = self.repeats_in_pass(copies);
        Ok(Listing {
            cell: None,
            copies,
            codeword_units: slots,
            sent: sent_slots(self.spacing, self.start(), self.slot_count(), &free),
            carries: copy_order(copies, slots, m, g),
            elements: self.slot_use().data_elements(),
        })
    }

    /// Size in bits and modulation order of an accepted grant.
    pub fn size_and_order(&self) -> (u64, u64) {
        let mcs = self.mcs as usize;
        let units = self.units as usize;
        if self.tone_count() == 1 {
            (SIZE[ONE_TONE_ROW[mcs]][units], ONE_TONE_ORDER[mcs])
        } else {
            (SIZE[mcs][units], 2)
        }
    }
}
