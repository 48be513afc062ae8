//! Acknowledgements of an NPDSCH on NPUSCH format 2 (02, "L1").

use super::listing::{copy_order, Listing};
use super::random_access_windows::Windows;
use super::refusal::{refuse, Refusal};
use super::uplink::COPIES;
use super::uplink_slots::{first_slot_after, sent_slots, slots_in_group, SlotUse};

/// The largest n: the last subframe of an NPDSCH.
pub const LARGEST_ACK_N: u64 = (1 << 31) - 1;

/// One unit of one tone.
const SLOTS_IN_UNIT: u64 = 4;

/// Delay at 15 kHz by field div 4, at 3.75 kHz by field div 8.
const DELAY_15: [u64; 4] = [13, 15, 17, 18];
const DELAY_3_75: [u64; 2] = [13, 21];

/// An acknowledgement of the NPDSCH whose last subframe is n, all but n fields,
/// and the windows that push it aside.
#[derive(Clone, Copy, Debug, Default, PartialEq, Eq)]
pub struct Ack {
    pub n: u64,
    pub spacing: u64,
    pub field: u64,
    pub copies: u64,
    pub windows: Windows,
}

impl Ack {
    fn judge(&self) -> Result<(), Refusal> {
        refuse(9, self.n > LARGEST_ACK_N)?;
        refuse(10, self.spacing > 1 || self.field > 15 || self.copies > 7)
    }

    /// What is used of each slot: one tone by field, and three symbols that carry the reference.
    pub fn slot_use(&self) -> SlotUse {
        let (tone, references) = if self.spacing == 0 {
            (38 + self.field % 8, 0..3)
        } else {
            (self.field % 4, 2..5)
        };
        SlotUse {
            spacing: self.spacing,
            tones: tone..tone + 1,
            references,
        }
    }

    fn delay(&self) -> u64 {
        if self.spacing == 0 {
            DELAY_3_75[(self.field / 8) as usize]
        } else {
            DELAY_15[(self.field / 4) as usize]
        }
    }

    /// The slot first named: the first that begins after subframe n + delay - 1.
    pub fn start(&self) -> u64 {
        first_slot_after(self.spacing, self.n + self.delay() - 1)
    }

    /// How many slots an accepted grant sends.
    pub fn slot_count(&self) -> u64 {
        COPIES[self.copies as usize] * SLOTS_IN_UNIT
    }

    /// Judge the grant, then list what is sent.
    pub fn list(&self) -> Result<Listing, Refusal> {
        self.judge()?;
        let free = self.windows.free_groups(&self.slot_use())?;
        let copies = COPIES[self.copies as usize];
        let g = slots_in_group(self.spacing);
        Ok(Listing {
            cell: None,
            copies,
            codeword_units: SLOTS_IN_UNIT,
            sent: sent_slots(self.spacing, self.start(), self.slot_count(), &free),
            carries: copy_order(copies, SLOTS_IN_UNIT, 1, g),
            elements: self.slot_use().data_elements(),
        })
    }

    /// Size in bits and modulation order.
    pub fn size_and_order(&self) -> (u64, u64) {
        (1, 1)
    }
}
