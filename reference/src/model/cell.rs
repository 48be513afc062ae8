//! The cell: its numbers, its bitmap, and what the anchor takes (01, "The cell"
//! and "Usable subframes").

use super::elements::Layout;
use super::refusal::{refuse, Refusal};
use super::system_information::Messages;

/// The subframes after which what the anchor takes and the bitmap repeat.
pub const ANCHOR_PERIOD: u64 = 2560;

/// Why a subframe isn't usable; the first that holds is named.
#[derive(Clone, Copy, Debug, PartialEq, Eq)]
pub enum Cause {
    Npbch,
    Npss,
    Nsss,
    Sib1,
    /// A system information message.
    Message,
    Bitmap,
}

impl Cause {
    pub const ALL: [Cause; 6] = [
        Cause::Npbch,
        Cause::Npss,
        Cause::Nsss,
        Cause::Sib1,
        Cause::Message,
        Cause::Bitmap,
    ];

    pub fn word(self) -> &'static str {
        match self {
            Cause::Npbch => "npbch",
            Cause::Npss => "npss",
            Cause::Nsss => "nsss",
            Cause::Sib1 => "sib1",
            Cause::Message => "message",
            Cause::Bitmap => "bitmap",
        }
    }
}

/// The numbers of a cell, the two lent bitmap buffers and the messages.
#[derive(Clone, Debug, Default, PartialEq, Eq)]
pub struct Cell {
    pub mode: u64,
    pub carrier: u64,
    pub identity: u64,
    pub nports: u64,
    pub cports: u64,
    pub control: u64,
    pub sib1: u64,
    pub bits: u64,
    pub anchor: Vec<u8>,
    pub other: Vec<u8>,
    pub messages: Messages,
}

impl Cell {
    /// Numbers 1 to 7, with 24 after 5.
    pub fn judge_numbers(&self) -> Result<(), Refusal> {
        refuse(1, self.mode > 3 || self.carrier > 1)?;
        refuse(2, self.identity > 503)?;
        refuse(3, self.nports != 1 && self.nports != 2)?;
        refuse(4, !self.cell_ports_listed())?;
        refuse(5, !self.control_region_listed())?;
        refuse(24, self.same_identity() && self.cports != self.nports)?;
        refuse(6, self.sib1 > 11)?;
        refuse(7, self.bitmap_wrong())
    }

    /// Modes 0 and 1 lie inside an LTE carrier.
    pub fn in_band(&self) -> bool {
        self.mode <= 1
    }

    /// In mode 0 the LTE cell has our identity, so a receiver takes the port
    /// numbers of both as equal (02, "L7"; TS 36.211 clause 10.2.6.2).
    pub fn same_identity(&self) -> bool {
        self.mode == 0
    }

    fn cell_ports_listed(&self) -> bool {
        if self.in_band() {
            matches!(self.cports, 1 | 2 | 4)
        } else {
            self.cports == 0
        }
    }

    fn control_region_listed(&self) -> bool {
        if self.in_band() {
            matches!(self.control, 1..=3)
        } else {
            self.control == 0
        }
    }

    /// The buffer of the cell's own carrier; the other one isn't read.
    pub fn own_buffer(&self) -> &[u8] {
        if self.carrier == 0 {
            &self.anchor
        } else {
            &self.other
        }
    }

    /// How many bytes hold the bitmap: 0, 2 or 5.
    pub fn bitmap_bytes(&self) -> usize {
        match self.bits {
            10 => 2,
            40 => 5,
            _ => 0,
        }
    }

    fn bitmap_wrong(&self) -> bool {
        if !matches!(self.bits, 0 | 10 | 40) {
            return true;
        }
        let own = self.own_buffer();
        if own.len() < self.bitmap_bytes() {
            return true;
        }
        self.bits == 10 && own[1] & 0b0011_1111 != 0
    }

    /// Bit t mod 10 or t mod 40 allows subframe t; length 0 allows all.
    pub fn bitmap_allows(&self, t: u64) -> bool {
        if self.bits == 0 {
            return true;
        }
        let bit = (t % self.bits) as usize;
        let byte = self.own_buffer()[bit / 8];
        (byte >> (7 - bit % 8)) & 1 == 1
    }

    /// The layout of the cell's grants. Both references use v in all modes.
    pub fn layout(&self) -> Layout {
        Layout {
            v: self.identity % 6,
            nports: self.nports,
            cports: self.cports,
            control: self.control,
        }
    }

    /// How often SIB1 is sent in 2,560 subframes.
    pub fn sib1_copies(&self) -> u64 {
        match self.sib1 % 3 {
            0 => 4,
            1 => 8,
            _ => 16,
        }
    }

    /// The first frame of SIB1.
    pub fn sib1_first_frame(&self) -> u64 {
        match self.sib1_copies() {
            4 => 16 * (self.identity % 4),
            8 => 16 * (self.identity % 2),
            _ => self.identity % 2,
        }
    }

    /// Does SIB1 take subframe 4 of this frame?
    pub fn sib1_in_frame(&self, frame: u64) -> bool {
        let span = (256 / self.sib1_copies()) as i64;
        let after = frame as i64 - self.sib1_first_frame() as i64;
        let rest = after.rem_euclid(span);
        rest % 2 == 0 && rest < 16
    }

    /// What the anchor takes subframe t for (TS 36.213 clause 16.4), none off
    /// the anchor.
    pub fn anchor_cause(&self, t: u64) -> Option<Cause> {
        if self.carrier != 0 {
            return None;
        }
        let frame = (t / 10) % 1024;
        match t % 10 {
            0 => Some(Cause::Npbch),
            5 => Some(Cause::Npss),
            9 if frame.is_multiple_of(2) => Some(Cause::Nsss),
            4 if self.sib1_in_frame(frame) => Some(Cause::Sib1),
            _ => None,
        }
    }
}
