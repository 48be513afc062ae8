//! A cell, and what is asked of it alone.

use core::fmt;

use crate::numbers;
use crate::refusal::{accepted, Refusal};

/// How the narrowband lies beside a cell.
#[derive(Clone, Copy, Debug, Default, PartialEq, Eq)]
pub enum Mode {
    /// In-band, the cell's own identity.
    #[default]
    InBandSameIdentity = 0,
    /// In-band, another identity.
    InBandOtherIdentity = 1,
    /// In the guard band.
    GuardBand = 2,
    /// Standalone.
    Standalone = 3,
}

/// The carrier that is asked about.
#[derive(Clone, Copy, Debug, Default, PartialEq, Eq)]
pub enum Carrier {
    /// The anchor.
    #[default]
    Anchor = 0,
    /// A non-anchor.
    NonAnchor = 1,
}

/// One schedule of system information messages.
#[derive(Clone, Copy, Debug, Default, PartialEq, Eq)]
pub struct Schedule {
    /// Frames from window to window: 64 to 4096, a power of two.
    pub period: u64,
    /// A copy begins every 2nd, 4th, 8th or 16th frame of a window.
    pub every: u64,
    /// Subframes of a copy: 2 or 8.
    pub size: u64,
}

/// System information messages, which take subframes of an anchor.
#[derive(Clone, Copy, Debug, Default, PartialEq, Eq)]
pub struct Messages<'a> {
    /// 160, 320, 480, 640, 960, 1280 or 1600 ms.
    pub window: u64,
    /// 0 to 15 frames.
    pub offset: u64,
    /// Up to 4; a fifth is refused.
    pub schedules: &'a [Schedule],
}

impl Messages<'_> {
    fn numbers(&self) -> [u64; 15] {
        let mut to = [0; 15];
        [to[0], to[1], to[2]] = [self.window, self.offset, self.schedules.len() as u64];
        for (at, s) in to[3..].chunks_exact_mut(3).zip(self.schedules) {
            at.copy_from_slice(&[s.period, s.every, s.size]);
        }
        to
    }
}

/// A cell and what is lent with it.
#[derive(Clone, Copy, Debug, Default, PartialEq, Eq)]
pub struct Cell<'a> {
    /// How it lies.
    pub mode: Mode,
    /// The carrier that is asked about.
    pub carrier: Carrier,
    /// 0 to 503.
    pub identity: u64,
    /// 1 or 2.
    pub narrowband_ports: u64,
    /// In-band of the same identity as the narrowband ports, of another 1, 2 or 4, else 0.
    pub cell_ports: u64,
    /// 1 to 3 in-band, else 0.
    pub control_region: u64,
    /// 0 to 11.
    pub sib1_schedule: u64,
    /// In bits: 0, which allows every subframe, 10 or 40.
    pub bitmap_length: u64,
    /// The anchor's bitmap, read on the anchor alone; the first bit is the highest of byte 0.
    pub anchor_bitmap: &'a [u8],
    /// The non-anchor's bitmap, read on the non-anchor alone.
    pub non_anchor_bitmap: &'a [u8],
    /// The messages, if there are any.
    pub messages: Option<&'a Messages<'a>>,
}

/// Why a subframe is not usable: the first of these that applies.
#[derive(Clone, Copy, Debug, PartialEq, Eq)]
#[non_exhaustive]
pub enum Cause {
    /// NPBCH is sent.
    Npbch,
    /// NPSS is sent.
    Npss,
    /// NSSS is sent.
    Nsss,
    /// SIB1 is sent.
    Sib1,
    /// A system information message takes it.
    Message,
    /// The bitmap withholds it.
    Bitmap,
    /// A number that this version of the bindings does not know.
    Other(u64),
}

impl Cause {
    /// The cause of a number; of 0 there is none.
    pub(crate) fn of(number: u64) -> Option<Cause> {
        match number {
            0 => None,
            1 => Some(Cause::Npbch),
            2 => Some(Cause::Npss),
            3 => Some(Cause::Nsss),
            4 => Some(Cause::Sib1),
            5 => Some(Cause::Message),
            6 => Some(Cause::Bitmap),
            other => Some(Cause::Other(other)),
        }
    }
}

impl fmt::Display for Cause {
    /// Its name: npbch, npss, nsss, sib1, message or bitmap; unknown of any other number.
    fn fmt(&self, f: &mut fmt::Formatter) -> fmt::Result {
        f.write_str(match self {
            Cause::Npbch => "npbch",
            Cause::Npss => "npss",
            Cause::Nsss => "nsss",
            Cause::Sib1 => "sib1",
            Cause::Message => "message",
            Cause::Bitmap => "bitmap",
            Cause::Other(_) => "unknown",
        })
    }
}

/// Room for some numbers, and how many they are.
pub(crate) struct Laid<const N: usize> {
    at: [u64; N],
    count: usize,
}

impl<const N: usize> Laid<N> {
    /// The numbers that always stand, and the messages after them if there are any.
    pub(crate) fn new(first: &[u64], messages: Option<&Messages>) -> Laid<N> {
        let mut at = [0; N];
        let mut count = first.len();
        at[..count].copy_from_slice(first);
        if let Some(messages) = messages {
            at[count..count + 15].copy_from_slice(&messages.numbers());
            count += 15;
        }
        Laid { at, count }
    }

    pub(crate) fn get(&self) -> &[u64] {
        &self.at[..self.count]
    }

    pub(crate) fn get_mut(&mut self) -> &mut [u64] {
        &mut self.at[..self.count]
    }
}

impl<'a> Cell<'a> {
    /// The eight numbers that a walk begins with, too.
    pub(crate) fn eight(&self) -> [u64; 8] {
        [
            self.mode as u64, self.carrier as u64, self.identity, self.narrowband_ports, self.cell_ports, self.control_region,
            self.sib1_schedule, self.bitmap_length,
        ]
    }

    pub(crate) fn numbers(&self) -> Laid<23> {
        Laid::new(&self.eight(), self.messages)
    }

    /// Whether the cell is refused.
    pub fn judge(&self) -> Result<(), Refusal> {
        accepted(numbers::judge(self.numbers().get(), self.anchor_bitmap, self.non_anchor_bitmap))
    }

    /// The bitmap in force: the first bytes, 0, 2 or 5, of the carrier's own.
    pub fn bitmap(&self) -> Result<&'a [u8], Refusal> {
        let mut a = [0; 3];
        accepted(numbers::bitmap(self.numbers().get(), self.anchor_bitmap, self.non_anchor_bitmap, &mut a))?;
        let lent = if a[1] == 1 { self.non_anchor_bitmap } else { self.anchor_bitmap };
        Ok(&lent[..a[2] as usize])
    }

    /// How many elements of a subframe are eligible.
    pub fn count(&self) -> Result<u64, Refusal> {
        let mut a = [0; 2];
        accepted(numbers::count(self.numbers().get(), self.anchor_bitmap, self.non_anchor_bitmap, &mut a))?;
        Ok(a[1])
    }

    /// Why subframe t, any t, is not usable, or none if it is.
    pub fn cause(&self, t: u64) -> Result<Option<Cause>, Refusal> {
        let mut a = [0; 2];
        accepted(numbers::cause(self.numbers().get(), self.anchor_bitmap, self.non_anchor_bitmap, t, &mut a))?;
        Ok(Cause::of(a[1]))
    }
}
