//! The broadcast side: the places of NPBCH and of SIB1 in one period (02, "L9";
//! TS 36.211 clauses 10.2.4.4 and 10.2.3.4, TS 36.213 clause 16.4.1).

use super::accepted_cell::AcceptedCell;
use super::cell::Cell;
use super::elements::{self, Element, Layout};
use super::grant::BackwardAnswer;
use super::listing::{Listing, Place};
use super::refusal::{refuse, Refusal};

/// Subframes of a frame.
const FRAME: u64 = 10;

/// A channel that the base broadcasts.
#[derive(Clone, Copy, Debug, PartialEq, Eq)]
pub enum Channel {
    Npbch,
    Sib1,
}

/// A subframe of the period and the part of the codeword that it carries: a
/// block of NPBCH, a codeword subframe of SIB1.
type SentSubframe = (u64, u64);

impl Channel {
    pub const ALL: [Channel; 2] = [Channel::Npbch, Channel::Sib1];

    pub fn word(self) -> &'static str {
        match self {
            Channel::Npbch => "npbch",
            Channel::Sib1 => "sib1",
        }
    }

    /// Subframes after which its places repeat: 64 or 256 frames.
    pub fn period(self) -> u64 {
        match self {
            Channel::Npbch => 64 * FRAME,
            Channel::Sib1 => 256 * FRAME,
        }
    }

    /// NPBCH is mapped as if in-band with control region 3, four cell ports and
    /// two narrowband ports, whatever the cell has; SIB1 with the cell's ports
    /// and control region 3 in-band, 0 otherwise.
    pub fn layout(self, cell: &Cell) -> Layout {
        let own = cell.layout();
        match self {
            Channel::Npbch => Layout {
                nports: 2,
                cports: 4,
                control: 3,
                ..own
            },
            Channel::Sib1 => Layout {
                control: if cell.in_band() { 3 } else { 0 },
                ..own
            },
        }
    }

    fn sent_subframes(self, cell: &Cell) -> Vec<SentSubframe> {
        match self {
            Channel::Npbch => npbch_subframes(),
            Channel::Sib1 => sib1_subframes(cell),
        }
    }

    /// How often each symbol is sent in a period.
    pub fn copies(self, cell: &Cell) -> u64 {
        match self {
            Channel::Npbch => 8,
            Channel::Sib1 => cell.sib1_copies(),
        }
    }
}

/// Subframe 0 of 64 frames; block b in frames 8b to 8b + 7.
fn npbch_subframes() -> Vec<SentSubframe> {
    let mut list = Vec::new();
    for block in 0..8 {
        for frame in 8 * block..=8 * block + 7 {
            list.push((FRAME * frame, block));
        }
    }
    list
}

/// The copies begin at equal distances in 256 frames, the first in the frame
/// that identity and copies name. Each takes subframe 4 of every other frame of
/// 16, with the 8 codeword subframes in sequence.
fn sib1_subframes(cell: &Cell) -> Vec<SentSubframe> {
    let copies = cell.sib1_copies();
    let mut list = Vec::new();
    for copy in 0..copies {
        let begin = cell.sib1_first_frame() + copy * 256 / copies;
        for subframe in 0..8 {
            list.push((FRAME * (begin + 2 * subframe) + 4, subframe));
        }
    }
    list
}

/// A channel of an anchor cell, one period of it listed.
#[derive(Clone, Debug)]
pub struct Broadcast {
    pub channel: Channel,
    pub layout: Layout,
    pub listing: Listing,
}

impl Broadcast {
    /// In an accepted cell: a non-anchor has no broadcast.
    pub fn of(channel: Channel, accepted: &AcceptedCell) -> Result<Broadcast, Refusal> {
        let cell = &accepted.cell;
        refuse(25, cell.carrier != 0)?;
        let layout = channel.layout(cell);
        let sent = channel.sent_subframes(cell);
        let listing = Listing {
            cell: None,
            copies: channel.copies(cell),
            codeword_units: 8,
            sent: sent.iter().map(|&(t, _)| t).collect(),
            carries: sent.iter().map(|&(_, part)| part).collect(),
            elements: elements::eligible_elements(&layout),
        };
        Ok(Broadcast {
            channel,
            layout,
            listing,
        })
    }

    /// The place of position p in the period from subframe 0 on.
    pub fn forward(&self, p: u64) -> Result<Place, Refusal> {
        self.listing.forward(p)
    }

    /// Whose is this place, t taken modulo the period? Kinds 1 and 2 only in
    /// the channel's own subframes.
    pub fn backward(&self, t: u64, e: Element) -> Result<BackwardAnswer, Refusal> {
        refuse(14, !e.in_downlink_grid())?;
        let listing = &self.listing;
        let Some(i) = listing.number_of_unit(t % self.channel.period()) else {
            return Ok(BackwardAnswer::default());
        };
        let Some(number) = listing.number_of_element(e) else {
            return Ok(BackwardAnswer {
                kind: elements::reference_kind(&self.layout, e),
                ..BackwardAnswer::default()
            });
        };
        Ok(BackwardAnswer {
            ours: true,
            symbol: listing.carries[i as usize] * listing.elements_per_unit() + number,
            p: i * listing.elements_per_unit() + number,
            ..BackwardAnswer::default()
        })
    }
}
