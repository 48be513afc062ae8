//! A grant of any kind and the questions asked of it (01, "Questions").

use super::accepted_cell::CellCache;
use super::acknowledgement::Ack;
use super::cell::{Cause, Cell};
use super::downlink::{Npdcch, Npdsch};
use super::elements::{self, Element, SUBCARRIERS};
use super::listing::{Listing, Place};
use super::refusal::{refuse, Refusal};
use super::uplink::Npusch;
use super::uplink_slots::SlotUse;

/// One of the kinds of grant.
#[derive(Clone, Copy, Debug, PartialEq, Eq)]
pub enum Grant {
    Down(Npdsch),
    Control(Npdcch),
    Up(Npusch),
    Ack(Ack),
}

/// What plan answers; size and order are an uplink grant's only.
#[derive(Clone, Copy, Debug, Default, PartialEq, Eq)]
pub struct Plan {
    pub first: u64,
    pub last: u64,
    pub copies: u64,
    pub places: u64,
    pub size: u64,
    pub order: u64,
}

/// What backward answers.
#[derive(Clone, Copy, Debug, Default, PartialEq, Eq)]
pub struct BackwardAnswer {
    pub ours: bool,
    pub symbol: u64,
    pub p: u64,
    pub kind: u64,
    /// Of a skipped downlink subframe between first and last.
    pub cause: Option<Cause>,
}

/// What a step answers: a place, or the end of the walk.
#[derive(Clone, Copy, Debug, PartialEq, Eq)]
pub enum Step {
    At(Place),
    Finished,
}

impl Grant {
    /// Judge and list; an uplink grant has no cell.
    pub fn list(&self, cell: &Cell, cells: &mut CellCache) -> Result<Listing, Refusal> {
        match self {
            Grant::Down(g) => g.list(cells.accept(cell)?),
            Grant::Control(g) => g.list(cells.accept(cell)?),
            Grant::Up(g) => g.list(),
            Grant::Ack(g) => g.list(),
        }
    }

    /// An uplink grant has no cell.
    pub fn is_uplink(&self) -> bool {
        matches!(self, Grant::Up(_) | Grant::Ack(_))
    }

    /// What an accepted uplink grant uses of a slot; a downlink grant has none.
    pub fn slot_use(&self) -> Option<SlotUse> {
        match self {
            Grant::Down(_) | Grant::Control(_) => None,
            Grant::Up(g) => Some(g.slot_use()),
            Grant::Ack(g) => Some(g.slot_use()),
        }
    }

    /// Slots of a resource unit of an NPUSCH.
    pub fn slots_in_unit(&self) -> Option<u64> {
        match self {
            Grant::Up(g) => Some(g.slots_in_unit()),
            _ => None,
        }
    }

    /// The spacing of an uplink grant and the slot that it first names, from
    /// which the 256 ms and the gaps run.
    pub fn first_named_slot(&self) -> Option<(u64, u64)> {
        match self {
            Grant::Down(_) | Grant::Control(_) => None,
            Grant::Up(g) => Some((g.spacing, g.start())),
            Grant::Ack(g) => Some((g.spacing, g.start())),
        }
    }

    /// Subcarriers of an accepted grant's grid.
    pub fn subcarriers(&self) -> u64 {
        self.slot_use().map_or(SUBCARRIERS, |s| s.subcarriers())
    }

    pub fn plan(&self, listing: &Listing) -> Plan {
        let (size, order) = match self {
            Grant::Up(g) => g.size_and_order(),
            Grant::Ack(g) => g.size_and_order(),
            _ => (0, 0),
        };
        Plan {
            first: listing.first(),
            last: listing.last(),
            copies: listing.copies,
            places: listing.place_count(),
            size,
            order,
        }
    }

    /// Is the element inside the grid, whatever the subframe or uplink slot?
    fn in_grid(&self, e: Element) -> bool {
        match self.slot_use() {
            Some(slot) => slot.in_grid(e),
            None => e.in_downlink_grid(),
        }
    }

    fn reference_kind(&self, cell: &Cell, e: Element) -> u64 {
        match self.slot_use() {
            Some(slot) => slot.reference_kind(e),
            None => elements::reference_kind(&cell.layout(), e),
        }
    }

    /// Whose is this place? Kinds 1 and 2 only in what the grant sends.
    pub fn backward(
        &self,
        cell: &Cell,
        listing: &Listing,
        unit: u64,
        e: Element,
    ) -> Result<BackwardAnswer, Refusal> {
        refuse(14, !self.in_grid(e))?;
        let Some(i) = listing.number_of_unit(unit) else {
            return Ok(BackwardAnswer {
                cause: cause_of_skip(listing, unit),
                ..BackwardAnswer::default()
            });
        };
        let Some(number) = listing.number_of_element(e) else {
            let kind = self.reference_kind(cell, e);
            return Ok(BackwardAnswer {
                kind,
                ..BackwardAnswer::default()
            });
        };
        Ok(BackwardAnswer {
            ours: true,
            symbol: listing.carries[i as usize] * listing.elements_per_unit() + number,
            p: i * listing.elements_per_unit() + number,
            ..BackwardAnswer::default()
        })
    }
}

/// Why a subframe between first and last isn't sent; uplink slots have no cause.
fn cause_of_skip(listing: &Listing, unit: u64) -> Option<Cause> {
    if unit <= listing.first() || unit >= listing.last() {
        return None;
    }
    listing.cell.as_ref()?.cause(unit)
}

/// A step at p: finished at the total, 14 past it, else what forward answers.
pub fn step(listing: &Listing, p: u64) -> Result<Step, Refusal> {
    if p == listing.place_count() {
        return Ok(Step::Finished);
    }
    listing.forward(p).map(Step::At)
}
