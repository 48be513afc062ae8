//! The listing of a grant: what it sends, in order of time, and the elements
//! that each transmitted subframe or slot uses (01, "Questions").

use super::accepted_cell::AcceptedCell;
use super::elements::Element;
use super::refusal::{refuse, Refusal};
use std::rc::Rc;

/// A grant, listed. A unit is a downlink subframe or an uplink slot.
#[derive(Clone, Debug)]
pub struct Listing {
    /// An uplink grant and a broadcast have no cell.
    pub cell: Option<Rc<AcceptedCell>>,
    /// The number of copies, R.
    pub copies: u64,
    /// Codeword subframes or slots, N.
    pub codeword_units: u64,
    /// Each transmitted unit's absolute number, in order of time.
    pub sent: Vec<u64>,
    /// The codeword unit that each transmitted unit carries.
    pub carries: Vec<u64>,
    /// The elements that a transmitted unit uses, in order.
    pub elements: Vec<Element>,
}

/// A place of the grant and the symbol sent there.
#[derive(Clone, Copy, Debug, Default, PartialEq, Eq, Hash)]
pub struct Place {
    pub unit: u64,
    pub element: Element,
    pub symbol: u64,
}

impl Listing {
    /// Elements used in each unit.
    pub fn elements_per_unit(&self) -> u64 {
        self.elements.len() as u64
    }

    /// The codeword's symbols.
    pub fn codeword_symbols(&self) -> u64 {
        self.codeword_units * self.elements_per_unit()
    }

    /// The grant's places.
    pub fn place_count(&self) -> u64 {
        self.sent.len() as u64 * self.elements_per_unit()
    }

    pub fn first(&self) -> u64 {
        self.sent[0]
    }

    pub fn last(&self) -> u64 {
        self.sent[self.sent.len() - 1]
    }

    /// The place and symbol of position p; past the end is 14.
    pub fn forward(&self, p: u64) -> Result<Place, Refusal> {
        refuse(14, p >= self.place_count())?;
        let i = (p / self.elements_per_unit()) as usize;
        let e = p % self.elements_per_unit();
        Ok(Place {
            unit: self.sent[i],
            element: self.elements[e as usize],
            symbol: self.carries[i] * self.elements_per_unit() + e,
        })
    }

    /// i of a transmitted unit, found by scanning.
    pub fn number_of_unit(&self, unit: u64) -> Option<u64> {
        let i = self.sent.iter().position(|&s| s == unit)?;
        Some(i as u64)
    }

    /// The number of an element among those used, found by scanning.
    pub fn number_of_element(&self, element: Element) -> Option<u64> {
        let e = self.elements.iter().position(|&x| x == element)?;
        Some(e as u64)
    }
}

/// The copy order of both links: passes of m copies, each pass sending
/// group after group of g units, every group m times before the next.
pub fn copy_order(copies: u64, units: u64, m: u64, g: u64) -> Vec<u64> {
    let mut order = Vec::new();
    for _pass in 0..copies / m {
        for group in 0..units / g {
            for _copy in 0..m {
                for within in 0..g {
                    order.push(group * g + within);
                }
            }
        }
    }
    order
}
