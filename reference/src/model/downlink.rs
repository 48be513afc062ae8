//! Downlink grants: NPDSCH and NPDCCH (01, "Downlink grants").

use super::accepted_cell::AcceptedCell;
use super::elements::{self, Element};
use super::listing::{copy_order, Listing};
use super::refusal::{refuse, Refusal};
use std::rc::Rc;

/// The largest n, for all kinds of grant.
pub const LARGEST_N: u64 = (1 << 30) - 1;

/// Subframes of a downlink codeword, and units of an uplink one, by field.
pub const SUBFRAMES: [u64; 8] = [1, 2, 3, 4, 5, 6, 8, 10];

/// Copies of an NPDSCH by field.
pub const COPIES: [u64; 16] = [
    1, 2, 4, 8, 16, 32, 64, 128, 192, 256, 384, 512, 768, 1024, 1536, 2048,
];

const DELAY_BELOW_128: [u64; 8] = [0, 4, 8, 12, 16, 32, 64, 128];
const DELAY_FROM_128: [u64; 8] = [0, 16, 32, 64, 128, 256, 512, 1024];

/// An NPDSCH grant that ends in subframe n; delay, subframes and copies are fields.
#[derive(Clone, Copy, Debug, Default, PartialEq, Eq)]
pub struct Npdsch {
    pub n: u64,
    pub delay: u64,
    pub rmax: u64,
    pub subframes: u64,
    pub copies: u64,
}

/// An NPDCCH from subframe n on; r is the number of copies itself.
#[derive(Clone, Copy, Debug, Default, PartialEq, Eq)]
pub struct Npdcch {
    pub n: u64,
    pub r: u64,
    pub format: u64,
    pub ncce: u64,
}

/// Rmax and NPDCCH copies: a power of two, 1 to 2048.
pub fn is_listed_power(x: u64) -> bool {
    (0..=11).any(|power| x == 1 << power)
}

/// The usable subframes from `from` on, the first `skip` of them left out.
pub fn usable_from(cell: &AcceptedCell, from: u64, skip: u64, count: u64) -> Vec<u64> {
    let mut list = Vec::new();
    let mut skipped = 0;
    let mut t = from;
    while (list.len() as u64) < count {
        if cell.usable(t) {
            if skipped < skip {
                skipped += 1;
            } else {
                list.push(t);
            }
        }
        t += 1;
    }
    list
}

impl Npdsch {
    fn judge(&self) -> Result<(), Refusal> {
        refuse(9, self.n > LARGEST_N)?;
        refuse(10, self.delay > 7 || self.subframes > 7 || self.copies > 15)?;
        refuse(12, !is_listed_power(self.rmax))
    }

    fn delay_number(&self) -> u64 {
        let row = if self.rmax < 128 {
            DELAY_BELOW_128
        } else {
            DELAY_FROM_128
        };
        row[self.delay as usize]
    }

    /// Judge the grant in an accepted cell, then list what is sent.
    pub fn list(&self, cell: Rc<AcceptedCell>) -> Result<Listing, Refusal> {
        self.judge()?;
        let copies = COPIES[self.copies as usize];
        let subframes = SUBFRAMES[self.subframes as usize];
        let m = copies.min(4);
        Ok(Listing {
            copies,
            codeword_units: subframes,
            sent: usable_from(&cell, self.n + 5, self.delay_number(), copies * subframes),
            carries: copy_order(copies, subframes, m, 1),
            elements: elements::eligible_elements(&cell.cell.layout()),
            cell: Some(cell),
        })
    }
}

impl Npdcch {
    fn judge(&self) -> Result<(), Refusal> {
        refuse(9, self.n > LARGEST_N)?;
        refuse(10, self.format > 1 || self.ncce > 1)?;
        refuse(10, self.format == 1 && self.ncce == 1)?;
        refuse(12, !is_listed_power(self.r))
    }

    /// Format 0 uses one NCCE (0: k 0 to 5; 1: k 6 to 11), format 1 both.
    fn uses(&self, e: Element) -> bool {
        match (self.format, self.ncce) {
            (0, 0) => e.k <= 5,
            (0, _) => e.k >= 6,
            _ => true,
        }
    }

    /// Judge the grant in an accepted cell, then list what is sent: each
    /// subframe carries the whole codeword.
    pub fn list(&self, cell: Rc<AcceptedCell>) -> Result<Listing, Refusal> {
        self.judge()?;
        let mut elements = elements::eligible_elements(&cell.cell.layout());
        elements.retain(|&e| self.uses(e));
        Ok(Listing {
            copies: self.r,
            codeword_units: 1,
            sent: usable_from(&cell, self.n, 0, self.r),
            carries: vec![0; self.r as usize],
            elements,
            cell: Some(cell),
        })
    }
}
