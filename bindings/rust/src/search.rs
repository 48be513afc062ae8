//! Where NPDCCH may start.

use crate::cell::Cell;
use crate::numbers;
use crate::refusal::{accepted, Refusal};

/// A UE-specific search space of NPDCCH, asked from subframe n on.
#[derive(Clone, Copy, Debug, Default, PartialEq, Eq)]
pub struct SearchSpace {
    /// 0 to 2^30 - 1.
    pub n: u64,
    /// The number itself: a power of two, 1 to 2048.
    pub rmax: u64,
    /// Field, 0 to 7: 1.5, 2, 4, 8, 16, 32, 48, 64; the period is rmax times it, in subframes.
    pub g: u64,
    /// Field, 0 to 3: the offset is 0, 1/8, 1/4 or 3/8 of the period, rounded down.
    pub alpha: u64,
}

/// A candidate of format 1.
#[derive(Clone, Copy, Debug, Default, PartialEq, Eq)]
pub struct Candidate {
    /// The first subframe: the n of an NPDCCH grant.
    pub first: u64,
    /// How often it is sent: its r.
    pub r: u64,
    /// The last subframe: the n of the grant that it orders.
    pub last: u64,
}

/// All candidates from a start on.
#[derive(Clone, Copy, Debug, PartialEq, Eq)]
pub struct Candidates {
    /// The first start not before n, which need not be usable.
    pub start: u64,
    count: usize,
    list: [Candidate; 15],
}

impl Candidates {
    /// The candidates, 1, 3, 7 or 15, by their first subframe and then by R.
    pub fn list(&self) -> &[Candidate] {
        &self.list[..self.count]
    }
}

impl SearchSpace {
    /// The first start not before n, and all candidates from there on.
    pub fn candidates(&self, cell: &Cell) -> Result<Candidates, Refusal> {
        let mut a = [0; 48];
        let c = cell.numbers();
        let space = [self.n, self.rmax, self.g, self.alpha];
        accepted(numbers::search(c.get(), cell.anchor_bitmap, cell.non_anchor_bitmap, &space, &mut a))?;
        let mut list = [Candidate::default(); 15];
        for (to, of) in list.iter_mut().zip(a[3..].chunks_exact(3)) {
            *to = Candidate { first: of[0], r: of[1], last: of[2] };
        }
        Ok(Candidates { start: a[1], count: a[2] as usize, list })
    }
}
