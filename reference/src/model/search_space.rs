//! The UE-specific search space: where control may start, and the candidates
//! from there on (02, "L6"; TS 36.213 clause 16.6).

use super::accepted_cell::AcceptedCell;
use super::downlink::{is_listed_power, usable_from, LARGEST_N};
use super::refusal::{refuse, Refusal};

/// Subframes of a hyperframe.
pub const HYPERFRAME: u64 = 10_240;

/// Twice G by field, since the first G is 1.5.
const DOUBLED_G: [u64; 8] = [3, 4, 8, 16, 32, 64, 96, 128];

/// A search space, and the subframe n from which a start is looked for; g and
/// alpha, the offset, are fields.
#[derive(Clone, Copy, Debug, Default, PartialEq, Eq)]
pub struct SearchSpace {
    pub n: u64,
    pub rmax: u64,
    pub g: u64,
    pub alpha: u64,
}

/// Usable subframes in which one control message may be sent, r of them.
#[derive(Clone, Copy, Debug, Default, PartialEq, Eq)]
pub struct Candidate {
    pub first: u64,
    pub r: u64,
    /// The n of the grant that this control orders.
    pub last: u64,
}

/// A start and all candidates from there on, by first subframe, then R.
#[derive(Clone, Debug, Default, PartialEq, Eq)]
pub struct StartAndCandidates {
    pub start: u64,
    pub candidates: Vec<Candidate>,
}

impl SearchSpace {
    /// 2T, of listed numbers: T itself may have a half.
    fn doubled_period(&self) -> u64 {
        self.rmax * DOUBLED_G[self.g as usize]
    }

    /// T, which is whole wherever it is accepted.
    pub fn period(&self) -> u64 {
        self.doubled_period() / 2
    }

    /// The offset's part of T, rounded down: alpha eighths of it.
    pub fn offset_subframes(&self) -> u64 {
        self.alpha * self.doubled_period() / 16
    }

    /// The numbers of its own, in the list's order; the cell's come before.
    pub fn judge(&self) -> Result<(), Refusal> {
        refuse(9, self.n > LARGEST_N)?;
        refuse(10, self.g > 7 || self.alpha > 3)?;
        refuse(12, !is_listed_power(self.rmax))?;
        refuse(22, self.doubled_period() < 2 * 4)?;
        refuse(23, self.offset_subframes() >= HYPERFRAME)
    }

    /// Is subframe t a start, usable or not?
    pub fn starts_at(&self, t: u64) -> bool {
        t % HYPERFRAME % self.period() == self.offset_subframes()
    }

    /// The first start not before n, found by testing every subframe.
    pub fn first_start(&self) -> u64 {
        let mut t = self.n;
        while !self.starts_at(t) {
            t += 1;
        }
        t
    }

    /// The numbers of copies, R, that a candidate may have.
    fn candidate_copies(&self) -> Vec<u64> {
        let rmax = self.rmax;
        match rmax {
            8.. => vec![rmax / 8, rmax / 4, rmax / 2, rmax],
            _ => [1, 2, 4].into_iter().filter(|&r| r <= rmax).collect(),
        }
    }

    /// Judge it in an accepted cell, then list the candidates. For each R they
    /// follow each other: at the first usable subframe from the start on, and
    /// at every R-th after it.
    pub fn list(&self, cell: &AcceptedCell) -> Result<StartAndCandidates, Refusal> {
        self.judge()?;
        let start = self.first_start();
        let usable = usable_from(cell, start, 0, self.rmax);
        let mut candidates = Vec::new();
        for r in self.candidate_copies() {
            let rows = usable.chunks(r as usize);
            candidates.extend(rows.map(|row| Candidate {
                first: row[0],
                r,
                last: row[row.len() - 1],
            }));
        }
        candidates.sort_by_key(|candidate| (candidate.first, candidate.r));
        Ok(StartAndCandidates { start, candidates })
    }
}
