//! NPDSCH and NPDCCH.

use crate::cell::{Cause, Cell, Laid};
use crate::numbers;
use crate::refusal::{accepted, Refusal};
use crate::Found;

/// An NPDSCH grant that ends in subframe n.
#[derive(Clone, Copy, Debug, Default, PartialEq, Eq)]
pub struct NpdschGrant {
    /// 0 to 2^30 - 1.
    pub n: u64,
    /// Field, 0 to 7.
    pub delay: u64,
    /// The number itself: a power of two, 1 to 2048.
    pub rmax: u64,
    /// Field, 0 to 7: 1, 2, 3, 4, 5, 6, 8, 10.
    pub subframes: u64,
    /// Field, 0 to 15: 1 to 2048.
    pub copies: u64,
}

impl NpdschGrant {
    pub(crate) fn numbers(&self) -> numbers::DownGrant {
        [self.n, self.delay, self.rmax, self.subframes, self.copies]
    }
}

/// An NPDCCH that is sent r times from subframe n on.
#[derive(Clone, Copy, Debug, Default, PartialEq, Eq)]
pub struct NpdcchGrant {
    /// 0 to 2^30 - 1.
    pub n: u64,
    /// The number itself: a power of two, 1 to 2048.
    pub r: u64,
    /// 0: one NCCE, 1: both.
    pub format: u64,
    /// 0 or 1, of format 1 0.
    pub ncce: u64,
}

impl NpdcchGrant {
    fn numbers(&self) -> numbers::ControlGrant {
        [self.n, self.r, self.format, self.ncce]
    }
}

/// First and last subframe, both sent; how many copies and places.
#[derive(Clone, Copy, Debug, PartialEq, Eq)]
#[allow(missing_docs)]
pub struct DownlinkPlan {
    pub first: u64,
    pub last: u64,
    pub copies: u64,
    pub places: u64,
}

/// A place, and the symbol of the codeword there.
#[derive(Clone, Copy, Debug, PartialEq, Eq)]
#[allow(missing_docs)]
pub struct DownlinkPlace {
    pub t: u64,
    pub slot: u64,
    pub l: u64,
    pub k: u64,
    pub symbol: u64,
}

impl DownlinkPlace {
    pub(crate) fn of([_, t, slot, l, k, symbol]: [u64; 6]) -> DownlinkPlace {
        DownlinkPlace { t, slot, l, k, symbol }
    }
}

/// What stands at a place of the downlink.
#[derive(Clone, Copy, Debug, PartialEq, Eq)]
pub struct DownlinkFound {
    /// What it is.
    pub found: Found,
    /// Why the grant skips the subframe, if it lies between the first and the last one sent and is skipped.
    pub skipped: Option<Cause>,
}

macro_rules! grant {
    ($grant:ident $walk:ident $record:literal $plan:ident $forward:ident $backward:ident $step:ident
        $forward_plain:ident $step_plain:ident) => {
        impl $grant {
            /// First and last subframe, copies and places.
            pub fn plan(&self, cell: &Cell) -> Result<DownlinkPlan, Refusal> {
                let mut a = [0; 5];
                let c = cell.numbers();
                accepted(numbers::$plan(c.get(), cell.anchor_bitmap, cell.non_anchor_bitmap, &self.numbers(), &mut a))?;
                let [_, first, last, copies, places] = a;
                Ok(DownlinkPlan { first, last, copies, places })
            }

            /// The place of a position, counted from 0 in time order and then element order.
            pub fn forward(&self, cell: &Cell, position: u64) -> Result<DownlinkPlace, Refusal> {
                let mut a = [0; 6];
                let c = cell.numbers();
                accepted(numbers::$forward(
                    c.get(), cell.anchor_bitmap, cell.non_anchor_bitmap, &self.numbers(), position, &mut a,
                ))?;
                Ok(DownlinkPlace::of(a))
            }

            /// The same by the plain engine, for acceptance tests: one subframe at a time, with none of the quick search.
            pub fn forward_plain(&self, cell: &Cell, position: u64) -> Result<DownlinkPlace, Refusal> {
                let mut a = [0; 6];
                let c = cell.numbers();
                accepted(numbers::$forward_plain(
                    c.get(), cell.anchor_bitmap, cell.non_anchor_bitmap, &self.numbers(), position, &mut a,
                ))?;
                Ok(DownlinkPlace::of(a))
            }

            /// What stands at symbol l and subcarrier k of a slot of subframe t, any t.
            pub fn backward(&self, cell: &Cell, t: u64, slot: u64, l: u64, k: u64) -> Result<DownlinkFound, Refusal> {
                let mut a = [0; 6];
                let c = cell.numbers();
                accepted(numbers::$backward(
                    c.get(), cell.anchor_bitmap, cell.non_anchor_bitmap, &self.numbers(), t, slot, l, k, &mut a,
                ))?;
                let [no, ours, symbol, position, kind, cause] = a;
                Ok(DownlinkFound { found: Found::of([no, ours, symbol, position, kind]), skipped: Cause::of(cause) })
            }
        }

        /// The places of a grant one after the other.
        #[derive(Clone, Copy, Debug, Default, PartialEq, Eq)]
        pub struct $walk<'a> {
            /// The position of the next step, 0 at first.
            pub position: u64,
            /// The cell.
            pub cell: Cell<'a>,
            /// The grant.
            pub grant: $grant,
        }

        impl $walk<'_> {
            /// The record on numbers: the position, the cell's eight, the grant's, then the messages'.
            fn numbers(&self) -> Laid<29> {
                let mut first = [0; $record];
                first[0] = self.position;
                first[1..9].copy_from_slice(&self.cell.eight());
                first[9..].copy_from_slice(&self.grant.numbers());
                Laid::new(&first, self.cell.messages)
            }

            /// What forward answers at the position, which moves on; none at the end. A refused step moves nothing.
            pub fn step(&mut self) -> Result<Option<DownlinkPlace>, Refusal> {
                self.step_by(numbers::$step)
            }

            /// The same by the plain engine, for acceptance tests.
            pub fn step_plain(&mut self) -> Result<Option<DownlinkPlace>, Refusal> {
                self.step_by(numbers::$step_plain)
            }

            fn step_by(
                &mut self, step: impl Fn(&mut [u64], &[u8], &[u8], &mut [u64; 7]) -> u64,
            ) -> Result<Option<DownlinkPlace>, Refusal> {
                let mut a = [0; 7];
                let mut record = self.numbers();
                accepted(step(record.get_mut(), self.cell.anchor_bitmap, self.cell.non_anchor_bitmap, &mut a))?;
                self.position = record.get()[0];
                let [_, finished, t, slot, l, k, symbol] = a;
                Ok((finished == 0).then_some(DownlinkPlace { t, slot, l, k, symbol }))
            }
        }
    };
}

grant! { NpdschGrant NpdschWalk 14 plan_down forward_down backward_down step_down forward_down_plain step_down_plain }
grant! {
    NpdcchGrant NpdcchWalk 13 plan_control forward_control backward_control step_control forward_control_plain step_control_plain
}
