//! NPUSCH format 1, and acknowledgements on format 2.

use crate::numbers;
use crate::refusal::{accepted, Refusal};
use crate::Found;

/// The distance of subcarriers.
#[derive(Clone, Copy, Debug, Default, PartialEq, Eq)]
pub enum Spacing {
    /// 3.75 kHz.
    #[default]
    Khz3_75 = 0,
    /// 15 kHz.
    Khz15 = 1,
}

/// A grant of NPUSCH format 1 that ends in subframe n.
#[derive(Clone, Copy, Debug, Default, PartialEq, Eq)]
pub struct NpuschGrant {
    /// 0 to 2^30 - 1.
    pub n: u64,
    /// The distance of subcarriers.
    pub spacing: Spacing,
    /// Field, 0 to 47 at 3.75 kHz, 0 to 18 at 15 kHz.
    pub subcarrier: u64,
    /// Field, 0 to 7: 1, 2, 3, 4, 5, 6, 8, 10 resource units.
    pub units: u64,
    /// Field, 0 to 7: 1 to 128.
    pub copies: u64,
    /// Field, 0 to 3: 8, 16, 32, 64.
    pub delay: u64,
    /// 0 to 4.
    pub mcs: u64,
}

impl NpuschGrant {
    fn numbers(&self) -> numbers::UpGrant {
        [self.n, self.spacing as u64, self.subcarrier, self.units, self.copies, self.delay, self.mcs]
    }
}

/// The acknowledgement of an NPDSCH whose last subframe is n.
#[derive(Clone, Copy, Debug, Default, PartialEq, Eq)]
pub struct AckGrant {
    /// 0 to 2^31 - 1.
    pub n: u64,
    /// The distance of subcarriers.
    pub spacing: Spacing,
    /// Of tone and delay, 0 to 15.
    pub field: u64,
    /// Field, 0 to 7: 1 to 128.
    pub copies: u64,
}

impl AckGrant {
    fn numbers(&self) -> numbers::AckGrant {
        [self.n, self.spacing as u64, self.field, self.copies]
    }
}

/// A random access window, which postpones uplink slots.
#[derive(Clone, Copy, Debug, Default, PartialEq, Eq)]
pub struct Window {
    /// 40, 80, 160, 320, 640, 1280 or 2560 ms.
    pub period: u64,
    /// 8 to 1024 ms, a power of two: windows begin at every ms equal to it modulo the period.
    pub start: u64,
    /// In 1/30720 ms: 172032 or 196608, times a power of two up to 64.
    pub length: u64,
    /// The first of 12 tones at 3.75 kHz, 0 to 36; a 15 kHz tone k covers 4k to 4k + 3.
    pub tone: u64,
}

/// The windows as numbers: a count and four windows.
fn laid(windows: &[Window]) -> [u64; 17] {
    let mut to = [0; 17];
    to[0] = windows.len() as u64;
    for (at, w) in to[1..].chunks_exact_mut(4).zip(windows) {
        at.copy_from_slice(&[w.period, w.start, w.length, w.tone]);
    }
    to
}

/// First and last slot, both sent; how many copies and places; transport block size and modulation order.
#[derive(Clone, Copy, Debug, PartialEq, Eq)]
#[allow(missing_docs)]
pub struct UplinkPlan {
    pub first: u64,
    pub last: u64,
    pub copies: u64,
    pub places: u64,
    pub size: u64,
    pub order: u64,
}

/// A place, and the symbol of the codeword there.
#[derive(Clone, Copy, Debug, PartialEq, Eq)]
#[allow(missing_docs)]
pub struct UplinkPlace {
    pub slot: u64,
    pub l: u64,
    pub k: u64,
    pub symbol: u64,
}

macro_rules! grant {
    ($grant:ident $walk:ident $record:literal
        $plan:ident $forward:ident $backward:ident $step:ident
        $plan_windows:ident $forward_windows:ident $backward_windows:ident $step_windows:ident
        $forward_plain:ident $step_plain:ident) => {
        impl $grant {
            /// First and last slot, copies, places, size and order. Beside up to 4 windows; a fifth is refused.
            pub fn plan(&self, windows: &[Window]) -> Result<UplinkPlan, Refusal> {
                let (g, mut a) = (self.numbers(), [0; 7]);
                accepted(match windows {
                    [] => numbers::$plan(&g, &mut a),
                    _ => numbers::$plan_windows(&g, &laid(windows), &mut a),
                })?;
                let [_, first, last, copies, places, size, order] = a;
                Ok(UplinkPlan { first, last, copies, places, size, order })
            }

            /// The place of a position, counted from 0 in time order and then element order.
            pub fn forward(&self, windows: &[Window], position: u64) -> Result<UplinkPlace, Refusal> {
                let (g, mut a) = (self.numbers(), [0; 5]);
                accepted(match windows {
                    [] => numbers::$forward(&g, position, &mut a),
                    _ => numbers::$forward_windows(&g, &laid(windows), position, &mut a),
                })?;
                let [_, slot, l, k, symbol] = a;
                Ok(UplinkPlace { slot, l, k, symbol })
            }

            /// The same by the plain engine, for acceptance tests: one slot at a time, with none of the quick search.
            pub fn forward_plain(&self, windows: &[Window], position: u64) -> Result<UplinkPlace, Refusal> {
                let (g, mut a) = (self.numbers(), [0; 5]);
                accepted(match windows {
                    [] => numbers::$forward_plain(&g, &[], position, &mut a),
                    _ => numbers::$forward_plain(&g, &laid(windows), position, &mut a),
                })?;
                let [_, slot, l, k, symbol] = a;
                Ok(UplinkPlace { slot, l, k, symbol })
            }

            /// What stands at symbol l and subcarrier k of a slot, any slot.
            pub fn backward(&self, windows: &[Window], slot: u64, l: u64, k: u64) -> Result<Found, Refusal> {
                let (g, mut a) = (self.numbers(), [0; 5]);
                accepted(match windows {
                    [] => numbers::$backward(&g, slot, l, k, &mut a),
                    _ => numbers::$backward_windows(&g, &laid(windows), slot, l, k, &mut a),
                })?;
                Ok(Found::of(a))
            }
        }

        /// The places of a grant one after the other.
        #[derive(Clone, Copy, Debug, Default, PartialEq, Eq)]
        pub struct $walk<'a> {
            /// The position of the next step, 0 at first.
            pub position: u64,
            /// The grant.
            pub grant: $grant,
            /// The windows that it stands beside.
            pub windows: &'a [Window],
        }

        impl $walk<'_> {
            /// What forward answers at the position, which moves on; none at the end. A refused step moves nothing.
            pub fn step(&mut self) -> Result<Option<UplinkPlace>, Refusal> {
                self.step_by(|windows, record, a| match windows {
                    [] => numbers::$step(record, a),
                    _ => numbers::$step_windows(record, &laid(windows), a),
                })
            }

            /// The same by the plain engine, for acceptance tests.
            pub fn step_plain(&mut self) -> Result<Option<UplinkPlace>, Refusal> {
                self.step_by(|windows, record, a| match windows {
                    [] => numbers::$step_plain(record, &[], a),
                    _ => numbers::$step_plain(record, &laid(windows), a),
                })
            }

            fn step_by(
                &mut self, step: impl Fn(&[Window], &mut [u64; $record], &mut [u64; 7]) -> u64,
            ) -> Result<Option<UplinkPlace>, Refusal> {
                let (mut record, mut a) = ([0; $record], [0; 7]);
                record[0] = self.position;
                record[1..].copy_from_slice(&self.grant.numbers());
                accepted(step(self.windows, &mut record, &mut a))?;
                self.position = record[0];
                let [_, finished, _, slot, l, k, symbol] = a;
                Ok((finished == 0).then_some(UplinkPlace { slot, l, k, symbol }))
            }
        }
    };
}

grant! {
    NpuschGrant NpuschWalk 8
    plan_up forward_up backward_up step_up
    plan_up_windows forward_up_windows backward_up_windows step_up_windows
    forward_up_plain step_up_plain
}
grant! {
    AckGrant AckWalk 5
    plan_ack forward_ack backward_ack step_ack
    plan_ack_windows forward_ack_windows backward_ack_windows step_ack_windows
    forward_ack_plain step_ack_plain
}
