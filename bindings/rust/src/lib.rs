//! Where each symbol of an NB-IoT grant stands, and what stands at each place of the grid, by the proved library libnbiot_c.a.
//!
//! ```
//! use nbiot::{Cell, Mode, NpdschGrant};
//!
//! let cell = Cell { mode: Mode::Standalone, narrowband_ports: 1, ..Cell::default() };
//! let grant = NpdschGrant { n: 15, rmax: 64, subframes: 6, ..NpdschGrant::default() };
//! let at = grant.forward(&cell, 60)?;
//! assert_eq!((at.t, at.slot, at.l, at.k, at.symbol), (21, 0, 5, 1, 60));
//! # Ok::<(), nbiot::Refusal>(())
//! ```
//!
//! The archive is for x86-64. Nothing is kept between calls and nothing is allocated. Every number may be passed in every field: what is
//! bad is a [`Refusal`]. Times are counted from 0 on and do not turn: t in subframes of 1 ms, slots of the uplink in 0.5 ms at 15 kHz and
//! in 2 ms at 3.75 kHz, slots of the downlink 0 or 1 in their subframe. l is the symbol in a slot, 0 to 6, k the subcarrier.
//!
//! [`numbers`] has the archive's functions on buffers of numbers, for whoever keeps such buffers.

#![no_std]
#![warn(missing_docs)]

mod broadcast;
mod cell;
mod downlink;
mod fill;
pub mod numbers;
mod refusal;
mod search;
mod uplink;

pub use cell::{Carrier, Cause, Cell, Messages, Mode, Schedule};
pub use downlink::{DownlinkFound, DownlinkPlace, DownlinkPlan, NpdcchGrant, NpdcchWalk, NpdschGrant, NpdschWalk};
pub use fill::{Element, Subframe};
pub use refusal::Refusal;
pub use search::{Candidate, Candidates, SearchSpace};
pub use uplink::{AckGrant, AckWalk, NpuschGrant, NpuschWalk, Spacing, UplinkPlace, UplinkPlan, Window};

/// What stands at a place.
#[derive(Clone, Copy, Debug, PartialEq, Eq)]
pub enum Found {
    /// One of the grant's places.
    Ours {
        /// The symbol of the codeword.
        symbol: u64,
        /// The position, as forward counts it.
        position: u64,
    },
    /// A narrowband reference, or a reference of the uplink.
    Reference,
    /// A cell reference.
    CellReference,
    /// Nothing of these.
    Plain,
}

impl Found {
    /// Of what backward answers: the refusal, ours, symbol, position and kind.
    fn of([_, ours, symbol, position, kind]: [u64; 5]) -> Found {
        match (ours, kind) {
            (1, _) => Found::Ours { symbol, position },
            (_, 1) => Found::Reference,
            (_, 2) => Found::CellReference,
            _ => Found::Plain,
        }
    }
}
