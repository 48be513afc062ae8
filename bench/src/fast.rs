//! The questions in plain Rust, as fast as we can write them. Nothing is kept between calls: each call judges its cell and
//! its grant. No loop runs over subframes or elements, but for the fill, which writes its numbers once, and for `plain`, the plain engine
//! by hand.
//! Cells, grants, windows and answers are in the order of include/nbiot_numbers.h. A cell is of 8 numbers, or of 23 with its messages, a
//! walk's record of 15 more with them; which it is the compiler knows, so that a cell of 8 is asked nothing about messages.

mod acknowledgement;
mod broadcast;
mod cell;
mod downlink;
mod elements;
mod fill;
mod left;
mod messages;
mod plain;
mod search;
mod timeline;
mod timetable;
mod uplink;

pub use acknowledgement::{
    backward_ack, backward_ack_windows, forward_ack, forward_ack_windows, plan_ack, plan_ack_windows, step_ack, step_ack_windows,
};
pub use broadcast::{backward_npbch, backward_sib1, forward_npbch, forward_sib1, places as broadcast_places};
pub use cell::{bitmap, cause, judge};
pub use elements::count;
pub use downlink::{backward_control, backward_down, forward_control, forward_down, plan_control, plan_down, step_control, step_down};
pub use fill::{element, fill};
pub use messages::Messages;
pub use plain::{forward_ack_plain, forward_control_plain, forward_down_plain, forward_up_plain};
pub use search::search;
pub use uplink::{
    backward_up, backward_up_windows, forward_up, forward_up_windows, plan_up, plan_up_windows, step_up, step_up_windows,
};

pub type Cell<const N: usize = 8> = [u64; N];
pub type UpGrant = [u64; 7];
pub type AckGrant = [u64; 4];
pub type DownGrant = [u64; 5];
pub type ControlGrant = [u64; 4];
pub type SearchSpace = [u64; 4];
pub type UpWalk = [u64; 8];
pub type AckWalk = [u64; 5];
pub type DownWalk<const N: usize = 14> = [u64; N];
pub type ControlWalk<const N: usize = 13> = [u64; N];

const LAST_SUBFRAME: u64 = (1 << 30) - 1;
const LENGTHS: [u32; 8] = [1, 2, 3, 4, 5, 6, 8, 10];

/// An answer of a refused question: its number, and zeros.
#[inline(always)]
fn refused<const N: usize>(no: u64) -> [u64; N] {
    let mut answer = [0; N];
    answer[0] = no;
    answer
}

/// Backward's answers.
#[inline(always)]
fn ours(symbol: u64, position: u64) -> [u64; 5] {
    [0, 1, symbol, position, 0]
}

#[inline(always)]
fn other(kind: u64) -> [u64; 5] {
    [0, 0, 0, 0, kind]
}

/// A step from forward's answer at the walk's position: the answer, and the position moved on.
#[inline(always)]
fn stepped(p: &mut u64, no: u64, places: u64, at: [u64; 5]) -> [u64; 7] {
    if no == 0 {
        *p += 1;
        let [t, slot, l, k, symbol] = at;
        return [0, 0, t, slot, l, k, symbol];
    }
    if no == 14 && *p == places {
        return [0, 1, 0, 0, 0, 0, 0];
    }
    refused(no)
}
