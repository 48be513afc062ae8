//! The functions that the archive exports, on buffers of numbers in the order of include/nbiot_numbers.h. A call is safe: each buffer
//! goes with its own length. A cell and a walk's record of the downlink may have any length, which says whether messages are lent. Each
//! returns a refusal number, 0 if there is none. The structs of this crate ask the same.

#![allow(missing_docs, clippy::too_many_arguments)]

/// An NPUSCH format 1 grant.
pub type UpGrant = [u64; 7];
/// An acknowledgement.
pub type AckGrant = [u64; 4];
/// An NPDSCH grant.
pub type DownGrant = [u64; 5];
/// An NPDCCH.
pub type ControlGrant = [u64; 4];
/// A search space of NPDCCH.
pub type SearchSpace = [u64; 4];
/// A walk over an NPUSCH: the position and the grant.
pub type UpWalk = [u64; 8];
/// A walk over an acknowledgement: the position and the grant.
pub type AckWalk = [u64; 5];

extern "C" {
    fn nbiot_judge(cell: *const u64, cells: usize, anchor: *const u8, anchors: usize, other: *const u8, others: usize) -> u64;
    fn nbiot_step_up(walk: *mut u64, walks: usize, answer: *mut u64, answers: usize) -> u64;
    fn nbiot_step_up_windows(walk: *mut u64, walks: usize, windows: *const u64, lent: usize, answer: *mut u64, answers: usize) -> u64;
    fn nbiot_step_ack(walk: *mut u64, walks: usize, answer: *mut u64, answers: usize) -> u64;
    fn nbiot_step_ack_windows(walk: *mut u64, walks: usize, windows: *const u64, lent: usize, answer: *mut u64, answers: usize) -> u64;
    fn nbiot_step_down(
        walk: *mut u64, walks: usize, anchor: *const u8, anchors: usize, other: *const u8, others: usize, answer: *mut u64, answers: usize,
    ) -> u64;
    fn nbiot_step_control(
        walk: *mut u64, walks: usize, anchor: *const u8, anchors: usize, other: *const u8, others: usize, answer: *mut u64, answers: usize,
    ) -> u64;
    fn nbiot_step_up_plain(walk: *mut u64, walks: usize, windows: *const u64, lent: usize, answer: *mut u64, answers: usize) -> u64;
    fn nbiot_step_ack_plain(walk: *mut u64, walks: usize, windows: *const u64, lent: usize, answer: *mut u64, answers: usize) -> u64;
    fn nbiot_step_down_plain(
        walk: *mut u64, walks: usize, anchor: *const u8, anchors: usize, other: *const u8, others: usize, answer: *mut u64, answers: usize,
    ) -> u64;
    fn nbiot_step_control_plain(
        walk: *mut u64, walks: usize, anchor: *const u8, anchors: usize, other: *const u8, others: usize, answer: *mut u64, answers: usize,
    ) -> u64;
    fn nbiot_fill(
        cell: *const u64, cells: usize, anchor: *const u8, anchors: usize, other: *const u8, others: usize,
        grant: *const u64, grants: usize, i: u64, bits: *const u8, bytes: usize, level: f32, output: *mut f32, outputs: usize,
    ) -> u64;
    fn nbiot_element(
        cell: *const u64, cells: usize, anchor: *const u8, anchors: usize, other: *const u8, others: usize,
        grant: *const u64, grants: usize, i: u64, slot: u64, l: u64, k: u64, bits: *const u8, bytes: usize, level: f32,
        answer: *mut u64, answers: usize, amplitudes: *mut f32, pairs: usize,
    ) -> u64;
}

/// What is asked of a cell alone.
macro_rules! cell {
    ($($name:ident $extern:ident ($($number:ident),*) $columns:literal;)*) => {
        extern "C" {
            $(fn $extern(
                cell: *const u64, cells: usize, anchor: *const u8, anchors: usize, other: *const u8, others: usize,
                $($number: u64,)* answer: *mut u64, answers: usize,
            ) -> u64;)*
        }
        $(#[inline(always)]
        pub fn $name(cell: &[u64], anchor: &[u8], other: &[u8], $($number: u64,)* answer: &mut [u64; $columns]) -> u64 {
            // SAFETY: the pointers and lengths are those of slices, and only `answer` is written.
            unsafe {
                $extern(
                    cell.as_ptr(), cell.len(), anchor.as_ptr(), anchor.len(), other.as_ptr(), other.len(),
                    $($number,)* answer.as_mut_ptr(), answer.len(),
                )
            }
        })*
    };
}

cell! {
    bitmap nbiot_bitmap () 3;
    count nbiot_count () 2;
    cause nbiot_cause (t) 2;
    forward_npbch nbiot_forward_npbch (p) 6;
    forward_sib1 nbiot_forward_sib1 (p) 6;
    backward_npbch nbiot_backward_npbch (t, slot, l, k) 5;
    backward_sib1 nbiot_backward_sib1 (t, slot, l, k) 5;
}

macro_rules! downlink {
    ($($name:ident $extern:ident ($($number:ident),*) $grant:ty, $columns:literal;)*) => {
        extern "C" {
            $(fn $extern(
                cell: *const u64, cells: usize, anchor: *const u8, anchors: usize, other: *const u8, others: usize,
                grant: *const u64, grants: usize, $($number: u64,)* answer: *mut u64, answers: usize,
            ) -> u64;)*
        }
        $(#[inline(always)]
        pub fn $name(cell: &[u64], anchor: &[u8], other: &[u8], grant: &$grant, $($number: u64,)* answer: &mut [u64; $columns]) -> u64 {
            // SAFETY: the pointers and lengths are those of slices, and only `answer` is written.
            unsafe {
                $extern(
                    cell.as_ptr(), cell.len(), anchor.as_ptr(), anchor.len(), other.as_ptr(), other.len(),
                    grant.as_ptr(), grant.len(), $($number,)* answer.as_mut_ptr(), answer.len(),
                )
            }
        })*
    };
}

downlink! {
    plan_down nbiot_plan_down () DownGrant, 5;
    plan_control nbiot_plan_control () ControlGrant, 5;
    forward_down nbiot_forward_down (p) DownGrant, 6;
    forward_control nbiot_forward_control (p) ControlGrant, 6;
    forward_down_plain nbiot_forward_down_plain (p) DownGrant, 6;
    forward_control_plain nbiot_forward_control_plain (p) ControlGrant, 6;
    backward_down nbiot_backward_down (t, slot, l, k) DownGrant, 6;
    backward_control nbiot_backward_control (t, slot, l, k) ControlGrant, 6;
    search nbiot_search () SearchSpace, 48;
}

/// Each question twice: without windows, and beside those that are lent.
macro_rules! uplink {
    ($($name:ident $extern:ident, $beside:ident $windowed:ident ($($number:ident),*) $grant:ty, $columns:literal;)*) => {
        extern "C" {
            $(fn $extern(grant: *const u64, grants: usize, $($number: u64,)* answer: *mut u64, answers: usize) -> u64;
            fn $windowed(
                grant: *const u64, grants: usize, windows: *const u64, lent: usize, $($number: u64,)* answer: *mut u64, answers: usize,
            ) -> u64;)*
        }
        $(#[inline(always)]
        pub fn $name(grant: &$grant, $($number: u64,)* answer: &mut [u64; $columns]) -> u64 {
            // SAFETY: the pointers and lengths are those of slices, and only `answer` is written.
            unsafe { $extern(grant.as_ptr(), grant.len(), $($number,)* answer.as_mut_ptr(), answer.len()) }
        }

        #[inline(always)]
        pub fn $beside(grant: &$grant, windows: &[u64], $($number: u64,)* answer: &mut [u64; $columns]) -> u64 {
            // SAFETY: the pointers and lengths are those of slices, and only `answer` is written.
            unsafe {
                $windowed(
                    grant.as_ptr(), grant.len(), windows.as_ptr(), windows.len(), $($number,)* answer.as_mut_ptr(), answer.len(),
                )
            }
        })*
    };
}

uplink! {
    plan_up nbiot_plan_up, plan_up_windows nbiot_plan_up_windows () UpGrant, 7;
    plan_ack nbiot_plan_ack, plan_ack_windows nbiot_plan_ack_windows () AckGrant, 7;
    forward_up nbiot_forward_up, forward_up_windows nbiot_forward_up_windows (p) UpGrant, 5;
    forward_ack nbiot_forward_ack, forward_ack_windows nbiot_forward_ack_windows (p) AckGrant, 5;
    backward_up nbiot_backward_up, backward_up_windows nbiot_backward_up_windows (slot, l, k) UpGrant, 5;
    backward_ack nbiot_backward_ack, backward_ack_windows nbiot_backward_ack_windows (slot, l, k) AckGrant, 5;
}

/// Forward of the plain engine, beside the windows that are lent.
macro_rules! plain {
    ($($name:ident $extern:ident $grant:ty;)*) => {
        extern "C" {
            $(fn $extern(
                grant: *const u64, grants: usize, windows: *const u64, lent: usize, p: u64, answer: *mut u64, answers: usize,
            ) -> u64;)*
        }
        $(#[inline(always)]
        pub fn $name(grant: &$grant, windows: &[u64], p: u64, answer: &mut [u64; 5]) -> u64 {
            // SAFETY: the pointers and lengths are those of slices, and only `answer` is written.
            unsafe {
                $extern(grant.as_ptr(), grant.len(), windows.as_ptr(), windows.len(), p, answer.as_mut_ptr(), answer.len())
            }
        })*
    };
}

plain! {
    forward_up_plain nbiot_forward_up_plain UpGrant;
    forward_ack_plain nbiot_forward_ack_plain AckGrant;
}

#[inline(always)]
pub fn judge(cell: &[u64], anchor: &[u8], other: &[u8]) -> u64 {
    // SAFETY: the pointers and lengths are those of slices, and nothing is written.
    unsafe { nbiot_judge(cell.as_ptr(), cell.len(), anchor.as_ptr(), anchor.len(), other.as_ptr(), other.len()) }
}

#[inline(always)]
pub fn step_up(walk: &mut UpWalk, answer: &mut [u64; 7]) -> u64 {
    // SAFETY: as above; only `walk` and `answer` are written.
    unsafe { nbiot_step_up(walk.as_mut_ptr(), walk.len(), answer.as_mut_ptr(), answer.len()) }
}

#[inline(always)]
pub fn step_up_windows(walk: &mut UpWalk, windows: &[u64], answer: &mut [u64; 7]) -> u64 {
    // SAFETY: as above; only `walk` and `answer` are written.
    unsafe {
        nbiot_step_up_windows(walk.as_mut_ptr(), walk.len(), windows.as_ptr(), windows.len(), answer.as_mut_ptr(), answer.len())
    }
}

#[inline(always)]
pub fn step_ack(walk: &mut AckWalk, answer: &mut [u64; 7]) -> u64 {
    // SAFETY: as above; only `walk` and `answer` are written.
    unsafe { nbiot_step_ack(walk.as_mut_ptr(), walk.len(), answer.as_mut_ptr(), answer.len()) }
}

#[inline(always)]
pub fn step_ack_windows(walk: &mut AckWalk, windows: &[u64], answer: &mut [u64; 7]) -> u64 {
    // SAFETY: as above; only `walk` and `answer` are written.
    unsafe {
        nbiot_step_ack_windows(walk.as_mut_ptr(), walk.len(), windows.as_ptr(), windows.len(), answer.as_mut_ptr(), answer.len())
    }
}

#[inline(always)]
pub fn step_down(walk: &mut [u64], anchor: &[u8], other: &[u8], answer: &mut [u64; 7]) -> u64 {
    // SAFETY: as above; only `walk` and `answer` are written.
    unsafe {
        nbiot_step_down(
            walk.as_mut_ptr(), walk.len(), anchor.as_ptr(), anchor.len(), other.as_ptr(), other.len(), answer.as_mut_ptr(), answer.len(),
        )
    }
}

#[inline(always)]
pub fn step_control(walk: &mut [u64], anchor: &[u8], other: &[u8], answer: &mut [u64; 7]) -> u64 {
    // SAFETY: as above; only `walk` and `answer` are written.
    unsafe {
        nbiot_step_control(
            walk.as_mut_ptr(), walk.len(), anchor.as_ptr(), anchor.len(), other.as_ptr(), other.len(), answer.as_mut_ptr(), answer.len(),
        )
    }
}

#[inline(always)]
pub fn step_up_plain(walk: &mut UpWalk, windows: &[u64], answer: &mut [u64; 7]) -> u64 {
    // SAFETY: as above; only `walk` and `answer` are written.
    unsafe {
        nbiot_step_up_plain(walk.as_mut_ptr(), walk.len(), windows.as_ptr(), windows.len(), answer.as_mut_ptr(), answer.len())
    }
}

#[inline(always)]
pub fn step_ack_plain(walk: &mut AckWalk, windows: &[u64], answer: &mut [u64; 7]) -> u64 {
    // SAFETY: as above; only `walk` and `answer` are written.
    unsafe {
        nbiot_step_ack_plain(walk.as_mut_ptr(), walk.len(), windows.as_ptr(), windows.len(), answer.as_mut_ptr(), answer.len())
    }
}

#[inline(always)]
pub fn step_down_plain(walk: &mut [u64], anchor: &[u8], other: &[u8], answer: &mut [u64; 7]) -> u64 {
    // SAFETY: as above; only `walk` and `answer` are written.
    unsafe {
        nbiot_step_down_plain(
            walk.as_mut_ptr(), walk.len(), anchor.as_ptr(), anchor.len(), other.as_ptr(), other.len(), answer.as_mut_ptr(), answer.len(),
        )
    }
}

#[inline(always)]
pub fn step_control_plain(walk: &mut [u64], anchor: &[u8], other: &[u8], answer: &mut [u64; 7]) -> u64 {
    // SAFETY: as above; only `walk` and `answer` are written.
    unsafe {
        nbiot_step_control_plain(
            walk.as_mut_ptr(), walk.len(), anchor.as_ptr(), anchor.len(), other.as_ptr(), other.len(), answer.as_mut_ptr(), answer.len(),
        )
    }
}

#[inline(always)]
pub fn fill(cell: &[u64], lent: [&[u8]; 2], grant: &DownGrant, i: u64, bits: &[u8], level: f32, out: &mut [f32]) -> u64 {
    let [anchor, other] = lent;
    // SAFETY: as above; only `out` is written.
    unsafe {
        nbiot_fill(
            cell.as_ptr(), cell.len(), anchor.as_ptr(), anchor.len(), other.as_ptr(), other.len(), grant.as_ptr(), grant.len(),
            i, bits.as_ptr(), bits.len(), level, out.as_mut_ptr(), out.len(),
        )
    }
}

#[inline(always)]
pub fn element(
    cell: &[u64], lent: [&[u8]; 2], grant: &DownGrant, at: [u64; 4], bits: &[u8], level: f32,
    answer: &mut [u64; 2], amplitudes: &mut [f32; 2],
) -> u64 {
    let ([anchor, other], [i, slot, l, k]) = (lent, at);
    // SAFETY: as above; only `answer` and `amplitudes` are written.
    unsafe {
        nbiot_element(
            cell.as_ptr(), cell.len(), anchor.as_ptr(), anchor.len(), other.as_ptr(), other.len(), grant.as_ptr(), grant.len(),
            i, slot, l, k, bits.as_ptr(), bits.len(), level,
            answer.as_mut_ptr(), answer.len(), amplitudes.as_mut_ptr(), amplitudes.len(),
        )
    }
}
