//! Acknowledgements on NPUSCH format 2: one tone, four slots, four data symbols a slot.

use super::timeline::{beside, Timeline};
use super::{other, ours, refused, stepped, AckGrant, AckWalk};

const LAST_NPDSCH: u64 = (1 << 31) - 1;
const NARROW_DELAYS: [u8; 2] = [13, 21];
const WIDE_DELAYS: [u8; 4] = [13, 15, 17, 18];

/// An accepted grant; `copies` is a logarithm.
pub(super) struct Shape {
    pub(super) wide: u32,
    pub(super) first: u64,
    pub(super) tone: u64,
    copies: u32,
}

#[inline(always)]
pub(super) fn shape(grant: &AckGrant) -> Result<Shape, u64> {
    let &[n, spacing, field, copies] = grant;
    if n > LAST_NPDSCH {
        return Err(9);
    }
    if spacing > 1 || field > 15 || copies > 7 {
        return Err(10);
    }
    let (first, tone) = if spacing == 0 {
        ((n + NARROW_DELAYS[(field / 8) as usize] as u64 + 1) / 2, 38 + field % 8)
    } else {
        (2 * (n + WIDE_DELAYS[(field / 4) as usize] as u64), field % 4)
    };
    Ok(Shape { wide: spacing as u32, first, tone, copies: copies as u32 })
}

impl Shape {
    /// The slots without windows.
    #[inline(always)]
    fn plain(&self) -> Timeline<'static> {
        Timeline::plain(self.wide, self.first)
    }

    #[inline(always)]
    pub(super) fn sent(&self) -> u64 {
        4 << self.copies
    }

    /// The first of the three reference symbols.
    #[inline(always)]
    pub(super) fn reference(&self) -> u64 {
        2 * self.wide as u64
    }
}

/// What is asked of an accepted grant and its slots beside windows.
#[inline(never)]
fn pushed<const N: usize>(grant: &AckGrant, windows: &[u64], ask: impl FnOnce(&Shape, &Timeline) -> [u64; N]) -> [u64; N] {
    shape(grant).map_or_else(refused, |s| {
        let tones = s.tone << (2 * s.wide)..(s.tone + 1) << (2 * s.wide);
        beside(windows, s.wide, s.first, tones, |t| ask(&s, t))
    })
}

#[inline(always)]
fn plan(s: &Shape, t: &Timeline) -> [u64; 7] {
    let sent = s.sent();
    [0, t.slot(0), t.slot(sent as u32 - 1), 1 << s.copies, 4 * sent, 1, 1]
}

#[inline(never)]
pub fn plan_ack(grant: &AckGrant) -> [u64; 7] {
    shape(grant).map_or_else(refused, |s| plan(&s, &s.plain()))
}

#[inline(never)]
pub fn plan_ack_windows(grant: &AckGrant, windows: &[u64]) -> [u64; 7] {
    if windows.is_empty() {
        return plan_ack(grant);
    }
    pushed(grant, windows, plan)
}

#[inline(always)]
fn forward(s: &Shape, t: &Timeline, p: u64) -> [u64; 5] {
    if p >= 4 * s.sent() {
        return refused(14);
    }
    let e = p % 4;
    let l = e + if e < s.reference() { 0 } else { 3 };
    [0, t.slot((p / 4) as u32), l, s.tone, p % 16]
}

#[inline(never)]
pub fn forward_ack(grant: &AckGrant, p: u64) -> [u64; 5] {
    shape(grant).map_or_else(refused, |s| forward(&s, &s.plain(), p))
}

#[inline(never)]
pub fn forward_ack_windows(grant: &AckGrant, windows: &[u64], p: u64) -> [u64; 5] {
    if windows.is_empty() {
        return forward_ack(grant, p);
    }
    pushed(grant, windows, |s, t| forward(s, t, p))
}

#[inline(always)]
fn step(s: &Shape, t: &Timeline, p: &mut u64) -> [u64; 7] {
    let [no, slot, l, k, symbol] = forward(s, t, *p);
    stepped(p, no, 4 * s.sent(), [0, slot, l, k, symbol])
}

#[inline(never)]
pub fn step_ack(walk: &mut AckWalk) -> [u64; 7] {
    let (p, grant) = walk.split_first_mut().expect("5 numbers");
    shape(grant.first_chunk().expect("4 numbers")).map_or_else(refused, |s| step(&s, &s.plain(), p))
}

#[inline(never)]
pub fn step_ack_windows(walk: &mut AckWalk, windows: &[u64]) -> [u64; 7] {
    if windows.is_empty() {
        return step_ack(walk);
    }
    let (p, grant) = walk.split_first_mut().expect("5 numbers");
    pushed(grant.first_chunk().expect("4 numbers"), windows, |s, t| step(s, t, p))
}

#[inline(always)]
fn backward(s: &Shape, t: &Timeline, at: [u64; 3]) -> [u64; 5] {
    let [slot, l, k] = at;
    if l > 6 || k >= if s.wide == 0 { 48 } else { 12 } {
        return refused(14);
    }
    if k != s.tone {
        return other(0);
    }
    match t.index(slot) {
        Some(i) if i < s.sent() => {
            if l.wrapping_sub(s.reference()) < 3 {
                return other(1);
            }
            let e = l - if l < s.reference() { 0 } else { 3 };
            ours(i % 4 * 4 + e, i * 4 + e)
        }
        _ => other(0),
    }
}

#[inline(never)]
pub fn backward_ack(grant: &AckGrant, at: [u64; 3]) -> [u64; 5] {
    shape(grant).map_or_else(refused, |s| backward(&s, &s.plain(), at))
}

#[inline(never)]
pub fn backward_ack_windows(grant: &AckGrant, windows: &[u64], at: [u64; 3]) -> [u64; 5] {
    if windows.is_empty() {
        return backward_ack(grant, at);
    }
    pushed(grant, windows, |s, t| backward(s, t, at))
}
