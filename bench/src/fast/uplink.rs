//! NPUSCH format 1.

use super::timeline::{beside, Timeline};
use super::{other, ours, refused, stepped, UpGrant, UpWalk, LAST_SUBFRAME, LENGTHS};
use std::ops::Range;

const SIZES: [[u16; 8]; 5] = [
    [16, 32, 56, 88, 120, 152, 208, 256],
    [24, 56, 88, 144, 176, 208, 256, 344],
    [32, 72, 144, 176, 208, 256, 328, 424],
    [40, 104, 176, 208, 256, 328, 440, 568],
    [56, 120, 208, 256, 328, 408, 552, 680],
];
const ROWS: [u8; 5] = [0, 2, 1, 3, 4];
const ORDERS: [u8; 5] = [1, 1, 2, 2, 2];

/// By group of tones, 1, 3, 6 or 12: the tones, the logarithm of the slots in a unit, and 1024/tones to divide numbers below 72.
const TONES: [(u32, u32, u32); 4] = [(1, 4, 1024), (3, 3, 342), (6, 2, 171), (12, 1, 86)];

/// An accepted grant. `slots` and `row` are logarithms, of the slots in a unit and of the groups sent in a row.
pub(super) struct Shape {
    pub(super) wide: u32,
    pub(super) first: u64,
    pub(super) tone: u32,
    pub(super) tones: u32,
    inverse: u32,
    length: u32,
    slots: u32,
    copies: u32,
    row: u32,
}

#[inline(always)]
pub(super) fn shape(grant: &UpGrant) -> Result<Shape, u64> {
    let &[n, spacing, subcarrier, units, copies, delay, mcs] = grant;
    if n > LAST_SUBFRAME {
        return Err(9);
    }
    if spacing > 1 || subcarrier > 63 || units > 7 || copies > 7 || delay > 3 || mcs > 15 {
        return Err(10);
    }
    let wide = spacing as u32;
    if subcarrier >= if wide == 0 { 48 } else { 19 } {
        return Err(11);
    }
    if mcs > 4 {
        return Err(13);
    }
    let field = subcarrier as u32;
    let (group, tone) = match field {
        18 if wide == 1 => (3, 0),
        16..=17 if wide == 1 => (2, 6 * (field - 16)),
        12..=15 if wide == 1 => (1, 3 * (field - 12)),
        _ => (0, field),
    };
    let (tones, slots, inverse) = TONES[group];
    let after = n + (8 << delay) + 1;
    let first = if wide == 0 { (after + 1) / 2 } else { 2 * after };
    let copies = copies as u32;
    let row = if group == 0 { 0 } else { copies.saturating_sub(1).min(2) };
    let length = LENGTHS[units as usize];
    Ok(Shape { wide, first, tone, tones, inverse, length, slots, copies, row })
}

impl Shape {
    /// The slots without windows.
    #[inline(always)]
    fn plain(&self) -> Timeline<'static> {
        Timeline::plain(self.wide, self.first)
    }

    #[inline(always)]
    pub(super) fn sent(&self) -> u32 {
        self.length << (self.slots + self.copies)
    }

    #[inline(always)]
    fn data(&self) -> u32 {
        6 * self.tones
    }

    /// The granted tones as tones of 3.75 kHz.
    #[inline(always)]
    fn tones(&self) -> Range<u64> {
        let (tone, tones) = (self.tone as u64, self.tones as u64);
        tone << (2 * self.wide)..(tone + tones) << (2 * self.wide)
    }

    /// The codeword slot that transmitted slot i carries.
    #[inline(always)]
    pub(super) fn carried(&self, i: u32) -> u32 {
        let within = self.slots + self.row;
        let r = (i >> within) % self.length << within | i & ((1 << within) - 1);
        r >> (self.wide + self.row) << self.wide | r & self.wide
    }
}

/// What is asked of an accepted grant and its slots beside windows.
#[inline(never)]
fn pushed<const N: usize>(grant: &UpGrant, windows: &[u64], ask: impl FnOnce(&Shape, &Timeline) -> [u64; N]) -> [u64; N] {
    shape(grant).map_or_else(refused, |s| beside(windows, s.wide, s.first, s.tones(), |t| ask(&s, t)))
}

#[inline(always)]
fn plan(s: &Shape, t: &Timeline, grant: &UpGrant) -> [u64; 7] {
    let (units, mcs) = (grant[3] as usize, grant[6] as usize);
    let (row, order) = if s.tones == 1 { (ROWS[mcs] as usize, ORDERS[mcs]) } else { (mcs, 2) };
    let sent = s.sent();
    let places = (sent * s.data()) as u64;
    [0, t.slot(0), t.slot(sent - 1), 1 << s.copies, places, SIZES[row][units] as u64, order as u64]
}

#[inline(never)]
pub fn plan_up(grant: &UpGrant) -> [u64; 7] {
    shape(grant).map_or_else(refused, |s| plan(&s, &s.plain(), grant))
}

#[inline(never)]
pub fn plan_up_windows(grant: &UpGrant, windows: &[u64]) -> [u64; 7] {
    if windows.is_empty() {
        return plan_up(grant);
    }
    pushed(grant, windows, |s, t| plan(s, t, grant))
}

#[inline(always)]
fn forward(s: &Shape, t: &Timeline, p: u64) -> [u64; 5] {
    let w = s.data();
    if p >= (s.sent() * w) as u64 {
        return refused(14);
    }
    let p = p as u32;
    let i = match s.tones {
        1 => p / 6,
        3 => p / 18,
        6 => p / 36,
        _ => p / 72,
    };
    let e = p - i * w;
    let line = e * s.inverse >> 10;
    let l = line + (line >= 4 - s.wide) as u32;
    let k = s.tone + e - line * s.tones;
    [0, t.slot(i), l as u64, k as u64, (s.carried(i) * w + e) as u64]
}

#[inline(never)]
pub fn forward_up(grant: &UpGrant, p: u64) -> [u64; 5] {
    shape(grant).map_or_else(refused, |s| forward(&s, &s.plain(), p))
}

#[inline(never)]
pub fn forward_up_windows(grant: &UpGrant, windows: &[u64], p: u64) -> [u64; 5] {
    if windows.is_empty() {
        return forward_up(grant, p);
    }
    pushed(grant, windows, |s, t| forward(s, t, p))
}

#[inline(always)]
fn step(s: &Shape, t: &Timeline, p: &mut u64) -> [u64; 7] {
    let [no, slot, l, k, symbol] = forward(s, t, *p);
    stepped(p, no, (s.sent() * s.data()) as u64, [0, slot, l, k, symbol])
}

#[inline(never)]
pub fn step_up(walk: &mut UpWalk) -> [u64; 7] {
    let (p, grant) = walk.split_first_mut().expect("8 numbers");
    shape(grant.first_chunk().expect("7 numbers")).map_or_else(refused, |s| step(&s, &s.plain(), p))
}

#[inline(never)]
pub fn step_up_windows(walk: &mut UpWalk, windows: &[u64]) -> [u64; 7] {
    if windows.is_empty() {
        return step_up(walk);
    }
    let (p, grant) = walk.split_first_mut().expect("8 numbers");
    pushed(grant.first_chunk().expect("7 numbers"), windows, |s, t| step(s, t, p))
}

#[inline(always)]
fn backward(s: &Shape, t: &Timeline, at: [u64; 3]) -> [u64; 5] {
    let [slot, l, k] = at;
    if l > 6 || k >= if s.wide == 0 { 48 } else { 12 } {
        return refused(14);
    }
    let tone = (k as u32).wrapping_sub(s.tone);
    if tone >= s.tones {
        return other(0);
    }
    match t.index(slot) {
        Some(i) if i < s.sent() as u64 => {
            let reference = 4 - s.wide as u64;
            if l == reference {
                return other(1);
            }
            let line = l as u32 - (l > reference) as u32;
            let (w, e) = (s.data(), line * s.tones + tone);
            ours((s.carried(i as u32) * w + e) as u64, i * w as u64 + e as u64)
        }
        _ => other(0),
    }
}

#[inline(never)]
pub fn backward_up(grant: &UpGrant, at: [u64; 3]) -> [u64; 5] {
    shape(grant).map_or_else(refused, |s| backward(&s, &s.plain(), at))
}

#[inline(never)]
pub fn backward_up_windows(grant: &UpGrant, windows: &[u64], at: [u64; 3]) -> [u64; 5] {
    if windows.is_empty() {
        return backward_up(grant, at);
    }
    pushed(grant, windows, |s, t| backward(s, t, at))
}
