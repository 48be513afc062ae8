//! The plain engine by hand: forward, one subframe or slot and one element at a time, with running counts alone. Fields are read as in the
//! files beside it; the cell's refusals are the judge's.

use super::cell::{judge, sib1_frames};
use super::{acknowledgement, downlink, refused, uplink, AckGrant, Cell, ControlGrant, DownGrant, UpGrant};

/// What a subframe is asked: is it taken by the anchor, or withheld by the bitmap?
struct Subframes<'a> {
    is_anchor: bool,
    first: u64,
    frames: u64,
    bits: u64,
    own: &'a [u8],
}

impl Subframes<'_> {
    fn new<'a>(cell: &Cell, anchor: &'a [u8], others: &'a [u8]) -> Subframes<'a> {
        let &[_, carrier, identity, _, _, _, schedule, bits] = cell;
        let (first, frames) = sib1_frames(identity, schedule);
        Subframes { is_anchor: carrier == 0, first, frames, bits, own: if carrier == 0 { anchor } else { others } }
    }

    fn is_taken(&self, t: u64) -> bool {
        let frame = t / 10;
        match t % 10 {
            0 | 5 => true,
            9 => frame % 2 == 0,
            4 => {
                let x = (frame + 64 - self.first) % self.frames;
                x % 2 == 0 && x < 16
            }
            _ => false,
        }
    }

    fn is_usable(&self, t: u64) -> bool {
        if self.is_anchor && self.is_taken(t) {
            return false;
        }
        if self.bits == 0 {
            return true;
        }
        let i = t % self.bits;
        self.own[(i / 8) as usize] >> (7 - i % 8) & 1 == 1
    }
}

/// Element x of a subframe is used.
fn is_used(cell: &Cell, low: u64, width: u64, x: u64) -> bool {
    let &[_, _, identity, nports, cports, control, _, _] = cell;
    let (slot, l, k) = (x / 84, x / 12 % 7, x % 12);
    let (near, far) = (k % 6 == identity % 6, k % 6 == (identity + 3) % 6);
    let narrow = l == 5 && (near || nports == 2 && far) || l == 6 && (far || nports == 2 && near);
    let wide = cports >= 1 && (l == 0 && near || l == 4 && far)
        || cports >= 2 && (l == 0 && far || l == 4 && near)
        || cports == 4 && l == 1 && (near || far);
    !(slot == 0 && l < control) && !narrow && !wide && low <= k && k < low + width
}

fn nth(from: u64, mut left: u64, passes: impl Fn(u64) -> bool) -> u64 {
    let mut t = from;
    loop {
        let d = passes(t) as u64;
        if left < d {
            return t;
        }
        left -= d;
        t += 1;
    }
}

/// A burst's subframes are numbered by its first, how many usable ones it skips and how many it sends.
fn burst<S>(cell: &Cell, lent: [&[u8]; 2], b: &downlink::Burst<S>, low: u64, width: u64, p: u64) -> [u64; 6] {
    let w = (0..168).filter(|&x| is_used(cell, low, width, x)).count() as u64;
    if p >= b.sent() * w {
        return refused(14);
    }
    let (i, e) = (p / w, p % w);
    let subframes = Subframes::new(cell, lent[0], lent[1]);
    let t = nth(b.from, b.skip + i, |t| subframes.is_usable(t));
    let x = nth(0, e, |x| is_used(cell, low, width, x));
    [0, t, x / 84, x / 12 % 7, x % 12, b.carried(i) * w + e]
}

fn judged(cell: &Cell, anchor: &[u8], others: &[u8]) -> Result<(), u64> {
    match judge(cell, anchor, others) {
        0 => Ok(()),
        no => Err(no),
    }
}

#[inline(never)]
pub fn forward_down_plain(cell: &Cell, anchor: &[u8], others: &[u8], grant: &DownGrant, p: u64) -> [u64; 6] {
    let b = downlink::down(judged(cell, anchor, others), cell, grant);
    b.map_or_else(refused, |b| burst(cell, [anchor, others], &b, 0, 12, p))
}

#[inline(never)]
pub fn forward_control_plain(cell: &Cell, anchor: &[u8], others: &[u8], grant: &ControlGrant, p: u64) -> [u64; 6] {
    let b = downlink::control(judged(cell, anchor, others), cell, grant);
    let &[_, _, format, ncce] = grant;
    b.map_or_else(refused, |b| burst(cell, [anchor, others], &b, 6 * ncce, 6 + 6 * format, p))
}

/// What a group of slots is asked: does it overlap a window that shares a tone?
struct Groups<'a> {
    ms: u64,
    tone: u64,
    tones: u64,
    windows: &'a [u64],
}

impl Groups<'_> {
    fn is_clear(&self, u: u64) -> bool {
        let count = *self.windows.first().unwrap_or(&0);
        !self.windows.get(1..).unwrap_or(&[]).chunks_exact(4).take(count as usize).any(|w| {
            let &[period, start, length, tone] = w.first_chunk().expect("four numbers");
            let shares = tone < self.tone + self.tones && self.tone < tone + 12;
            let since = (self.ms * u + self.ms + 2559 - start) % period + 1;
            shares && 30720 * since < length + 30720 * self.ms
        })
    }

    /// 19 is fast's; 20 by a scan of 2,560 ms.
    fn refusal(&self, listed: bool) -> u64 {
        if !listed {
            return 19;
        }
        if (0..2560 / self.ms).any(|u| self.is_clear(u)) { 0 } else { 20 }
    }
}

/// A slot among 256 ms of slots, in groups that are clear; the 40 ms after them are left empty.
fn slot(first: u64, wide: bool, groups: &Groups, i: u64) -> u64 {
    let (block, period, group) = if wide { (512, 592, 2) } else { (128, 148, 1) };
    let (mut slot, mut r, mut left) = (first, 0, i);
    loop {
        let d = (r < block && groups.is_clear(slot / group)) as u64;
        if left < d {
            return slot;
        }
        left -= d;
        slot += 1;
        r += 1;
        if r == period {
            r = 0;
        }
    }
}

/// The e-th data element of a slot, reference symbols and tones as given, and how many there are.
fn element(wide: bool, references: std::ops::Range<u64>, tones: std::ops::Range<u64>, e: u64) -> (u64, u64, u64) {
    let width = if wide { 12 } else { 48 };
    let carries = |x: u64| !references.contains(&(x / width)) && tones.contains(&(x % width));
    let w = (0..7 * width).filter(|&x| carries(x)).count() as u64;
    let x = nth(0, e % w, carries);
    (w, x / width, x % width)
}

#[inline(never)]
pub fn forward_up_plain(grant: &UpGrant, windows: &[u64], p: u64) -> [u64; 5] {
    let s = match uplink::shape(grant) {
        Ok(s) => s,
        Err(no) => return refused(no),
    };
    let (wide, tone, tones) = (s.wide == 1, s.tone as u64, s.tones as u64);
    let scale = if wide { 4 } else { 1 };
    let groups = Groups { ms: if wide { 1 } else { 2 }, tone: scale * tone, tones: scale * tones, windows };
    let no = groups.refusal(super::timeline::are_listed(windows));
    if no != 0 {
        return refused(no);
    }
    let reference = if wide { 3..4 } else { 4..5 };
    let (w, l, k) = element(wide, reference, tone..tone + tones, p);
    if p >= s.sent() as u64 * w {
        return refused(14);
    }
    let i = p / w;
    [0, slot(s.first, wide, &groups, i), l, k, s.carried(i as u32) as u64 * w + p % w]
}

#[inline(never)]
pub fn forward_ack_plain(grant: &AckGrant, windows: &[u64], p: u64) -> [u64; 5] {
    let s = match acknowledgement::shape(grant) {
        Ok(s) => s,
        Err(no) => return refused(no),
    };
    let wide = s.wide == 1;
    let scale = if wide { 4 } else { 1 };
    let groups = Groups { ms: if wide { 1 } else { 2 }, tone: scale * s.tone, tones: scale, windows };
    let no = groups.refusal(super::timeline::are_listed(windows));
    if no != 0 {
        return refused(no);
    }
    let (w, l, k) = element(wide, s.reference()..s.reference() + 3, s.tone..s.tone + 1, p);
    if p >= s.sent() * w {
        return refused(14);
    }
    let i = p / w;
    [0, slot(s.first, wide, &groups, i), l, k, i % 4 * w + p % w]
}
