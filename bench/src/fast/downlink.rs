//! NPDSCH and NPDCCH.

use super::cell::{Spot, Subframes};
use super::elements::Layout;
use super::messages::parts;
use super::{other, ours, refused, stepped, Cell, ControlGrant, ControlWalk, DownGrant, DownWalk, LAST_SUBFRAME, LENGTHS};

const COPIES: [u32; 16] = [1, 2, 4, 8, 16, 32, 64, 128, 192, 256, 384, 512, 768, 1024, 1536, 2048];
const DELAYS: [[u32; 8]; 2] = [[0, 4, 8, 12, 16, 32, 64, 128], [0, 16, 32, 64, 128, 256, 512, 1024]];

/// An accepted question.
pub struct Burst<S> {
    subframes: S,
    pub layout: Layout,
    pub(super) from: u64,
    pub(super) skip: u64,
    /// Subframes of the codeword, copies, and the logarithm of the copies sent in a row.
    pub length: u32,
    copies: u32,
    row: u32,
}

#[inline(always)]
pub fn is_repetition(x: u64) -> bool {
    x <= 2048 && x.is_power_of_two()
}

#[inline(always)]
pub fn down<S>(judged: Result<S, u64>, cell: &Cell, grant: &DownGrant) -> Result<Burst<S>, u64> {
    let subframes = judged?;
    let &[n, delay, rmax, length, copies] = grant;
    if n > LAST_SUBFRAME {
        return Err(9);
    }
    if delay > 7 || length > 7 || copies > 15 {
        return Err(10);
    }
    if !is_repetition(rmax) {
        return Err(12);
    }
    let layout = Layout::new(cell, 0, 12);
    let skip = DELAYS[(rmax >= 128) as usize][delay as usize] as u64;
    let (length, row) = (LENGTHS[length as usize], (copies as u32).min(2));
    let copies = COPIES[copies as usize];
    Ok(Burst { subframes, layout, from: n + 5, skip, length, copies, row })
}

#[inline(always)]
pub(super) fn control<S>(judged: Result<S, u64>, cell: &Cell, grant: &ControlGrant) -> Result<Burst<S>, u64> {
    let subframes = judged?;
    let &[n, r, format, ncce] = grant;
    if n > LAST_SUBFRAME {
        return Err(9);
    }
    if format > 1 || ncce > 1 || format & ncce == 1 {
        return Err(10);
    }
    if !is_repetition(r) {
        return Err(12);
    }
    let layout = Layout::new(cell, 6 * ncce, 6 + 6 * format);
    Ok(Burst { subframes, layout, from: n, skip: 0, length: 1, copies: r as u32, row: 0 })
}

impl<S> Burst<S> {
    #[inline(always)]
    pub fn sent(&self) -> u64 {
        (self.copies * self.length) as u64
    }

    /// The codeword subframe that transmitted subframe i carries.
    #[inline(always)]
    pub fn carried(&self, i: u64) -> u64 {
        ((i as u32 >> self.row) % self.length) as u64
    }

}

impl<S: Subframes> Burst<S> {
    #[inline(always)]
    fn plan(&mut self) -> [u64; 5] {
        let sent = self.sent();
        let (first, last) = self.subframes.ends(self.from, self.skip, sent);
        [0, first, last, self.copies as u64, sent * self.layout.count()]
    }

    #[inline(always)]
    fn forward(&mut self, p: u64) -> [u64; 6] {
        let w = self.layout.count();
        if p >= self.sent() * w {
            return refused(14);
        }
        let (i, e) = ((p as u32 / w as u32) as u64, (p as u32 % w as u32) as u64);
        let t = self.subframes.nth(self.from, self.skip + i);
        let (slot, l, k) = self.layout.element(e);
        [0, t, slot, l, k, self.carried(i) * w + e]
    }

    #[inline(always)]
    fn step(&mut self, p: &mut u64) -> [u64; 7] {
        let [no, t, slot, l, k, symbol] = self.forward(*p);
        stepped(p, no, self.sent() * self.layout.count(), [t, slot, l, k, symbol])
    }

    #[inline(always)]
    fn backward(&mut self, cell: &Cell, t: u64, slot: u64, l: u64, k: u64) -> [u64; 6] {
        if slot > 1 || l > 6 || k > 11 {
            return refused(14);
        }
        let i = match self.subframes.locate(self.from, self.skip, self.sent(), t) {
            Spot::Outside => return beside(other(0), 0),
            Spot::Skipped => return beside(other(0), self.subframes.why_not(cell, t)),
            Spot::Sent(i) => i,
        };
        if !self.layout.is_used(slot, l, k) {
            return beside(other(self.layout.kind(l, k)), 0);
        }
        let w = self.layout.count();
        let e = self.layout.number(slot, l, k);
        beside(ours(self.carried(i) * w + e, i * w + e), 0)
    }
}

/// Backward's answer with a cause.
#[inline(always)]
fn beside([no, ours, symbol, position, kind]: [u64; 5], cause: u64) -> [u64; 6] {
    [no, ours, symbol, position, kind, cause]
}

/// What is asked of a judged cell: of its pattern, or of what messages leave if some are sent.
macro_rules! asked {
    (($cell:ident, $messages:ident), $anchor:expr, $others:expr, |$judged:ident| $answer:expr) => {
        match $crate::fast::messages::sent($cell, $messages) {
            Some(ms) => $crate::fast::left::among_messages($cell, ms, $anchor, $others, |$judged| $answer),
            None => {
                let $judged = $crate::fast::cell::judged($cell, $messages, $anchor, $others);
                $answer
            }
        }
    };
}
pub(crate) use asked;

#[inline(never)]
pub fn plan_down<const N: usize>(cell: &Cell<N>, anchor: &[u8], others: &[u8], grant: &DownGrant) -> [u64; 5] {
    let (cell, messages) = parts(cell);
    asked!((cell, messages), anchor, others, |judged| down(judged, cell, grant).map_or_else(refused, |mut b| b.plan()))
}

#[inline(never)]
pub fn forward_down<const N: usize>(cell: &Cell<N>, anchor: &[u8], others: &[u8], grant: &DownGrant, p: u64) -> [u64; 6] {
    let (cell, messages) = parts(cell);
    asked!((cell, messages), anchor, others, |judged| down(judged, cell, grant).map_or_else(refused, |mut b| b.forward(p)))
}

#[inline(never)]
pub fn backward_down<const N: usize>(
    cell: &Cell<N>, anchor: &[u8], others: &[u8], grant: &DownGrant, at: [u64; 4],
) -> [u64; 6] {
    let (cell, messages) = parts(cell);
    let [t, slot, l, k] = at;
    asked!((cell, messages), anchor, others, |judged| {
        down(judged, cell, grant).map_or_else(refused, |mut b| b.backward(cell, t, slot, l, k))
    })
}

#[inline(never)]
pub fn plan_control<const N: usize>(cell: &Cell<N>, anchor: &[u8], others: &[u8], grant: &ControlGrant) -> [u64; 5] {
    let (cell, messages) = parts(cell);
    asked!((cell, messages), anchor, others, |judged| control(judged, cell, grant).map_or_else(refused, |mut b| b.plan()))
}

#[inline(never)]
pub fn forward_control<const N: usize>(
    cell: &Cell<N>, anchor: &[u8], others: &[u8], grant: &ControlGrant, p: u64,
) -> [u64; 6] {
    let (cell, messages) = parts(cell);
    asked!((cell, messages), anchor, others, |judged| control(judged, cell, grant).map_or_else(refused, |mut b| b.forward(p)))
}

#[inline(never)]
pub fn backward_control<const N: usize>(
    cell: &Cell<N>, anchor: &[u8], others: &[u8], grant: &ControlGrant, at: [u64; 4],
) -> [u64; 6] {
    let (cell, messages) = parts(cell);
    let [t, slot, l, k] = at;
    asked!((cell, messages), anchor, others, |judged| {
        control(judged, cell, grant).map_or_else(refused, |mut b| b.backward(cell, t, slot, l, k))
    })
}

/// A walk's record: the position, the cell's eight numbers, the grant's, and the rest.
type Record<'a, const G: usize> = (&'a mut u64, &'a Cell, &'a [u64; G], &'a [u64]);

#[inline(always)]
fn record<const G: usize>(walk: &mut [u64]) -> Record<'_, G> {
    let (p, rest) = walk.split_first_mut().expect("the position");
    let (cell, rest) = rest.split_first_chunk().expect("8 numbers");
    let (grant, rest) = rest.split_first_chunk().expect("the grant");
    (p, cell, grant, rest)
}

#[inline(never)]
pub fn step_down<const N: usize>(walk: &mut DownWalk<N>, anchor: &[u8], others: &[u8]) -> [u64; 7] {
    let (p, cell, grant, rest) = record(walk);
    let messages = rest.first_chunk();
    asked!((cell, messages), anchor, others, |judged| down(judged, cell, grant).map_or_else(refused, |mut b| b.step(p)))
}

#[inline(never)]
pub fn step_control<const N: usize>(walk: &mut ControlWalk<N>, anchor: &[u8], others: &[u8]) -> [u64; 7] {
    let (p, cell, grant, rest) = record(walk);
    let messages = rest.first_chunk();
    asked!((cell, messages), anchor, others, |judged| control(judged, cell, grant).map_or_else(refused, |mut b| b.step(p)))
}
