//! NPBCH and SIB1, which an anchor sends by itself: NPBCH repeats after 64 frames, SIB1 after 256.

use super::cell::{judged_number, sib1_frames};
use super::elements::Layout;
use super::messages::parts;
use super::{other, ours, refused, Cell};

/// NPBCH's elements of a subframe, and its places.
const WIDTH: u64 = 100;
const PLACES: u64 = 64 * WIDTH;

/// A subframe of NPBCH: slot, symbol and subcarrier of each element in one, three and four digits; and by row, seven to a slot, and
/// subcarrier the element's number, or the width plus the kind of what is not NPBCH's.
struct Grid {
    elements: [u8; WIDTH as usize],
    numbers: [[u8; 12]; 14],
}

/// By the identity mod 3: references stand at every third subcarrier of all symbols but 2 and 3. The first three symbols are control's.
const GRIDS: [Grid; 3] = [grid(0), grid(1), grid(2)];

const fn grid(v: usize) -> Grid {
    let mut grid = Grid { elements: [0; WIDTH as usize], numbers: [[WIDTH as u8; 12]; 14] };
    let (mut i, mut n) = (0, 0);
    while i < 14 * 12 {
        let (row, l, k) = (i / 12, i / 12 % 7, i % 12);
        if k % 3 == v && l != 2 && l != 3 {
            grid.numbers[row][k] += if l >= 5 { 1 } else { 2 };
        } else if row >= 3 {
            grid.elements[n] = (row / 7 << 7 | l << 4 | k) as u8;
            grid.numbers[row][k] = n as u8;
            n += 1;
        }
        i += 1;
    }
    grid
}

#[inline(always)]
fn grid_of<const N: usize>(cell: &Cell<N>) -> &'static Grid {
    &GRIDS[cell[2] as usize % 3]
}

/// SIB1 of an accepted anchor.
struct Sib1 {
    layout: Layout,
    first: u64,
    frames: u64,
}

impl Sib1 {
    /// The control region has three symbols in-band.
    #[inline(always)]
    fn new<const N: usize>(cell: &Cell<N>) -> Sib1 {
        let mut own = *parts(cell).0;
        own[5] = if own[0] < 2 { 3 } else { 0 };
        let (first, frames) = sib1_frames(own[2], own[6]);
        Sib1 { layout: Layout::new(&own, 0, 12), first, frames }
    }

    /// Eight subframes a copy, and a copy every so many of 256 frames.
    #[inline(always)]
    fn places(&self) -> u64 {
        (8 * 256 >> self.frames.trailing_zeros()) * self.layout.count()
    }

    #[inline(always)]
    fn forward(&self, p: u64) -> [u64; 6] {
        if p >= self.places() {
            return refused(14);
        }
        let w = self.layout.count();
        let (i, e) = ((p as u32 / w as u32) as u64, (p as u32 % w as u32) as u64);
        let frame = self.first + self.frames * (i / 8) + 2 * (i % 8);
        let (slot, l, k) = self.layout.element(e);
        [0, 10 * frame + 4, slot, l, k, i % 8 * w + e]
    }

    /// Which of its subframes of a period t is.
    #[inline(always)]
    fn sent(&self, t: u64) -> Option<u64> {
        let frame = t / 10 % 256;
        let x = (frame + 64 - self.first) & (self.frames - 1);
        let found = t % 10 == 4 && x % 2 == 0 && x < 16;
        found.then(|| 8 * (frame >> self.frames.trailing_zeros()) + x / 2)
    }

    /// What stands in the i-th of them.
    #[inline(always)]
    fn found(&self, i: u64, slot: u64, l: u64, k: u64) -> [u64; 5] {
        if !self.layout.is_used(slot, l, k) {
            return other(self.layout.kind(l, k));
        }
        let (w, e) = (self.layout.count(), self.layout.number(slot, l, k));
        ours(i % 8 * w + e, i * w + e)
    }
}

/// The cell's refusal, or that of a non-anchor.
#[inline(always)]
fn refusal<const N: usize>(cell: &Cell<N>, anchor: &[u8], others: &[u8]) -> u64 {
    let no = judged_number(cell, anchor, others);
    if no == 0 && cell[1] != 0 { 25 } else { no }
}

/// The same, or that of a place outside the grid.
#[inline(always)]
fn place_refusal<const N: usize>(cell: &Cell<N>, anchor: &[u8], others: &[u8], [_, slot, l, k]: [u64; 4]) -> u64 {
    let no = refusal(cell, anchor, others);
    if no == 0 && (slot > 1 || l > 6 || k > 11) { 14 } else { no }
}

/// How many places NPBCH and SIB1 have in a period; none in a refused cell.
pub fn places<const N: usize>(cell: &Cell<N>, anchor: &[u8], others: &[u8]) -> [u64; 2] {
    if refusal(cell, anchor, others) != 0 {
        return [0; 2];
    }
    [PLACES, Sib1::new(cell).places()]
}

#[inline(never)]
pub fn forward_npbch<const N: usize>(cell: &Cell<N>, anchor: &[u8], others: &[u8], p: u64) -> [u64; 6] {
    let no = refusal(cell, anchor, others);
    if no != 0 {
        return refused(no);
    }
    if p >= PLACES {
        return refused(14);
    }
    let (i, e) = (p / WIDTH, p % WIDTH);
    let x = grid_of(cell).elements[e as usize] as u64;
    [0, 10 * i, x >> 7, x >> 4 & 7, x & 15, i / 8 * WIDTH + e]
}

#[inline(never)]
pub fn forward_sib1<const N: usize>(cell: &Cell<N>, anchor: &[u8], others: &[u8], p: u64) -> [u64; 6] {
    let no = refusal(cell, anchor, others);
    if no != 0 {
        return refused(no);
    }
    Sib1::new(cell).forward(p)
}

#[inline(never)]
pub fn backward_npbch<const N: usize>(cell: &Cell<N>, anchor: &[u8], others: &[u8], at: [u64; 4]) -> [u64; 5] {
    let no = place_refusal(cell, anchor, others, at);
    if no != 0 {
        return refused(no);
    }
    let [t, slot, l, k] = at;
    if t % 10 != 0 {
        return other(0);
    }
    let i = t / 10 % 64;
    let x = grid_of(cell).numbers[(7 * slot + l) as usize][k as usize] as u64;
    if x < WIDTH { ours(i / 8 * WIDTH + x, i * WIDTH + x) } else { other(x - WIDTH) }
}

#[inline(never)]
pub fn backward_sib1<const N: usize>(cell: &Cell<N>, anchor: &[u8], others: &[u8], at: [u64; 4]) -> [u64; 5] {
    let no = place_refusal(cell, anchor, others, at);
    if no != 0 {
        return refused(no);
    }
    let ([t, slot, l, k], sib1) = (at, Sib1::new(cell));
    sib1.sent(t).map_or(other(0), |i| sib1.found(i, slot, l, k))
}
