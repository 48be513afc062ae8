//! The UE-specific search space of NPDCCH: its start, and all candidates from there on. Eight blocks of the smallest R are looked for, or
//! as many as Rmax has; each candidate begins with one of them and ends with one.

use super::cell::{prefix_sums, Pattern, INVERSES, IN_BYTE, ONES};
use super::downlink::{asked, is_repetition};
use super::left::Left;
use super::messages::parts;
use super::{refused, Cell, SearchSpace, LAST_SUBFRAME};

const HYPERFRAME: u32 = 10_240;

/// 2G by field.
const DOUBLED_G: [u32; 8] = [3, 4, 8, 16, 32, 64, 96, 128];

/// The first block and the last of each candidate, by first subframe, then R. With fewer blocks those remain whose last one there is.
const ORDER: [[usize; 2]; 15] = [
    [0, 0], [0, 1], [0, 3], [0, 7], [1, 1], [2, 2], [2, 3], [3, 3], [4, 4], [4, 5], [4, 7], [5, 5], [6, 6], [6, 7], [7, 7],
];

/// The first and the last subframe of each block.
#[derive(Default)]
struct Blocks {
    first: [u64; 8],
    last: [u64; 8],
}

/// An accepted question: the start, and Rmax in so many blocks of a size.
struct Space<S> {
    subframes: S,
    start: u64,
    many: usize,
    size: u32,
}

#[inline(always)]
fn space<S>(judged: Result<S, u64>, space: &SearchSpace) -> Result<Space<S>, u64> {
    let subframes = judged?;
    let &[n, rmax, g, alpha] = space;
    if n > LAST_SUBFRAME {
        return Err(9);
    }
    if g > 7 || alpha > 3 {
        return Err(10);
    }
    if !is_repetition(rmax) {
        return Err(12);
    }
    let doubled = rmax as u32 * DOUBLED_G[g as usize];
    if doubled < 8 {
        return Err(22);
    }
    let (period, part) = (doubled / 2, alpha as u32 * (doubled / 2) / 8);
    if part >= HYPERFRAME {
        return Err(23);
    }
    let rmax = rmax as u32;
    Ok(Space { subframes, start: start(n as u32, period, part), many: rmax.min(8) as usize, size: (rmax / 8).max(1) })
}

/// The first start not before n. A period is a power of two, or three times one: a third is taken by a product.
#[inline(always)]
fn start(n: u32, period: u32, part: u32) -> u64 {
    let (x, log) = (n % HYPERFRAME, period.trailing_zeros());
    let q = (x.saturating_sub(part) + period - 1) >> log;
    let q = if period >> log == 3 { q * 21846 >> 16 } else { q };
    let y = part + q * period;
    let y = if y < HYPERFRAME { y } else { HYPERFRAME + part };
    (n - x + y) as u64
}

/// Subframes in which blocks are looked for.
trait Blocked {
    fn blocks(&mut self, start: u64, many: usize, size: u32) -> Blocks;
}

impl<S: Blocked> Space<S> {
    #[inline(always)]
    fn answer(&mut self) -> [u64; 48] {
        let blocks = self.subframes.blocks(self.start, self.many, self.size);
        match self.many {
            1 => listed::<1>(self.start, self.size, &blocks),
            2 => listed::<2>(self.start, self.size, &blocks),
            4 => listed::<4>(self.start, self.size, &blocks),
            _ => listed::<8>(self.start, self.size, &blocks),
        }
    }
}

/// The order for so many blocks.
const fn order(many: usize) -> [[usize; 2]; 15] {
    let (mut kept, mut k, mut i) = ([[0; 2]; 15], 0, 0);
    while i < 15 {
        if ORDER[i][1] < many {
            kept[k] = ORDER[i];
            k += 1;
        }
        i += 1;
    }
    kept
}

/// The answer for a number of blocks that the compiler knows.
#[inline(always)]
fn listed<const M: usize>(start: u64, size: u32, blocks: &Blocks) -> [u64; 48] {
    let mut answer = [0; 48];
    (answer[1], answer[2]) = (start, 2 * M as u64 - 1);
    for k in 0..2 * M - 1 {
        let [i, j] = const { order(M) }[k];
        answer[3 + 3 * k] = blocks.first[i];
        answer[4 + 3 * k] = (j + 1 - i) as u64 * size as u64;
        answer[5 + 3 * k] = blocks.last[j];
    }
    answer
}

/// The places of both kinds of spans' usable subframes, one after the other.
struct Places([u8; 144]);

/// Where those of a span with SIB1 begin among the places; those of a plain one begin at 0.
const WITH_SIB1: usize = 72;

impl Places {
    /// Puts a span's places, and counts them.
    #[inline(always)]
    fn put(&mut self, at: usize, mask: u64) -> u32 {
        let sums = prefix_sums(mask);
        for byte in 0..5 {
            let before = (sums << 8 >> (8 * byte) & 63) as usize;
            let here = u64::from_le_bytes(IN_BYTE.as_chunks().0[(mask >> (8 * byte) & 0xff) as usize]) + 8 * byte * ONES;
            self.0[at + before..at + before + 8].copy_from_slice(&here.to_le_bytes());
        }
        (sums >> 56) as u32
    }
}

/// Spans of a period that have the same places: their first usable subframe's rank, where they begin, how many usable ones each has, this
/// number's inverse, and where the places begin.
struct Run {
    rank: u32,
    begin: u32,
    ones: u32,
    inverse: u32,
    places: u32,
}

/// A period: plain spans, the four with SIB1, and plain ones again.
struct Period {
    places: Places,
    runs: [Run; 3],
    /// How many usable subframes it has, this number's inverse, and how many subframes.
    all: u32,
    inverse: u32,
    length: u64,
}

/// A usable subframe: where its span begins, its place's number and the number after the last of its span.
struct Picked {
    begin: u64,
    place: u32,
    end: u32,
}

impl Period {
    #[inline(always)]
    fn new(p: &mut Pattern) -> Period {
        let mut places = Places([0; 144]);
        p.in_plain = places.put(0, p.plain);
        p.in_sib1 = places.put(WITH_SIB1, p.sib1);
        let (lead, first) = (p.first * p.in_plain, 40 * p.first);
        let run = |rank, begin, ones, places| Run { rank, begin, ones, inverse: INVERSES[ones as usize], places };
        let runs = [
            run(0, 0, p.in_plain, 0),
            run(lead, first, p.in_sib1, WITH_SIB1 as u32),
            run(lead + 4 * p.in_sib1, first + 160, p.in_plain, 0),
        ];
        let all = 4 * p.in_sib1 + ((1 << p.shift) - 4) * p.in_plain;
        Period { places, runs, all, inverse: u32::MAX / all + 1, length: 40 << p.shift }
    }

    /// The subframe before which k usable ones lie from the period's begin on, k below 2^22.
    #[inline(always)]
    fn pick(&self, k: u32) -> Picked {
        let periods = (k as u64 * self.inverse as u64 >> 32) as u32;
        let k = k - periods * self.all;
        let run = &self.runs[(k >= self.runs[1].rank) as usize + (k >= self.runs[2].rank) as usize];
        let k = k - run.rank;
        let q = k * run.inverse >> 16;
        let begin = periods as u64 * self.length + (run.begin + 40 * q) as u64;
        Picked { begin, place: run.places + k - q * run.ones, end: run.places + run.ones }
    }

    #[inline(always)]
    fn at(&self, begin: u64, place: u32) -> u64 {
        begin + self.places.0[place as usize & 127] as u64
    }

    #[inline(always)]
    fn one(&self, k: u32) -> u64 {
        let Picked { begin, place, .. } = self.pick(k);
        self.at(begin, place)
    }

    /// The same, and the usable one after it.
    #[inline(always)]
    fn two(&self, k: u32) -> [u64; 2] {
        let Picked { begin, place, end } = self.pick(k);
        let next = if place + 1 < end { self.at(begin, place + 1) } else { self.one(k + 1) };
        [self.at(begin, place), next]
    }
}

impl Pattern {
    /// Blocks of one subframe.
    #[inline(always)]
    fn singles(&self, start: u64, many: usize) -> Blocks {
        let mut first = [0; 8];
        let mut s = start / 40;
        let mut rest = self.mask(s) & !0 << (start % 40);
        for block in &mut first[..many] {
            while rest == 0 {
                s += 1;
                rest = self.mask(s);
            }
            *block = 40 * s + rest.trailing_zeros() as u64;
            rest &= rest - 1;
        }
        Blocks { first, last: first }
    }

    /// Eight blocks of two subframes or more, from the rank of the start in its period.
    #[inline(always)]
    fn eight(&mut self, start: u64, size: u32) -> Blocks {
        let period = Period::new(self);
        let (begin, mut k) = self.in_period(start);
        let mut blocks = Blocks::default();
        let mut next = begin + period.one(k);
        for i in 0..8 {
            k += size;
            blocks.first[i] = next;
            [blocks.last[i], next] = period.two(k - 1).map(|t| begin + t);
        }
        blocks
    }

    /// Where the period of a subframe begins, and how many usable ones lie from there to it.
    #[inline(always)]
    fn in_period(&self, t: u64) -> (u64, u32) {
        let begin = (t / 40 >> self.shift) * (40 << self.shift);
        (begin, self.rank(t - begin) as u32)
    }
}

impl Blocked for Pattern {
    #[inline(always)]
    fn blocks(&mut self, start: u64, many: usize, size: u32) -> Blocks {
        if size == 1 { self.singles(start, many) } else { self.eight(start, size) }
    }
}

impl Blocked for &mut Left {
    /// One search, which goes on from each end of a block to the next.
    #[inline(always)]
    fn blocks(&mut self, start: u64, many: usize, size: u32) -> Blocks {
        let mut blocks = Blocks::default();
        let period = Period::new(&mut self.pattern);
        let (mut g, mut zero) = self.sight(start, 0);
        let mut quiet = 0;
        let ends = if size == 1 { many } else { 2 * many };
        let mut found = [0; 16];
        for (i, t) in found[..ends].iter_mut().enumerate() {
            // where no window is open, what is left is what is free
            let free = if g.k < quiet { g.at.free + g.k } else { self.free_before(&mut g, &mut zero, &mut quiet) };
            *t = zero.wrapping_add(period.one(free));
            g.k += if i % 2 == 0 && size > 1 { size - 1 } else { 1 };
        }
        let step = ends / many;
        for i in 0..many {
            (blocks.first[i], blocks.last[i]) = (found[step * i], found[step * i + step - 1]);
        }
        blocks
    }
}

#[inline(never)]
pub fn search<const N: usize>(cell: &Cell<N>, anchor: &[u8], others: &[u8], asked: &SearchSpace) -> [u64; 48] {
    let (cell, messages) = parts(cell);
    asked!((cell, messages), anchor, others, |judged| space(judged, asked).map_or_else(refused, |mut s| s.answer()))
}
