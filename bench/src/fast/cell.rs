//! A cell: its refusals, its usable subframes as spans of forty, and why another is not usable.

use super::left::{among_messages, Left};
use super::messages::{are_listed, parts, sent, Messages};
use super::Cell;

const ALL: u64 = 0xff_ffff_ffff;
const FOUR_TIMES: u64 = 0x4010_0401;
const PLAIN: u64 = 0xf7_9def_79de;
const NOT_EVEN: u64 = 0xf7_9cef_79ce;
const NOT_ODD: u64 = 0xf3_9def_39de;

pub const ONES: u64 = 0x0101_0101_0101_0101;
const HIGH: u64 = 0x8080_8080_8080_8080;

/// The usable subframes: `1 << shift` spans to a period, with SIB1 in the four from `first` on.
pub struct Pattern {
    pub shift: u32,
    pub first: u32,
    pub plain: u64,
    pub sib1: u64,
    pub in_plain: u32,
    pub in_sib1: u32,
}

/// Refusals 1 to 6 and 24.
#[inline(always)]
fn numbers(cell: &Cell) -> u64 {
    let [mode, carrier, identity, nports, cports, control, sib1, _] = *cell;
    let (ports, regions) = if mode < 2 { (0b10110, 0b1110) } else { (1, 1) };
    if mode > 3 || carrier > 1 {
        return 1;
    }
    if identity > 503 {
        return 2;
    }
    if nports.wrapping_sub(1) > 1 {
        return 3;
    }
    if cports > 4 || (ports >> cports) & 1 == 0 {
        return 4;
    }
    if control > 3 || (regions >> control) & 1 == 0 {
        return 5;
    }
    if mode == 0 && cports != nports {
        return 24;
    }
    if sib1 > 11 {
        return 6;
    }
    0
}

/// The bits of each byte in reverse.
#[inline(always)]
fn reversed(m: u64) -> u64 {
    let m = (m >> 1) & 0x5555_5555_5555_5555 | (m & 0x5555_5555_5555_5555) << 1;
    let m = (m >> 2) & 0x3333_3333_3333_3333 | (m & 0x3333_3333_3333_3333) << 2;
    (m >> 4) & 0x0f0f_0f0f_0f0f_0f0f | (m & 0x0f0f_0f0f_0f0f_0f0f) << 4
}

/// The bitmap as a number, subframe i of forty at digit i; none for refusal 7.
#[inline(always)]
fn bitmap_mask(bits: u64, own: &[u8]) -> Option<u64> {
    match bits {
        0 => Some(ALL),
        10 => {
            let &[a, b] = own.first_chunk::<2>()?;
            let m = reversed(a as u64 | (b as u64) << 8);
            (b & 63 == 0).then_some(m * FOUR_TIMES)
        }
        40 => {
            let &[a, b, c, d, e] = own.first_chunk::<5>()?;
            Some(reversed(u64::from_le_bytes([a, b, c, d, e, 0, 0, 0])))
        }
        _ => None,
    }
}

/// A cell's refusal but for what messages take, or the bitmap's mask and the pattern without counts.
#[inline(always)]
pub fn masks(cell: &Cell, messages: Option<&Messages>, anchor: &[u8], others: &[u8]) -> Result<Pattern, u64> {
    let no = numbers(cell);
    if no != 0 {
        return Err(no);
    }
    let &[_, carrier, identity, _, _, _, schedule, bits] = cell;
    let own = if carrier == 0 { anchor } else { others };
    let m = bitmap_mask(bits, own).ok_or(7u64)?;
    if messages.is_some_and(|ms| !are_listed(ms)) {
        return Err(21);
    }
    if m == 0 {
        return Err(8);
    }
    let mut p = Pattern { shift: 2, first: 0, plain: m, sib1: m, in_plain: 0, in_sib1: 0 };
    if carrier == 0 {
        let identity = identity as u32;
        p.plain = m & PLAIN;
        p.sib1 = m & NOT_EVEN;
        match schedule as u32 % 3 {
            0 => (p.shift, p.first) = (4, 4 * (identity & 3)),
            1 => (p.shift, p.first) = (3, 4 * (identity & 1)),
            _ if identity & 1 == 1 => p.sib1 = m & NOT_ODD,
            _ => {}
        }
    }
    if p.sib1 == 0 && (p.shift == 2 || p.plain == 0) {
        return Err(18);
    }
    Ok(p)
}

#[inline(always)]
pub fn judged_number<const N: usize>(cell: &Cell<N>, anchor: &[u8], others: &[u8]) -> u64 {
    let (cell, messages) = parts(cell);
    if let Some(ms) = sent(cell, messages) {
        return among_messages(cell, ms, anchor, others, |left| number(left));
    }
    number(masks(cell, messages, anchor, others))
}

/// The refusal, or 0.
#[inline(always)]
fn number<T>(judged: Result<T, u64>) -> u64 {
    match judged {
        Ok(_) => 0,
        Err(no) => no,
    }
}

#[inline(never)]
pub fn judge<const N: usize>(cell: &Cell<N>, anchor: &[u8], others: &[u8]) -> u64 {
    judged_number(cell, anchor, others)
}

/// The bitmap in force: the buffer that it is a part of, and its bytes; 0, 2 or 5 for 0, 10 or 40 bits.
#[inline(never)]
pub fn bitmap<const N: usize>(cell: &Cell<N>, anchor: &[u8], others: &[u8]) -> [u64; 3] {
    match judged_number(cell, anchor, others) {
        0 => [0, cell[1], (cell[7] + 7) / 8],
        no => [no, 0, 0],
    }
}

/// The number of the cause of a subframe that is not usable.
#[inline(always)]
pub fn why_not(cell: &Cell, t: u64) -> u64 {
    let &[_, carrier, identity, _, _, _, schedule, _] = cell;
    if carrier != 0 {
        return 6;
    }
    let frame = t / 10;
    match t % 10 {
        0 => 1,
        5 => 2,
        9 if frame % 2 == 0 => 3,
        4 => {
            let (first, frames) = sib1_frames(identity, schedule);
            let x = (frame + 64 - first) & (frames - 1);
            if x & 1 == 0 && x < 16 { 4 } else { 6 }
        }
        _ => 6,
    }
}

/// SIB1's first frame, and how many frames lie from copy to copy.
#[inline(always)]
pub fn sib1_frames(identity: u64, schedule: u64) -> (u64, u64) {
    match schedule as u32 % 3 {
        0 => (16 * (identity & 3), 64),
        1 => (16 * (identity & 1), 32),
        _ => (identity & 1, 16),
    }
}

#[inline(never)]
pub fn cause<const N: usize>(cell: &Cell<N>, anchor: &[u8], others: &[u8], t: u64) -> [u64; 2] {
    let (cell, messages) = parts(cell);
    if let Some(ms) = sent(cell, messages) {
        let ask = |left: Result<&mut Left, u64>| left.map_or_else(|no| [no, 0], |left| [0, left.cause(cell, t)]);
        return among_messages(cell, ms, anchor, others, ask);
    }
    match masks(cell, messages, anchor, others) {
        Ok(p) if p.allows(t) => [0, 0],
        Ok(_) => [0, why_not(cell, t)],
        Err(no) => [no, 0],
    }
}

/// A cell's refusal, or its pattern; no messages are sent.
#[inline(always)]
pub fn judged(cell: &Cell, messages: Option<&Messages>, anchor: &[u8], others: &[u8]) -> Result<Pattern, u64> {
    let mut p = masks(cell, messages, anchor, others)?;
    p.in_plain = p.plain.count_ones();
    p.in_sib1 = p.sib1.count_ones();
    Ok(p)
}

/// What a grant's search finds of subframe t.
pub enum Spot {
    /// Before the first that is sent, or after the last.
    Outside,
    /// Between them and not usable.
    Skipped,
    /// The i-th that is sent.
    Sent(u64),
}

/// The subframes that a grant may be sent in.
pub trait Subframes {
    /// The j-th from a given one on, and the last of `many` from that on.
    fn ends(&mut self, from: u64, j: u64, many: u64) -> (u64, u64);

    fn nth(&mut self, from: u64, j: u64) -> u64;

    /// Where t lies among `many` from the j-th on.
    fn locate(&mut self, from: u64, j: u64, many: u64, t: u64) -> Spot;

    /// The number of the cause of a subframe that is not usable.
    fn why_not(&self, cell: &Cell, t: u64) -> u64;
}

/// The ones of each byte of a mask.
#[inline(always)]
pub fn byte_counts(m: u64) -> u64 {
    let s = m - ((m >> 1) & 0x5555_5555_5555_5555);
    let s = (s & 0x3333_3333_3333_3333) + ((s >> 2) & 0x3333_3333_3333_3333);
    (s + (s >> 4)) & 0x0f0f_0f0f_0f0f_0f0f
}

/// The ones of each byte of a mask and of those below it.
#[inline(always)]
pub fn prefix_sums(m: u64) -> u64 {
    byte_counts(m).wrapping_mul(ONES)
}

/// The place of the k-th one of a mask: the byte by prefix sums of its bytes' counts, then a table.
#[inline(always)]
pub fn select(m: u64, k: u32) -> u32 {
    let s = prefix_sums(m);
    let passed = ((k as u64 * ONES | HIGH) - s) & HIGH;
    let place = ((passed >> 7).wrapping_mul(ONES) >> 56) * 8;
    let rest = k as u64 - ((s << 8) >> place & 0xff);
    place as u32 + IN_BYTE[((m >> place & 0xff) << 3 | rest) as usize] as u32
}

/// Place of the k-th one of a byte, at 8 times the byte plus k.
pub const IN_BYTE: [u8; 2048] = {
    let mut table = [0; 2048];
    let mut byte = 0;
    while byte < 256 {
        let (mut k, mut i) = (0, 0);
        while i < 8 {
            if byte >> i & 1 == 1 {
                table[byte * 8 + k] = i as u8;
                k += 1;
            }
            i += 1;
        }
        byte += 1;
    }
    table
};

/// Division of numbers below 640 by 1 to 40, as a product.
pub const INVERSES: [u32; 41] = {
    let mut table = [0; 41];
    let mut n = 1;
    while n <= 40 {
        table[n] = 65535 / n as u32 + 1;
        n += 1;
    }
    table
};

impl Pattern {
    #[inline(always)]
    pub fn mask(&self, span: u64) -> u64 {
        let x = span as u32 & ((1 << self.shift) - 1);
        if x.wrapping_sub(self.first) < 4 { self.sib1 } else { self.plain }
    }

    /// How many usable subframes lie before subframe t.
    #[inline(always)]
    pub fn rank(&self, t: u64) -> u64 {
        let (s, i) = (t / 40, t % 40);
        let x = s as u32 & ((1 << self.shift) - 1);
        let h = (s >> self.shift) * 4 + x.saturating_sub(self.first).min(4) as u64;
        let part = (self.mask(s) & ((1 << i) - 1)).count_ones() as u64;
        h * self.in_sib1 as u64 + (s - h) * self.in_plain as u64 + part
    }

    /// The subframe of the first period before which k usable ones lie.
    #[inline(always)]
    fn pick(&self, k: u32) -> u32 {
        let lead = self.first * self.in_plain;
        let (mask, n, s, k) = if k < lead {
            (self.plain, self.in_plain, 0, k)
        } else if k - lead < 4 * self.in_sib1 {
            (self.sib1, self.in_sib1, self.first, k - lead)
        } else {
            (self.plain, self.in_plain, self.first + 4, k - lead - 4 * self.in_sib1)
        };
        let q = k * INVERSES[n as usize] >> 16;
        40 * (s + q) + select(mask, k - q * n)
    }

    /// The usable subframe before which k usable ones lie.
    #[inline(always)]
    pub fn at(&self, k: u64) -> u64 {
        let per = 4 * self.in_sib1 + ((1 << self.shift) - 4) * self.in_plain;
        let k = k as u32;
        ((k / per) as u64) * (40 << self.shift) + self.pick(k % per) as u64
    }

    #[inline(always)]
    pub fn allows(&self, t: u64) -> bool {
        self.mask(t / 40) >> (t % 40) & 1 == 1
    }

    /// How many usable subframes lie between a given one and t, t aside; none where t lies before.
    #[inline(always)]
    fn index(&self, from: u64, t: u64) -> Option<u64> {
        (t >= from).then(|| self.rank(t) - self.rank(from))
    }

    /// Counts what the masks allow, in whole and by frames.
    #[inline(always)]
    pub fn count_frames(&mut self) -> Frames {
        let (plain, sib1);
        (plain, self.in_plain) = quarters(self.plain);
        (sib1, self.in_sib1) = quarters(self.sib1);
        let which = ([6, 4, 0][self.shift as usize - 2] + self.first / 4) as usize;
        let (every, fewer) = (self.in_plain as u16, (self.in_plain - self.in_sib1) as u16);
        let before = std::array::from_fn(|span| span as u16 * every - SIB1_BEFORE[which][span] * fewer);
        let all = 16 * self.in_plain - SIB1_SPANS[which].count_ones() * (self.in_plain - self.in_sib1);
        Frames { with_sib1: SIB1_SPANS[which], before, all, quarters: [plain, sib1] }
    }
}

/// Which of 16 spans have SIB1: four of 16 from each fourth one on, four of 8 from either, or all.
const SIB1_SPANS: [u32; 7] = [0x000f, 0x00f0, 0x0f00, 0xf000, 0x0f0f, 0xf0f0, 0xffff];

/// How many of them lie before each span.
const SIB1_BEFORE: [[u16; 16]; 7] = {
    let mut table = [[0; 16]; 7];
    let mut i = 0;
    while i < 7 * 16 {
        let (which, span) = (i / 16, i % 16);
        table[which][span] = (SIB1_SPANS[which] & ((1 << span) - 1)).count_ones() as u16;
        i += 1;
    }
    table
};

impl Subframes for Pattern {
    #[inline(always)]
    fn ends(&mut self, from: u64, j: u64, many: u64) -> (u64, u64) {
        let k = self.rank(from) + j;
        (self.at(k), self.at(k + many - 1))
    }

    #[inline(always)]
    fn nth(&mut self, from: u64, j: u64) -> u64 {
        self.at(self.rank(from) + j)
    }

    #[inline(always)]
    fn locate(&mut self, from: u64, j: u64, many: u64, t: u64) -> Spot {
        let Some(i) = self.index(from, t) else {
            return Spot::Outside;
        };
        let i = i.wrapping_sub(j);
        if i >= many {
            return Spot::Outside;
        }
        if !self.allows(t) {
            return if i == 0 { Spot::Outside } else { Spot::Skipped };
        }
        Spot::Sent(i)
    }

    #[inline(always)]
    fn why_not(&self, cell: &Cell, t: u64) -> u64 {
        why_not(cell, t)
    }
}

/// The allowed subframes by frames: which of 16 spans have SIB1, how many are allowed before each of them and in all of them, and of both
/// masks how many lie in a span before each of its four frames, by sixteen digits.
pub struct Frames {
    with_sib1: u32,
    before: [u16; 16],
    all: u32,
    quarters: [u64; 2],
}

/// A mask's ones before each of the four frames of a span, by sixteen digits, and all of them.
#[inline(always)]
fn quarters(m: u64) -> (u64, u32) {
    const FRAME: u64 = 0x3ff;
    const FOURTHS: u64 = 0x0001_0001_0001_0001;
    let apart = m & FRAME | (m & FRAME << 10) << 6 | (m & FRAME << 20) << 12 | (m & FRAME << 30) << 18;
    let bytes = byte_counts(apart);
    let sums = ((bytes + (bytes >> 8)) & 0xff * FOURTHS).wrapping_mul(FOURTHS);
    (sums << 16, (sums >> 48) as u32)
}

impl Frames {
    /// How many allowed subframes lie before a frame.
    #[inline(always)]
    pub fn before(&self, frame: u32) -> u32 {
        let span = (frame / 4 % 16) as usize;
        let quarters = self.quarters[(self.with_sib1 >> span & 1) as usize];
        frame / 64 * self.all + self.before[span] as u32 + (quarters >> (16 * (frame % 4)) & 0xffff) as u32
    }
}
