//! The fill of a transmitted subframe of an NPDSCH on one port, and one element of it.

use super::downlink::{asked, down, Burst};
use super::messages::parts;
use super::{Cell, DownGrant};

const ROOT_HALF: f32 = f32::from_bits(0x3f35_04f3);

/// Refusals 14 to 17.
#[inline(always)]
fn late<S>(b: &Burst<S>, cell: &Cell, i: u64, inside: bool, bits: &[u8], fits: bool, level: f32) -> u64 {
    if i >= b.sent() || !inside {
        return 14;
    }
    if bits.len() as u64 != (b.length as u64 * b.layout.count()).div_ceil(4) || !fits {
        return 15;
    }
    if !(1.0 / 1048576.0..=1048576.0).contains(&level) {
        return 16;
    }
    if cell[3] == 2 {
        return 17;
    }
    0
}

/// The two bits of codeword symbol c.
#[inline(always)]
fn pair(bits: &[u8], c: usize) -> usize {
    (bits[c / 4] >> (6 - 2 * (c % 4)) & 3) as usize
}

/// The symbols by their two bits.
#[inline(always)]
fn symbols(level: f32) -> [[f32; 2]; 4] {
    let x = level * ROOT_HALF;
    [[x, x], [x, -x], [-x, x], [-x, -x]]
}

/// Fills the output, or refuses.
#[inline(always)]
fn filled<S>(b: Burst<S>, cell: &Cell, i: u64, bits: &[u8], level: f32, out: &mut [f32]) -> u64 {
    let no = late(&b, cell, i, true, bits, out.len() == 336, level);
    if no != 0 {
        return no;
    }
    let symbols = symbols(level);
    let mut c = (b.carried(i) * b.layout.count()) as usize;
    out.fill(0.0);
    for (row, part) in out.chunks_exact_mut(24).enumerate() {
        let (n, mut places) = b.layout.used(row / 7, row % 7);
        for c in c..c + n {
            let k = 2 * (places & 15) as usize;
            places >>= 4;
            part[k..k + 2].copy_from_slice(&symbols[pair(bits, c)]);
        }
        c += n;
    }
    0
}

#[inline(never)]
pub fn fill<const N: usize>(
    cell: &Cell<N>, lent: [&[u8]; 2], grant: &DownGrant, i: u64, bits: &[u8], level: f32, out: &mut [f32],
) -> u64 {
    let (cell, messages) = parts(cell);
    asked!((cell, messages), lent[0], lent[1], |judged| {
        down(judged, cell, grant).map_or_else(|no| no, |b| filled(b, cell, i, bits, level, out))
    })
}

/// The refusal, the state, and the symbol's two numbers.
#[inline(always)]
fn found<S>(b: Burst<S>, cell: &Cell, at: [u64; 4], bits: &[u8], level: f32) -> (u64, u64, [f32; 2]) {
    let [i, slot, l, k] = at;
    let inside = slot < 2 && l < 7 && k < 12;
    let no = late(&b, cell, i, inside, bits, true, level);
    if no != 0 {
        return (no, 0, [0.0; 2]);
    }
    if !b.layout.is_used(slot, l, k) {
        return (0, b.layout.kind(l, k), [0.0; 2]);
    }
    let c = b.carried(i) * b.layout.count() + b.layout.number(slot, l, k);
    (0, 4, symbols(level)[pair(bits, c as usize)])
}

#[inline(never)]
pub fn element<const N: usize>(
    cell: &Cell<N>, lent: [&[u8]; 2], grant: &DownGrant, at: [u64; 4], bits: &[u8], level: f32,
) -> (u64, u64, [f32; 2]) {
    let (cell, messages) = parts(cell);
    asked!((cell, messages), lent[0], lent[1], |judged| {
        down(judged, cell, grant).map_or_else(|no| (no, 0, [0.0; 2]), |b| found(b, cell, at, bits, level))
    })
}
