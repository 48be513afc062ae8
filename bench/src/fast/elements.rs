//! The elements of a downlink subframe, row by row: a symbol of a slot is a row of twelve subcarriers.

use super::Cell;

const ONES: u64 = 0x0101_0101_0101_0101;
const HIGH: u64 = 0x8080_8080_8080_8080;

/// References in a row of a slot: none, near (k mod 6 = v), far (v + 3), or both.
const KINDS: [[[u8; 7]; 5]; 2] = {
    let mut table = [[[0; 7]; 5]; 2];
    let mut n = 0;
    while n < 2 {
        let narrow = if n == 0 { [1, 2] } else { [3, 3] };
        let mut c = 0;
        while c < 5 {
            let wide: [u8; 3] = match c {
                0 => [0, 0, 0],
                1 => [1, 0, 2],
                2 => [3, 0, 3],
                _ => [3, 3, 3],
            };
            table[n][c] = [wide[0], wide[1], 0, 0, wide[2], narrow[0], narrow[1]];
            c += 1;
        }
        n += 1;
    }
    table
};

/// Used subcarriers of each row, a byte each.
const COUNTS: [[u64; 5]; 2] = {
    let mut table = [[0; 5]; 2];
    let mut i = 0;
    while i < 10 {
        let mut l = 0;
        while l < 7 {
            let kind = KINDS[i / 5][i % 5][l];
            table[i / 5][i % 5] |= (12 - 2 * (kind & 1) as u64 - 2 * (kind >> 1) as u64) << (8 * l);
            l += 1;
        }
        i += 1;
    }
    table
};

/// Of a row by its references and v: the used subcarriers by digits; the k-th of them, and how many lie before k, by four digits each.
struct Row {
    used: u64,
    places: u64,
    before: u64,
}

const ROWS: [[Row; 6]; 4] = {
    const fn row(kind: usize, v: usize) -> Row {
        let mut row = Row { used: 0, places: 0, before: 0 };
        let (mut k, mut n) = (0, 0);
        while k < 12 {
            row.before |= n << (4 * k);
            let near = kind & 1 == 1 && k % 6 == v;
            let far = kind & 2 == 2 && k % 6 == (v + 3) % 6;
            if !near && !far {
                row.used |= 1 << k;
                row.places |= (k as u64) << (4 * n);
                n += 1;
            }
            k += 1;
        }
        row
    }
    const fn rows(kind: usize) -> [Row; 6] {
        [row(kind, 0), row(kind, 1), row(kind, 2), row(kind, 3), row(kind, 4), row(kind, 5)]
    }
    [rows(0), rows(1), rows(2), rows(3)]
};

/// A layout with the part of it that a grant uses: `width` subcarriers from `low` on. Prefix sums of the rows' counts by slot.
pub struct Layout {
    v: usize,
    kinds: &'static [u8; 7],
    control: u64,
    low: u64,
    width: u64,
    sums: [u64; 2],
}

impl Layout {
    #[inline(always)]
    pub fn new(cell: &Cell, low: u64, width: u64) -> Layout {
        let &[_, _, identity, nports, cports, control, _, _] = cell;
        let (n, c) = (nports as usize - 1 & 1, (cports as usize).min(4));
        let counts = COUNTS[n][c] >> (width == 6) as u32;
        let sums = [(counts & u64::MAX << (8 * control)).wrapping_mul(ONES), counts.wrapping_mul(ONES)];
        Layout { v: (identity as u32 % 6) as usize, kinds: &KINDS[n][c], control, low, width, sums }
    }

    /// E.
    #[inline(always)]
    pub fn count(&self) -> u64 {
        (self.sums[0] >> 56) + (self.sums[1] >> 56)
    }

    #[inline(always)]
    fn row(&self, l: usize) -> &'static Row {
        &ROWS[self.kinds[l] as usize][self.v]
    }

    /// Slot, symbol and subcarrier of the e-th element.
    #[inline(always)]
    pub fn element(&self, e: u64) -> (u64, u64, u64) {
        let first = self.sums[0] >> 56;
        let slot = (e >= first) as usize;
        let e = if slot == 1 { e - first } else { e };
        let sums = self.sums[slot];
        let l = (((e * ONES | HIGH) - sums & HIGH) >> 7).wrapping_mul(ONES) >> 56;
        let i = e - ((sums << 8) >> (8 * l) & 0xff);
        (slot as u64, l, self.low + (self.row(l as usize).places >> (4 * i) & 15))
    }

    /// Used subcarriers of a row, how many, and the i-th of them in four digits; for all twelve subcarriers.
    #[inline(always)]
    pub fn used(&self, slot: usize, l: usize) -> (usize, u64) {
        if slot == 0 && (l as u64) < self.control {
            return (0, 0);
        }
        let row = self.row(l);
        (row.used.count_ones() as usize, row.places)
    }

    #[inline(always)]
    pub fn is_used(&self, slot: u64, l: u64, k: u64) -> bool {
        let closed = slot == 0 && l < self.control;
        !closed && k.wrapping_sub(self.low) < self.width && self.row(l as usize).used >> k & 1 == 1
    }

    /// How many used elements lie before a used one.
    #[inline(always)]
    pub fn number(&self, slot: u64, l: u64, k: u64) -> u64 {
        let passed = if slot == 1 { self.sums[0] >> 56 } else { 0 };
        let rows = (self.sums[slot as usize] << 8) >> (8 * l) & 0xff;
        passed + rows + (self.row(l as usize).before >> (4 * (k - self.low)) & 15)
    }

    /// 1 narrowband, 2 cell reference, else 0: no symbol has both.
    #[inline(always)]
    pub fn kind(&self, l: u64, k: u64) -> u64 {
        let taken = self.row(l as usize).used >> k & 1 == 0;
        if !taken {
            return 0;
        }
        if l >= 5 { 1 } else { 2 }
    }
}

/// E by narrowband ports, cell ports and control region.
const E: [[[u8; 4]; 5]; 2] = {
    let mut table = [[[0; 4]; 5]; 2];
    let mut i = 0;
    while i < 40 {
        let (n, c, control) = (i / 20, i / 4 % 5, i % 4);
        let mut l = 0;
        while l < 7 {
            let row = (COUNTS[n][c] >> (8 * l) & 0xff) as u8;
            table[n][c][control] += if l < control { row } else { 2 * row };
            l += 1;
        }
        i += 1;
    }
    table
};

#[inline(never)]
pub fn count<const N: usize>(cell: &Cell<N>, anchor: &[u8], others: &[u8]) -> [u64; 2] {
    let no = super::cell::judged_number(cell, anchor, others);
    if no != 0 {
        return [no, 0];
    }
    [0, E[cell[3] as usize - 1][cell[4] as usize][cell[5] as usize] as u64]
}
