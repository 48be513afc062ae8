//! Inputs: cells and grants at random, accepted ones for the times and any for the comparison.

use crate::fast::{self, AckGrant, AckWalk, Cell, ControlGrant, ControlWalk, DownGrant, DownWalk, SearchSpace, UpGrant, UpWalk};

/// xorshift64*: the same numbers in every run.
pub struct Random(u64);

impl Random {
    pub fn new(seed: u64) -> Random {
        Random(seed)
    }

    pub fn next(&mut self) -> u64 {
        self.0 ^= self.0 >> 12;
        self.0 ^= self.0 << 25;
        self.0 ^= self.0 >> 27;
        self.0.wrapping_mul(0x2545_f491_4f6c_dd1d) >> 16
    }

    pub fn below(&mut self, n: u64) -> u64 {
        self.next() % n
    }

    pub fn one_of(&mut self, list: &[u64]) -> u64 {
        list[self.below(list.len() as u64) as usize]
    }

    /// Mostly a number below n; now and then one out of range.
    pub fn often_below(&mut self, n: u64) -> u64 {
        match self.below(24) {
            0 => n,
            1 => n + self.below(64),
            2 => u64::MAX - self.below(2),
            _ => self.below(n),
        }
    }
}

/// One cell and a grant of each kind, with a position, a place and a walk for each; the windows beside the two uplink grants; a search
/// space; a transmitted subframe, and bits and a level to fill it.
#[derive(Clone)]
pub struct Input {
    pub cell: Cell,
    pub anchor: [u8; 5],
    pub other: [u8; 5],
    pub up: UpGrant,
    pub ack: AckGrant,
    pub down: DownGrant,
    pub control: ControlGrant,
    pub windows: [Vec<u64>; 2],
    pub space: SearchSpace,
    pub p: [u64; 4],
    pub at_up: [u64; 3],
    pub at_ack: [u64; 3],
    pub at_down: [u64; 4],
    pub at_control: [u64; 4],
    pub walk_up: UpWalk,
    pub walk_ack: AckWalk,
    pub walk_down: DownWalk,
    pub walk_control: ControlWalk,
    pub i: u64,
    pub bits: Vec<u8>,
    pub level: f32,
}

/// Parts one after the other.
pub fn joined<const N: usize>(parts: &[&[u64]]) -> [u64; N] {
    parts.concat().try_into().expect("the parts fill the record")
}

pub fn cell(r: &mut Random) -> Cell {
    let mode = r.below(4);
    let in_band = mode < 2;
    let cports = if in_band { r.one_of(&[1, 2, 4]) } else { 0 };
    let control = if in_band { 1 + r.below(3) } else { 0 };
    same_ports([mode, r.below(2), r.below(504), 1 + r.below(2), cports, control, r.below(12), r.one_of(&[0, 10, 40])])
}

/// In mode 0 the cell ports are the narrowband ports.
fn same_ports<const N: usize>(mut cell: Cell<N>) -> Cell<N> {
    if cell[0] == 0 {
        cell[4] = cell[3];
    }
    cell
}

/// The same cell with one narrowband port.
pub fn one_port<const N: usize>(mut cell: Cell<N>) -> Cell<N> {
    cell[3] = 1;
    same_ports(cell)
}

/// A bitmap of 10 or 40 bits, about half of them ones.
pub fn bitmap(r: &mut Random, bits: u64) -> [u8; 5] {
    let mut bytes = [0; 5];
    for byte in &mut bytes {
        *byte = r.below(256) as u8;
    }
    if bits == 10 {
        bytes[1] &= 0xc0;
    }
    bytes
}

fn up(r: &mut Random) -> UpGrant {
    let spacing = r.below(2);
    let fields = if spacing == 0 { 48 } else { 19 };
    [r.below(1 << 30), spacing, r.below(fields), r.below(8), r.below(8), r.below(4), r.below(5)]
}

fn ack(r: &mut Random) -> AckGrant {
    [r.below(1 << 31), r.below(2), r.below(16), r.below(8)]
}

pub fn down(r: &mut Random) -> DownGrant {
    [r.below(1 << 30), r.below(8), 1 << r.below(12), r.below(8), r.below(16)]
}

pub fn control(r: &mut Random) -> ControlGrant {
    let format = r.below(2);
    [r.below(1 << 30), 1 << r.below(12), format, if format == 0 { r.below(2) } else { 0 }]
}

/// Before one is drawn: search spaces have a generator of their own, so that those of the other inputs draw as if there were none.
pub const NO_SPACE: SearchSpace = [0; 4];

/// A search space, which may have a period too short or an offset too long.
fn drawn_space(r: &mut Random) -> SearchSpace {
    [r.below(1 << 30), 1 << r.below(12), r.below(8), r.below(4)]
}

/// A search space that is accepted: a period of 4 or more, and an offset in a hyperframe.
pub fn space(r: &mut Random) -> SearchSpace {
    loop {
        let space = drawn_space(r);
        let doubled = space[1] * [3, 4, 8, 16, 32, 64, 96, 128][space[2] as usize];
        if doubled >= 8 && space[3] * (doubled / 2) / 8 < 10_240 {
            return space;
        }
    }
}

/// Any search space: now and then one asked from one of the last subframes, or a number out of range.
pub fn any_space(r: &mut Random) -> SearchSpace {
    let mut space = drawn_space(r);
    if r.below(16) == 0 {
        space[0] = (1 << 30) - 1 - r.below(10_240);
    }
    let i = r.below(16) as usize;
    if i < 4 {
        space[i] = r.often_below([1 << 30, 2049, 8, 4][i]);
    }
    space
}

/// One to so many windows that share a tone of 3.75 kHz.
fn windows(r: &mut Random, tone: u64, most: u64) -> Vec<u64> {
    let count = 1 + r.below(most);
    let mut numbers = vec![count];
    for _ in 0..4 {
        let (period, start) = (40 << r.below(7), 8 << r.below(8));
        let length = r.one_of(&[172_032, 196_608]) << r.below(7);
        let lowest = tone.saturating_sub(11);
        numbers.extend([period, start, length, lowest + r.below(tone.min(36) - lowest + 1)]);
    }
    numbers
}

impl Input {
    fn plain(r: &mut Random) -> Input {
        let cell = cell(r);
        let (anchor, other) = (bitmap(r, cell[7]), bitmap(r, cell[7]));
        let (up, ack, down, control) = (up(r), ack(r), down(r), control(r));
        let (at_up, at_ack, at_down, at_control) = ([0; 3], [0; 3], [0; 4], [0; 4]);
        let (walk_up, walk_ack, walk_down, walk_control) = ([0; 8], [0; 5], [0; 14], [0; 13]);
        let (space, i, bits, level) = (NO_SPACE, 0, Vec::new(), 1.0);
        Input {
            cell, anchor, other, up, ack, down, control, windows: [vec![], vec![]], space, p: [0; 4], at_up, at_ack, at_down, at_control,
            walk_up, walk_ack, walk_down, walk_control, i, bits, level,
        }
    }

    /// The walks' records, at the positions.
    pub fn set_walks(&mut self) {
        let Input { cell, up, ack, down, control, p, .. } = self;
        self.walk_up = joined(&[&p[..1], &up[..]]);
        self.walk_ack = joined(&[&p[3..], &ack[..]]);
        self.walk_down = joined(&[&p[1..2], &cell[..], &down[..]]);
        self.walk_control = joined(&[&p[2..3], &cell[..], &control[..]]);
    }

    /// Bits of the whole codeword, and a transmitted subframe, from the plan of the downlink grant.
    pub fn pick_data(&mut self, r: &mut Random) {
        let plan = fast::plan_down(&self.cell, &self.anchor, &self.other, &self.down);
        let lengths = [1, 2, 3, 4, 5, 6, 8, 10];
        let sent = plan[3] * lengths[self.down[3].min(7) as usize];
        let symbols = if sent == 0 { 0 } else { plan[4] / plan[3] };
        self.bits = (0..symbols.div_ceil(4)).map(|_| r.below(256) as u8).collect();
        self.i = r.below(sent.max(1));
        self.level = 1.0 / (1.0 + r.below(1000) as f32);
    }

    /// How many places each grant has.
    pub fn places(&self) -> [u64; 4] {
        [
            fast::plan_up_windows(&self.up, &self.windows[0])[4],
            fast::plan_down(&self.cell, &self.anchor, &self.other, &self.down)[4],
            fast::plan_control(&self.cell, &self.anchor, &self.other, &self.control)[4],
            fast::plan_ack_windows(&self.ack, &self.windows[1])[4],
        ]
    }

    /// Positions below the places, and every other place one that is ours.
    pub fn pick_places(&mut self, r: &mut Random) {
        let s = &*self;
        let p = s.places().map(|places| r.below(places.max(1)));
        let [_, slot, l, k, _] = fast::forward_up_windows(&s.up, &s.windows[0], p[0]);
        let [_, t, a, b, c, _] = fast::forward_down(&s.cell, &s.anchor, &s.other, &s.down, p[1]);
        let [_, u, d, e, f, _] = fast::forward_control(&s.cell, &s.anchor, &s.other, &s.control, p[2]);
        let [_, at_ack @ .., _] = fast::forward_ack_windows(&s.ack, &s.windows[1], p[3]);
        (self.at_up, self.at_ack, self.at_down, self.at_control) = ([slot, l, k], at_ack, [t, a, b, c], [u, d, e, f]);
        if r.below(2) == 0 {
            let (slot, l, k) = (r.below(2), r.below(7), r.below(12));
            self.at_up = [self.at_up[0] + r.below(3), l, k];
            self.at_ack = [self.at_ack[0] + r.below(3), l, self.at_ack[2] + r.below(2)];
            self.at_down = [t + r.below(3), slot, l, k];
            self.at_control = [u + r.below(3), slot, l, k];
        }
        self.p = p;
    }

    /// Position p of the downlink grant, and its place.
    pub fn place(&mut self, p: u64) {
        self.p[1] = p;
        let [_, t, slot, l, k, _] = fast::forward_down(&self.cell, &self.anchor, &self.other, &self.down, p);
        self.at_down = [t, slot, l, k];
    }

    /// Position p of the uplink grant, and its place.
    pub fn place_up(&mut self, p: u64) {
        self.p[0] = p;
        let [_, at @ .., _] = fast::forward_up_windows(&self.up, &self.windows[0], p);
        self.at_up = at;
    }

    /// On a non-anchor, a bitmap of 40 bits with so many ones, evenly spread.
    pub fn spread_ones(&mut self, ones: u64) {
        self.cell[1] = 1;
        self.cell[7] = 40;
        self.other = [0; 5];
        for one in 0..ones {
            let bit = (one * 40 / ones + self.cell[2]) % 40;
            self.other[(bit / 8) as usize] |= 0x80 >> (bit % 8);
        }
    }

    /// A cell and grants that are accepted.
    pub fn accepted(r: &mut Random) -> Input {
        loop {
            let mut input = Input::plain(r);
            if fast::judge(&input.cell, &input.anchor, &input.other) == 0 {
                input.pick_places(r);
                input.pick_data(r);
                input.set_walks();
                return input;
            }
        }
    }

    /// The first tone of each uplink grant, at 3.75 kHz.
    fn first_tones(&self) -> [u64; 2] {
        let up = fast::forward_up(&self.up, 0)[3] << (2 * (self.up[1] & 1));
        let ack = fast::forward_ack(&self.ack, 0)[3] << (2 * (self.ack[1] & 1));
        [up, ack]
    }

    /// Beside one to so many windows that push its uplink grants aside.
    pub fn beside_windows(mut self, r: &mut Random, most: u64) -> Input {
        let [up, ack] = self.first_tones();
        loop {
            self.windows = [windows(r, up, most), windows(r, ack, most)];
            let no = [fast::plan_up_windows(&self.up, &self.windows[0])[0], fast::plan_ack_windows(&self.ack, &self.windows[1])[0]];
            if no == [0, 0] {
                self.pick_places(r);
                self.set_walks();
                return self;
            }
        }
    }

    /// Beside any windows: now and then a number that is not listed, or the position after the last.
    pub fn beside_any_windows(mut self, r: &mut Random) -> Input {
        let tones = self.first_tones();
        self.windows = tones.map(|tone| windows(r, tone, 3));
        self.pick_places(r);
        for numbers in &mut self.windows {
            let i = r.below(68) as usize;
            if i < 17 {
                numbers[i] = r.often_below(numbers[i] + 1);
            }
        }
        if r.below(3) == 0 {
            self.p = self.p.map(|p| r.often_below(p + 1));
            self.at_up[0] = r.often_below(self.at_up[0] + 2);
            self.at_ack[0] = r.often_below(self.at_ack[0] + 2);
        } else if r.below(8) == 0 {
            self.p = self.places();
        }
        self.set_walks();
        self
    }

    /// Any numbers: now and then a field out of range, or the position after the last.
    pub fn any(r: &mut Random) -> Input {
        let mut input = Input::plain(r);
        input.pick_places(r);
        input.pick_data(r);
        let limits = [4, 2, 504, 3, 5, 4, 12, 41];
        let i = r.below(24) as usize;
        if i < 8 {
            input.cell[i] = r.often_below(limits[i]);
        }
        input.anchor[1] |= (r.below(8) == 0) as u8;
        let i = r.below(14) as usize;
        if i < 7 {
            input.up[i] = r.often_below([1 << 30, 2, 64, 8, 8, 4, 16][i]);
            input.ack[i % 4] = r.often_below([1 << 31, 2, 16, 8][i % 4]);
            input.down[i % 5] = r.often_below([1 << 30, 8, 2049, 8, 16][i % 5]);
            input.control[i % 4] = r.often_below([1 << 30, 2049, 2, 2][i % 4]);
        }
        if r.below(3) == 0 {
            input.p = input.p.map(|p| r.often_below(p + 1));
            let (slot, l, k) = (r.often_below(2), r.often_below(7), r.often_below(48));
            input.at_up = [r.often_below(input.at_up[0] + 2), l, k];
            input.at_ack = [r.often_below(input.at_ack[0] + 2), l, k];
            input.at_down = [r.often_below(input.at_down[0] + 2), slot, l, k % 13];
            input.at_control = [r.often_below(input.at_control[0] + 2), slot, l, k % 13];
            input.i = r.often_below(input.i + 1);
            input.level = f32::from_bits(r.next() as u32);
            input.bits.truncate(r.often_below(input.bits.len() as u64 + 1) as usize);
        } else if r.below(8) == 0 {
            input.p = input.places();
        }
        input.set_walks();
        input
    }

    pub fn with_space(mut self, space: SearchSpace) -> Input {
        self.space = space;
        self
    }

    /// With one narrowband port, as a fill asks it.
    pub fn with_one_port(mut self, r: &mut Random) -> Input {
        self.cell = one_port(self.cell);
        self.pick_data(r);
        self
    }
}
