//! Inputs whose cells have messages: a cell of 23 numbers, and walks with the 15 of its messages after the grant.

use crate::fast::{self, Cell, ControlGrant, ControlWalk, DownGrant, DownWalk, Messages, SearchSpace};
use crate::inputs::{self, bitmap, cell, control, down, joined, one_port, Input, Random, NO_SPACE};

const WINDOWS: [u64; 7] = [160, 320, 480, 640, 960, 1280, 1600];

/// How the schedules of a cell lie to each other.
#[derive(Clone, Copy, PartialEq)]
pub enum Schedules {
    /// A single one.
    One,
    /// Four, and no window of one ever meets a window of another.
    Apart,
    /// Two to four, of which at least two have windows that meet.
    Meeting,
    /// The slowest answers that were found among cells with windows that meet.
    Slowest,
}

impl Schedules {
    pub const ALL: [Schedules; 4] = [Schedules::One, Schedules::Apart, Schedules::Meeting, Schedules::Slowest];

    pub fn name(self) -> &'static str {
        match self {
            Schedules::One => "one schedule",
            Schedules::Apart => "four apart",
            Schedules::Meeting => "windows that meet",
            Schedules::Slowest => "slowest",
        }
    }
}

/// A cell with messages and a grant of both downlink kinds, with a position, a place and a walk for each; a search space; a transmitted
/// subframe, and bits and a level to fill it.
#[derive(Clone)]
pub struct InputWithMessages {
    pub cell: Cell<23>,
    pub anchor: [u8; 5],
    pub other: [u8; 5],
    pub down: DownGrant,
    pub control: ControlGrant,
    pub space: SearchSpace,
    pub p: [u64; 2],
    pub at_down: [u64; 4],
    pub at_control: [u64; 4],
    pub walk_down: DownWalk<29>,
    pub walk_control: ControlWalk<28>,
    pub i: u64,
    pub bits: Vec<u8>,
    pub level: f32,
}

/// A schedule with a period of at least so many frames.
fn schedule(r: &mut Random, least: u64) -> [u64; 3] {
    loop {
        let period = 64 << r.below(7);
        if period >= least {
            return [period, 2 << r.below(4), r.one_of(&[2, 8])];
        }
    }
}

/// Windows of two schedules that open so many frames one after the other meet: both repeat with the shorter period.
fn do_meet(frames: u64, later: u64, one: u64, other: u64) -> bool {
    let period = one.min(other);
    let ahead = later % period;
    ahead < frames || period - ahead < frames
}

/// Some two of the schedules that are read have windows that meet.
fn any_meet(messages: &Messages) -> bool {
    let (frames, count) = (messages[0] / 10, messages[2] as usize);
    (0..count).any(|j| (0..j).any(|i| do_meet(frames, (j - i) as u64 * frames, messages[3 + 3 * i], messages[3 + 3 * j])))
}

/// Listed messages; those past the count are listed too.
fn drawn(r: &mut Random, schedules: Schedules) -> Messages {
    let (window, offset) = (r.one_of(&WINDOWS), r.below(16));
    let frames = window / 10;
    let (count, least) = match schedules {
        Schedules::One => (1, frames),
        Schedules::Apart => (4, 4 * frames),
        Schedules::Meeting => (2 + r.below(3), frames),
        Schedules::Slowest => return slowest(offset),
    };
    let entries: [[u64; 3]; 4] = std::array::from_fn(|_| schedule(r, least));
    joined(&[&[window, offset, count], entries.as_flattened()])
}

/// Two or three of the first three schedules have a window open at any time, so that every unit is passed by itself. The third has the
/// shortest distance of copies and the last the longest period, so that there are the most units until all repeats.
fn slowest(offset: u64) -> Messages {
    [480, offset, 4, 64, 16, 8, 64, 8, 8, 64, 2, 8, 4096, 8, 8]
}

/// A bitmap beside which so few are left that a grant of many copies goes over more than one period.
const SLOWEST_BITMAP: [u8; 5] = [0x81, 0xde, 0x5b, 0x87, 0x04];

fn messages(r: &mut Random, schedules: Schedules) -> Messages {
    loop {
        let messages = drawn(r, schedules);
        if any_meet(&messages) == matches!(schedules, Schedules::Meeting | Schedules::Slowest) {
            return messages;
        }
    }
}

/// A search space that is accepted, of many copies where the answers are to be slow.
pub fn space(r: &mut Random, schedules: Schedules) -> SearchSpace {
    let [n, rmax, g, alpha] = inputs::space(r);
    if schedules == Schedules::Slowest { [n, 2048, g, 0] } else { [n, rmax, g, alpha] }
}

impl InputWithMessages {
    fn plain(r: &mut Random, schedules: Schedules) -> InputWithMessages {
        let eight = cell(r);
        let (anchor, other) = (bitmap(r, eight[7]), bitmap(r, eight[7]));
        let cell = joined(&[&eight, &messages(r, schedules)]);
        let (down, control) = (down(r), control(r));
        let mut made = InputWithMessages {
            cell, anchor, other, down, control, space: NO_SPACE, p: [0; 2], at_down: [0; 4], at_control: [0; 4],
            walk_down: [0; 29], walk_control: [0; 28], i: 0, bits: vec![], level: 1.0,
        };
        if schedules == Schedules::Slowest {
            made.slow(12 + r.below(4));
        }
        made
    }

    /// The slowest bitmap, and grants of many copies: a field of the NPDSCH.
    fn slow(&mut self, copies: u64) {
        (self.cell[7], self.anchor) = (40, SLOWEST_BITMAP);
        self.down = [self.down[0], self.down[1], 2048, 7, copies];
        self.control[1] = 2048;
    }

    /// A input's downlink with messages beside its cell's numbers; positions and places stay.
    pub fn of(s: &Input, messages: &Messages) -> InputWithMessages {
        let mut made = InputWithMessages {
            cell: joined(&[&s.cell, messages]), anchor: s.anchor, other: s.other, down: s.down, control: s.control,
            space: s.space, p: [s.p[1], s.p[2]], at_down: s.at_down, at_control: s.at_control,
            walk_down: [0; 29], walk_control: [0; 28], i: s.i, bits: s.bits.clone(), level: s.level,
        };
        made.set_walks();
        made
    }

    /// The walks' records, at the positions.
    pub fn set_walks(&mut self) {
        let (eight, messages) = self.cell.split_at(8);
        self.walk_down = joined(&[&self.p[..1], eight, &self.down, messages]);
        self.walk_control = joined(&[&self.p[1..], eight, &self.control, messages]);
    }

    fn plan_down(&self) -> [u64; 5] {
        fast::plan_down(&self.cell, &self.anchor, &self.other, &self.down)
    }

    /// How many places each grant has.
    fn places(&self) -> [u64; 2] {
        [self.plan_down()[4], fast::plan_control(&self.cell, &self.anchor, &self.other, &self.control)[4]]
    }

    /// Positions of both grants, and their places.
    pub fn place(&mut self, p: [u64; 2]) {
        self.p = p;
        let [_, at_down @ .., _] = fast::forward_down(&self.cell, &self.anchor, &self.other, &self.down, p[0]);
        let [_, at_control @ .., _] = fast::forward_control(&self.cell, &self.anchor, &self.other, &self.control, p[1]);
        (self.at_down, self.at_control) = (at_down, at_control);
    }

    /// Positions below the places, and every other place one that is ours.
    pub fn pick_places(&mut self, r: &mut Random) {
        let p = self.places().map(|places| r.below(places.max(1)));
        self.place(p);
        if r.below(2) == 0 {
            let (slot, l, k) = (r.below(2), r.below(7), r.below(12));
            self.at_down = [self.at_down[0] + r.below(3), slot, l, k];
            self.at_control = [self.at_control[0] + r.below(3), slot, l, k];
        }
    }

    /// Bits of the whole codeword, and a transmitted subframe, from the plan of the NPDSCH.
    fn pick_data(&mut self, r: &mut Random) {
        let [_, _, _, copies, places] = self.plan_down();
        let sent = copies * [1, 2, 3, 4, 5, 6, 8, 10][self.down[3].min(7) as usize];
        let symbols = if sent == 0 { 0 } else { places / copies };
        self.bits = (0..symbols.div_ceil(4)).map(|_| r.below(256) as u8).collect();
        self.i = r.below(sent.max(1));
        self.level = 1.0 / (1.0 + r.below(1000) as f32);
    }

    /// An anchor whose messages are sent.
    pub fn anchor(r: &mut Random, schedules: Schedules) -> InputWithMessages {
        let mut input = InputWithMessages::plain(r, schedules);
        input.cell[1] = 0;
        input
    }

    /// Such an anchor that is accepted, and accepted grants.
    pub fn accepted(r: &mut Random, schedules: Schedules) -> InputWithMessages {
        loop {
            let mut input = InputWithMessages::anchor(r, schedules);
            if fast::judge(&input.cell, &input.anchor, &input.other) == 0 {
                input.pick_places(r);
                input.pick_data(r);
                input.set_walks();
                return input;
            }
        }
    }

    /// Any numbers: now and then a non-anchor, a count that is not the schedules', a field out of range, or the position after the last.
    pub fn any(r: &mut Random, schedules: Schedules) -> InputWithMessages {
        let mut input = InputWithMessages::plain(r, schedules);
        input.cell[1] = (r.below(8) == 0) as u64;
        if r.below(8) == 0 {
            input.cell[10] = r.below(5);
        }
        input.pick_places(r);
        input.pick_data(r);
        if r.below(3) == 0 {
            input.at_down[0] = input.in_window(r, input.at_down[0]);
            input.at_control[0] = input.in_window(r, input.at_control[0]);
        }
        input.put_numbers_out_of_range(r);
        input.put_places_out_of_range(r);
        input.set_walks();
        input
    }

    /// A subframe of a schedule's first window that opens in the frame of t or later.
    fn in_window(&self, r: &mut Random, t: u64) -> u64 {
        let (frames, offset, j) = (self.cell[8] / 10, self.cell[9], r.below(self.cell[10].max(1)));
        let period = self.cell[11 + 3 * j as usize];
        let ahead = (j * frames + offset).wrapping_sub(t / 10) % period;
        10 * (t / 10 + ahead) + r.below(10 * frames)
    }

    /// Now and then a number of the cell or of a grant out of range.
    fn put_numbers_out_of_range(&mut self, r: &mut Random) {
        let limits = [4, 2, 504, 3, 5, 4, 12, 41, 1601, 16, 5, 4097, 17, 9, 4097, 17, 9, 4097, 17, 9, 4097, 17, 9];
        let i = r.below(92) as usize;
        if i < 23 {
            self.cell[i] = r.often_below(limits[i]);
        }
        self.anchor[1] |= (r.below(16) == 0) as u8;
        let i = r.below(20) as usize;
        if i < 5 {
            self.down[i] = r.often_below([1 << 30, 8, 2049, 8, 16][i]);
            self.control[i % 4] = r.often_below([1 << 30, 2049, 2, 2][i % 4]);
        }
    }

    /// Now and then a position or a place out of range, or the position after the last.
    fn put_places_out_of_range(&mut self, r: &mut Random) {
        if r.below(3) == 0 {
            self.p = self.p.map(|p| r.often_below(p + 1));
            let (slot, l, k) = (r.often_below(2), r.often_below(7), r.often_below(13));
            self.at_down = [r.often_below(self.at_down[0] + 2), slot, l, k];
            self.at_control = [r.often_below(self.at_control[0] + 2), slot, l, k];
            self.i = r.often_below(self.i + 1);
            self.level = f32::from_bits(r.next() as u32);
            self.bits.truncate(r.often_below(self.bits.len() as u64 + 1) as usize);
        } else if r.below(8) == 0 {
            self.p = self.places();
        }
    }

    pub fn with_space(mut self, space: SearchSpace) -> InputWithMessages {
        self.space = space;
        self
    }

    /// With one narrowband port, as a fill asks it.
    pub fn with_one_port(mut self, r: &mut Random) -> InputWithMessages {
        self.cell = one_port(self.cell);
        self.pick_data(r);
        self
    }
}
