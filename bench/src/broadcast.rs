//! NPBCH and SIB1: cells that broadcast them, and the lines of the first table. All are drawn by a generator of their own.

use crate::fast::{self, Cell, Messages};
use crate::measure::versus;
use crate::messages::{InputWithMessages, Schedules};
use crate::ours;
use crate::questions::{line, report};
use crate::inputs::{joined, Input, Random};

/// A cell, and a position and a place of each of its two channels.
pub struct Broadcast<const N: usize = 8> {
    pub cell: Cell<N>,
    pub anchor: [u8; 5],
    pub other: [u8; 5],
    pub p: [u64; 2],
    pub at_npbch: [u64; 4],
    pub at_sib1: [u64; 4],
}

/// A place in some period, or in every other case one nearby that may be another's.
fn near(r: &mut Random, [_, t, slot, l, k, _]: [u64; 6], period: u64) -> [u64; 4] {
    let t = t + period * r.below(1 << 20);
    if r.below(2) == 0 { [t, slot, l, k] } else { [t + r.one_of(&[0, 1, 10, 20]), r.below(2), r.below(7), r.below(12)] }
}

impl<const N: usize> Broadcast<N> {
    /// At positions below the places.
    fn at_picked_places(r: &mut Random, cell: Cell<N>, [anchor, other]: [[u8; 5]; 2]) -> Broadcast<N> {
        let p = fast::broadcast_places(&cell, &anchor, &other).map(|places| r.below(places.max(1)));
        let at_npbch = near(r, fast::forward_npbch(&cell, &anchor, &other, p[0]), 640);
        let at_sib1 = near(r, fast::forward_sib1(&cell, &anchor, &other, p[1]), 2560);
        Broadcast { cell, anchor, other, p, at_npbch, at_sib1 }
    }

    /// Now and then a position or a place out of range, or the position after the last.
    fn with_places_out_of_range(mut self, r: &mut Random) -> Broadcast<N> {
        if r.below(3) == 0 {
            self.p = self.p.map(|p| r.often_below(p + 1));
            let (slot, l, k) = (r.often_below(2), r.often_below(7), r.often_below(12));
            self.at_npbch = [r.often_below(self.at_npbch[0] + 2), slot, l, k];
            self.at_sib1 = [r.often_below(self.at_sib1[0] + 2), slot, l, k];
        } else if r.below(8) == 0 {
            self.p = fast::broadcast_places(&self.cell, &self.anchor, &self.other);
        }
        self
    }
}

impl Broadcast {
    /// An anchor that is accepted.
    pub fn accepted(r: &mut Random) -> Broadcast {
        loop {
            let s = Input::accepted(r);
            if s.cell[1] == 0 {
                return Broadcast::at_picked_places(r, s.cell, [s.anchor, s.other]);
            }
        }
    }

    /// Any numbers, now and then of a non-anchor.
    pub fn any(r: &mut Random) -> Broadcast {
        let mut s = Input::any(r);
        if r.below(4) != 0 {
            s.cell[1] = 0;
        }
        Broadcast::at_picked_places(r, s.cell, [s.anchor, s.other]).with_places_out_of_range(r)
    }

    /// With messages beside the cell's numbers; positions and places stay.
    pub fn beside(&self, messages: &Messages) -> Broadcast<23> {
        let &Broadcast { cell, anchor, other, p, at_npbch, at_sib1 } = self;
        Broadcast { cell: joined(&[&cell, messages]), anchor, other, p, at_npbch, at_sib1 }
    }
}

impl Broadcast<23> {
    /// An accepted anchor with messages.
    pub fn accepted_with(r: &mut Random, schedules: Schedules) -> Broadcast<23> {
        let s = InputWithMessages::accepted(r, schedules);
        Broadcast::at_picked_places(r, s.cell, [s.anchor, s.other])
    }

    /// Any numbers with messages, now and then of a non-anchor.
    pub fn any_with(r: &mut Random, schedules: Schedules) -> Broadcast<23> {
        let s = InputWithMessages::any(r, schedules);
        Broadcast::at_picked_places(r, s.cell, [s.anchor, s.other]).with_places_out_of_range(r)
    }
}

/// The lines of the four questions, each with its name.
pub fn lines<const N: usize>(timed: &mut [Broadcast<N>], compared: &mut [Broadcast<N>], named: &impl Fn(&str) -> String) {
    forwards(timed, compared, named);
    backwards(timed, compared, named);
    let numbers: Vec<u64> = compared.iter().map(|s| fast::forward_sib1(&s.cell, &s.anchor, &s.other, s.p[1])[0]).collect();
    let many = |no| numbers.iter().filter(|&&x| x == no).count();
    assert!(2 * many(0) >= numbers.len(), "too few accepted positions");
    assert!(many(25) > 0 && many(14) > 0, "no non-anchor, or no position past the end");
}

fn forwards<const N: usize>(timed: &mut [Broadcast<N>], compared: &mut [Broadcast<N>], named: &impl Fn(&str) -> String) {
    line!(
        &named("forward npbch"), timed, compared, 6,
        |s, a| ours::forward_npbch(&s.cell, &s.anchor, &s.other, s.p[0], a),
        fast::forward_npbch(&s.cell, &s.anchor, &s.other, s.p[0])
    );
    line!(
        &named("forward sib1"), timed, compared, 6,
        |s, a| ours::forward_sib1(&s.cell, &s.anchor, &s.other, s.p[1], a),
        fast::forward_sib1(&s.cell, &s.anchor, &s.other, s.p[1])
    );
}

fn backwards<const N: usize>(timed: &mut [Broadcast<N>], compared: &mut [Broadcast<N>], named: &impl Fn(&str) -> String) {
    line!(
        &named("backward npbch"), timed, compared, 5,
        |s, a| {
            let [t, slot, l, k] = s.at_npbch;
            ours::backward_npbch(&s.cell, &s.anchor, &s.other, t, slot, l, k, a)
        },
        fast::backward_npbch(&s.cell, &s.anchor, &s.other, s.at_npbch)
    );
    line!(
        &named("backward sib1"), timed, compared, 5,
        |s, a| {
            let [t, slot, l, k] = s.at_sib1;
            ours::backward_sib1(&s.cell, &s.anchor, &s.other, t, slot, l, k, a)
        },
        fast::backward_sib1(&s.cell, &s.anchor, &s.other, s.at_sib1)
    );
}
