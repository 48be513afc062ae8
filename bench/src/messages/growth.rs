//! What a call costs on a cell with messages as one number of its grant or of its messages, or the bitmap's ones, change.

use super::inputs::{InputWithMessages, Schedules};
use crate::fast;
use crate::fast::Messages;
use crate::growth::search_line;
use crate::measure::versus;
use crate::ours;
use crate::inputs::Random;

const INPUTS: usize = 256;
const MEETING_INPUTS: usize = 16;

/// One schedule: a window of 160 ms every 512 frames, a copy of 8 subframes in every second frame of it. The others are as it is.
const USUAL: Messages = [160, 0, 1, 512, 2, 8, 512, 2, 8, 512, 2, 8, 512, 2, 8];

/// Subframes of a span that the anchor takes for nothing.
const OPEN: [u64; 24] = [1, 2, 3, 6, 7, 8, 11, 12, 13, 16, 17, 18, 21, 22, 23, 26, 27, 28, 31, 32, 33, 36, 37, 38];

/// Nanoseconds a call of plan, forward and backward, of ours and of fast.
fn times(inputs: &mut [InputWithMessages]) -> [(f64, f64); 3] {
    let (mut plan, mut place, mut back) = ([0; 5], [0; 6], [0; 6]);
    let planned = versus(
        inputs,
        |s| ours::plan_down(&s.cell, &s.anchor, &s.other, &s.down, &mut plan),
        |s| fast::plan_down(&s.cell, &s.anchor, &s.other, &s.down),
    );
    let forward = versus(
        inputs,
        |s| ours::forward_down(&s.cell, &s.anchor, &s.other, &s.down, s.p[0], &mut place),
        |s| fast::forward_down(&s.cell, &s.anchor, &s.other, &s.down, s.p[0]),
    );
    let backward = versus(
        inputs,
        |s| {
            let [t, slot, l, k] = s.at_down;
            ours::backward_down(&s.cell, &s.anchor, &s.other, &s.down, t, slot, l, k, &mut back)
        },
        |s| fast::backward_down(&s.cell, &s.anchor, &s.other, &s.down, s.at_down),
    );
    [planned, forward, backward]
}

fn line(name: &str, value: u64, inputs: &mut [InputWithMessages]) {
    let [plan, forward, backward] = times(inputs).map(|(ours, fast)| format!("{ours:.1} | {fast:.1}"));
    println!("| {name} | {value} | {plan} | {forward} | {backward} |");
}

/// Standalone anchors of all identities, two ports and no bitmap, with messages of all offsets and one change, at random positions.
fn inputs(r: &mut Random, many: usize, messages: Messages, change: impl Fn(&mut InputWithMessages)) -> Vec<InputWithMessages> {
    let made = (0..many).map(|_| {
        let mut input = InputWithMessages::accepted(r, Schedules::One);
        input.cell[..8].copy_from_slice(&[3, 0, r.below(504), 2, 0, 0, r.below(12), 0]);
        input.cell[8..].copy_from_slice(&messages);
        input.cell[9] = r.below(16);
        input.down = [100 + r.below(1000), 0, 2048, 7, 15];
        change(&mut input);
        at_picked_place(input, r)
    });
    made.collect()
}

/// The input, which is accepted after its change, at a random position.
fn at_picked_place(mut s: InputWithMessages, r: &mut Random) -> InputWithMessages {
    assert_eq!(fast::judge(&s.cell, &s.anchor, &s.other), 0, "not accepted");
    s.pick_places(r);
    s
}

/// The usual messages with one number changed.
fn usual(i: usize, number: u64) -> Messages {
    let mut messages = USUAL;
    messages[i] = number;
    messages
}

/// A bitmap of 40 bits with so many ones, evenly spread over what the anchor leaves; all 40 if there are so many.
fn spread_ones(s: &mut InputWithMessages, ones: u64) {
    s.cell[7] = 40;
    s.anchor = [if ones == 40 { 0xff } else { 0 }; 5];
    for one in 0..ones.min(24) {
        let bit = OPEN[((one * 24 / ones + s.cell[2]) % 24) as usize];
        s.anchor[(bit / 8) as usize] |= 0x80 >> (bit % 8);
    }
}

pub fn table(r: &mut Random) {
    let columns = "plan, ns | fast | forward, ns | fast | backward, ns | fast";
    println!("\n| NPDSCH with messages grows by | to | {columns} |\n|---|---|---|---|---|---|---|---|");
    for (field, copies) in [(0, 1), (1, 2), (2, 4), (3, 8), (4, 16), (5, 32), (6, 64), (7, 128), (9, 256), (11, 512), (13, 1024), (15, 2048)] {
        line("copies", copies, &mut inputs(r, INPUTS, USUAL, |s| s.down[4] = field));
    }
    for count in 1..5 {
        line("schedules apart", count, &mut inputs(r, INPUTS, usual(2, count), |_| ()));
    }
    for log in 6..13 {
        line("period T", 1 << log, &mut inputs(r, INPUTS, usual(3, 1 << log), |_| ()));
    }
    for window in [160, 320, 480, 640, 960, 1280, 1600] {
        line("window, ms", window, &mut inputs(r, INPUTS, usual(0, window), |_| ()));
    }
    for log in 1..5 {
        line("a copy every", 1 << log, &mut inputs(r, INPUTS, usual(4, 1 << log), |_| ()));
    }
    for ones in [40, 24, 12, 6, 3, 1] {
        line("bitmap with ones", ones, &mut inputs(r, INPUTS, USUAL, |s| spread_ones(s, ones)));
    }
    for log in 6..13 {
        line("T of the slowest", 1 << log, &mut meeting(r, |s| s.cell[20] = 1 << log));
    }
    for count in 1..5 {
        line("schedules of the slowest", count, &mut meeting(r, |s| s.cell[10] = count));
    }
}

/// The slowest cells that were found with one change, for grants of many copies.
fn meeting(r: &mut Random, change: impl Fn(&mut InputWithMessages)) -> Vec<InputWithMessages> {
    let made = (0..MEETING_INPUTS).map(|_| {
        let mut input = InputWithMessages::accepted(r, Schedules::Slowest);
        change(&mut input);
        at_picked_place(input, r)
    });
    made.collect()
}

/// Search spaces of Rmax 2048 and G 4 on such anchors.
pub fn search_table(r: &mut Random) {
    println!("\n| search with messages grows by | to | ours, ns | fast, ns |\n|---|---|---|---|");
    for log in 0..12 {
        search_line!("Rmax", 1 << log, spaces(inputs(r, INPUTS, USUAL, |_| ()), 1 << log));
    }
    for count in 1..5 {
        search_line!("schedules apart", count, spaces(inputs(r, INPUTS, usual(2, count), |_| ()), 2048));
    }
    for count in 1..5 {
        search_line!("schedules of the slowest", count, spaces(meeting(r, |s| s.cell[10] = count), 2048));
    }
}

/// The inputs with a search space of G 4, asked from where the NPDSCH is.
fn spaces(inputs: Vec<InputWithMessages>, rmax: u64) -> Vec<InputWithMessages> {
    let with_space = |s: InputWithMessages| {
        let n = s.down[0];
        s.with_space([n, rmax, 2, n % 4])
    };
    inputs.into_iter().map(with_space).collect()
}
