//! The second table: what a call costs as one number of its grant, or the bitmap's ones, change.

use crate::fast;
use crate::measure::versus;
use crate::ours;
use crate::inputs::{Input, Random};

const INPUTS: usize = 256;

/// Nanoseconds a call of plan, forward and backward.
fn times(inputs: &mut [Input]) -> [f64; 3] {
    let (mut plan, mut place, mut back) = ([0; 5], [0; 6], [0; 6]);
    let (planned, _) = versus(inputs, |s| ours::plan_down(&s.cell, &s.anchor, &s.other, &s.down, &mut plan), |_| 0);
    let (forward, _) = versus(inputs, |s| ours::forward_down(&s.cell, &s.anchor, &s.other, &s.down, s.p[1], &mut place), |_| 0);
    let (backward, _) = versus(
        inputs,
        |s| {
            let [t, slot, l, k] = s.at_down;
            ours::backward_down(&s.cell, &s.anchor, &s.other, &s.down, t, slot, l, k, &mut back)
        },
        |_| 0,
    );
    [planned, forward, backward]
}

/// The same of the uplink, beside windows.
fn uplink_times(inputs: &mut [Input]) -> [f64; 3] {
    let (mut plan, mut place, mut back) = ([0; 7], [0; 5], [0; 5]);
    let (planned, _) = versus(inputs, |s| ours::plan_up_windows(&s.up, &s.windows[0], &mut plan), |_| 0);
    let (forward, _) = versus(inputs, |s| ours::forward_up_windows(&s.up, &s.windows[0], s.p[0], &mut place), |_| 0);
    let (backward, _) = versus(
        inputs,
        |s| {
            let [slot, l, k] = s.at_up;
            ours::backward_up_windows(&s.up, &s.windows[0], slot, l, k, &mut back)
        },
        |_| 0,
    );
    [planned, forward, backward]
}

fn line(name: &str, value: u64, times: [f64; 3]) {
    let [plan, forward, backward] = times;
    println!("| {name} | {value} | {plan:.1} | {forward:.1} | {backward:.1} |");
}

/// Standalone anchors of all identities, two ports and no bitmap, with one change to the grant, at random positions.
fn inputs(r: &mut Random, change: impl Fn(&mut Input)) -> Vec<Input> {
    let made = (0..INPUTS).map(|_| {
        let mut input = Input::accepted(r);
        input.cell = [3, 0, r.below(504), 2, 0, 0, r.below(12), 0];
        input.down = [100 + r.below(1000), 0, 2048, 7, 15];
        change(&mut input);
        input.pick_places(r);
        input
    });
    made.collect()
}

/// One tone at 3.75 kHz beside a window of 22.4 ms every 160 ms, so many copies of 10 units, at random positions.
fn uplink_inputs(r: &mut Random, copies: u64) -> Vec<Input> {
    let made = (0..INPUTS).map(|_| {
        let mut input = Input::accepted(r);
        let tone = r.below(48);
        input.up = [100 + r.below(1000), 0, tone, 7, copies, 0, 0];
        input.windows[0] = vec![1, 160, 8, 688_128, tone.min(36), 0, 0, 0, 0, 0, 0, 0, 0, 0, 0, 0, 0];
        input.pick_places(r);
        input
    });
    made.collect()
}

pub fn uplink_table(r: &mut Random) {
    println!("\n| NPUSCH beside a window grows by | to | plan, ns | forward, ns | backward, ns |\n|---|---|---|---|---|");
    for field in 0..8 {
        line("copies", 1 << field, uplink_times(&mut uplink_inputs(r, field)));
    }
    for log in [0, 4, 8, 12, 16] {
        let mut at = uplink_inputs(r, 7);
        at.iter_mut().for_each(|s| s.place_up(1 << log));
        line("p", 1 << log, uplink_times(&mut at));
    }
}

pub fn table(r: &mut Random) {
    println!("\n| NPDSCH grows by | to | plan, ns | forward, ns | backward, ns |\n|---|---|---|---|---|");
    for (field, copies) in [1, 2, 4, 8, 16, 32, 64, 128].into_iter().enumerate() {
        line("copies", copies, times(&mut inputs(r, |s| s.down[4] = field as u64)));
    }
    for (field, copies) in [(9, 256), (11, 512), (13, 1024), (15, 2048)] {
        line("copies", copies, times(&mut inputs(r, |s| s.down[4] = field)));
    }
    for (field, delay) in [0, 16, 32, 64, 128, 256, 512, 1024].into_iter().enumerate() {
        line("delay", delay, times(&mut inputs(r, |s| s.down[1] = field as u64)));
    }
    for log in [0, 6, 12, 18, 24, 29] {
        line("n", 1 << log, times(&mut inputs(r, |s| s.down[0] = 1 << log)));
    }
    for log in [0, 4, 8, 12, 16, 20] {
        let mut at = inputs(r, |_| ());
        at.iter_mut().for_each(|s| s.place(1 << log));
        line("p", 1 << log, times(&mut at));
    }
    for ones in [40, 20, 10, 5, 2, 1] {
        line("bitmap with ones", ones, times(&mut inputs(r, |s| s.spread_ones(ones))));
    }
}

/// Search spaces of Rmax 2048 and G 4 on such anchors, with one change.
fn spaces(r: &mut Random, change: impl Fn(&mut Input)) -> Vec<Input> {
    let made = (0..INPUTS).map(|_| {
        let mut input = Input::accepted(r).with_space([100 + r.below(1000), 2048, 2, r.below(4)]);
        input.cell = [3, 0, r.below(504), 2, 0, 0, r.below(12), 0];
        change(&mut input);
        input
    });
    made.collect()
}

/// A line of search: nanoseconds a call of ours and of fast.
macro_rules! search_line {
    ($name:expr, $value:expr, $inputs:expr) => {{
        let mut answer = [0; 48];
        let (ours, fast) = versus(
            &mut $inputs[..],
            |s| ours::search(&s.cell, &s.anchor, &s.other, &s.space, &mut answer),
            |s| fast::search(&s.cell, &s.anchor, &s.other, &s.space),
        );
        println!("| {} | {} | {ours:.1} | {fast:.1} |", $name, $value);
    }};
}
pub(crate) use search_line;

pub fn search_table(r: &mut Random) {
    println!("\n| search grows by | to | ours, ns | fast, ns |\n|---|---|---|---|");
    for log in 0..12 {
        search_line!("Rmax", 1 << log, spaces(r, |s| s.space[1] = 1 << log));
    }
    for log in [0, 6, 12, 18, 24, 29] {
        search_line!("n", 1 << log, spaces(r, |s| s.space[0] = 1 << log));
    }
    for ones in [40, 20, 10, 5, 2, 1] {
        search_line!("bitmap with ones", ones, spaces(r, |s| s.spread_ones(ones)));
    }
}
