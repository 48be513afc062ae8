//! Calls whose instructions are counted, each C function once on each of the same accepted inputs. `bench/instructions` has them counted by
//! valgrind's callgrind, part by part: a count is over all calls of a function in one run. The inputs do not depend on the library.

use crate::broadcast::Broadcast;
use crate::fast::{ControlGrant, DownGrant, SearchSpace};
use crate::messages::InputWithMessages;
use crate::ours;
use crate::questions::elements;
use crate::inputs::Input;

/// Fails unless all calls of a input gave this number: what is counted is no refusal but the one that is meant.
fn expect<const N: usize>(numbers: [u64; N], expected: u64) {
    assert_eq!(numbers, [expected; N], "not the refusal that was expected");
}

/// What is asked of a cell and its downlink, with messages or without.
struct Downlink<'a> {
    cell: &'a [u64],
    lent: [&'a [u8]; 2],
    down: &'a DownGrant,
    control: &'a ControlGrant,
    space: &'a SearchSpace,
    p: [u64; 2],
    at_down: [u64; 4],
    at_control: [u64; 4],
}

fn downlink(s: &Input) -> Downlink<'_> {
    let &Input { ref cell, ref anchor, ref other, ref down, ref control, ref space, p: [_, p, q, _], at_down, at_control, .. } = s;
    Downlink { cell, lent: [anchor, other], down, control, space, p: [p, q], at_down, at_control }
}

fn downlink_with_messages(s: &InputWithMessages) -> Downlink<'_> {
    let &InputWithMessages { ref cell, ref anchor, ref other, ref down, ref control, ref space, p, at_down, at_control, .. } = s;
    Downlink { cell, lent: [anchor, other], down, control, space, p, at_down, at_control }
}

fn cell(s: &Downlink) -> [u64; 4] {
    let (cell, [anchor, other]) = (s.cell, s.lent);
    [
        ours::judge(cell, anchor, other),
        ours::bitmap(cell, anchor, other, &mut [0; 3]),
        ours::count(cell, anchor, other, &mut [0; 2]),
        ours::cause(cell, anchor, other, s.at_down[0], &mut [0; 2]),
    ]
}

fn up(s: &Input) -> [u64; 3] {
    let [slot, l, k] = s.at_up;
    [
        ours::plan_up(&s.up, &mut [0; 7]),
        ours::forward_up(&s.up, s.p[0], &mut [0; 5]),
        ours::backward_up(&s.up, slot, l, k, &mut [0; 5]),
    ]
}

fn ack(s: &Input) -> [u64; 3] {
    let [slot, l, k] = s.at_ack;
    [
        ours::plan_ack(&s.ack, &mut [0; 7]),
        ours::forward_ack(&s.ack, s.p[3], &mut [0; 5]),
        ours::backward_ack(&s.ack, slot, l, k, &mut [0; 5]),
    ]
}

fn down(s: &Downlink) -> [u64; 3] {
    let (cell, [anchor, other], [t, slot, l, k]) = (s.cell, s.lent, s.at_down);
    [
        ours::plan_down(cell, anchor, other, s.down, &mut [0; 5]),
        ours::forward_down(cell, anchor, other, s.down, s.p[0], &mut [0; 6]),
        ours::backward_down(cell, anchor, other, s.down, t, slot, l, k, &mut [0; 6]),
    ]
}

fn control(s: &Downlink) -> [u64; 3] {
    let (cell, [anchor, other], [t, slot, l, k]) = (s.cell, s.lent, s.at_control);
    [
        ours::plan_control(cell, anchor, other, s.control, &mut [0; 5]),
        ours::forward_control(cell, anchor, other, s.control, s.p[1], &mut [0; 6]),
        ours::backward_control(cell, anchor, other, s.control, t, slot, l, k, &mut [0; 6]),
    ]
}

fn search(s: &Downlink) -> [u64; 1] {
    let (cell, [anchor, other]) = (s.cell, s.lent);
    [ours::search(cell, anchor, other, s.space, &mut [0; 48])]
}

/// Of an anchor, with messages or without.
fn broadcast<const N: usize>(s: &Broadcast<N>) -> [u64; 4] {
    let ([t, slot, l, k], [u, sib1_slot, sib1_l, sib1_k]) = (s.at_npbch, s.at_sib1);
    [
        ours::forward_npbch(&s.cell, &s.anchor, &s.other, s.p[0], &mut [0; 6]),
        ours::forward_sib1(&s.cell, &s.anchor, &s.other, s.p[1], &mut [0; 6]),
        ours::backward_npbch(&s.cell, &s.anchor, &s.other, t, slot, l, k, &mut [0; 5]),
        ours::backward_sib1(&s.cell, &s.anchor, &s.other, u, sib1_slot, sib1_l, sib1_k, &mut [0; 5]),
    ]
}

/// The numbers of four steps, and how many of them finished.
fn steps(s: &Input) -> ([u64; 4], u64) {
    let mut walks = s.clone();
    let mut answers = [[0; 7]; 4];
    let [up, ack, down, control] = &mut answers;
    let numbers = [
        ours::step_up(&mut walks.walk_up, up),
        ours::step_ack(&mut walks.walk_ack, ack),
        ours::step_down(&mut walks.walk_down, &s.anchor, &s.other, down),
        ours::step_control(&mut walks.walk_control, &s.anchor, &s.other, control),
    ];
    (numbers, answers.iter().map(|a| a[1]).sum())
}

/// With one port.
fn subframe(s: &Downlink, i: u64, bits: &[u8], level: f32) -> [u64; 2] {
    [
        ours::fill(s.cell, s.lent, s.down, i, bits, level, &mut [0.0; 336]),
        ours::element(s.cell, s.lent, s.down, elements(i, s.at_down), bits, level, &mut [0; 2], &mut [0.0; 2]),
    ]
}

/// Beside the windows that are lent to each of the two kinds of grant.
fn windows(s: &Input, lent: [&[u64]; 2]) -> [u64; 6] {
    let ([up, ack], [slot, l, k], [ack_slot, ack_l, ack_k]) = (lent, s.at_up, s.at_ack);
    [
        ours::plan_up_windows(&s.up, up, &mut [0; 7]),
        ours::forward_up_windows(&s.up, up, s.p[0], &mut [0; 5]),
        ours::backward_up_windows(&s.up, up, slot, l, k, &mut [0; 5]),
        ours::plan_ack_windows(&s.ack, ack, &mut [0; 7]),
        ours::forward_ack_windows(&s.ack, ack, s.p[3], &mut [0; 5]),
        ours::backward_ack_windows(&s.ack, ack, ack_slot, ack_l, ack_k, &mut [0; 5]),
    ]
}

/// As `steps`.
fn windows_steps(s: &Input, lent: [&[u64]; 2]) -> ([u64; 2], u64) {
    let mut walks = s.clone();
    let mut answers = [[0; 7]; 2];
    let [up, ack] = &mut answers;
    let numbers = [
        ours::step_up_windows(&mut walks.walk_up, lent[0], up),
        ours::step_ack_windows(&mut walks.walk_ack, lent[1], ack),
    ];
    (numbers, answers.iter().map(|a| a[1]).sum())
}

fn lent(s: &Input) -> [&[u64]; 2] {
    [&s.windows[0], &s.windows[1]]
}

/// What is asked of a cell and its grants without windows.
fn unwindowed(s: &Input) {
    let lent = downlink(s);
    expect(cell(&lent), 0);
    expect(up(s), 0);
    expect(ack(s), 0);
    expect(down(&lent), 0);
    expect(control(&lent), 0);
    expect(search(&lent), 0);
    assert_eq!(steps(s), ([0; 4], 0));
}

/// The same of a cell with messages: it has no uplink.
fn with_messages(s: &InputWithMessages) {
    let lent = downlink_with_messages(s);
    expect(cell(&lent), 0);
    expect(down(&lent), 0);
    expect(control(&lent), 0);
    expect(search(&lent), 0);
    let (mut walks, mut answer) = (s.clone(), [0; 7]);
    expect([ours::step_down(&mut walks.walk_down, &s.anchor, &s.other, &mut answer), answer[1]], 0);
    expect([ours::step_control(&mut walks.walk_control, &s.anchor, &s.other, &mut answer), answer[1]], 0);
}

fn windowed(s: &Input, lent: [&[u64]; 2]) {
    expect(windows(s, lent), 0);
    assert_eq!(windows_steps(s, lent), ([0; 2], 0));
}

/// The walks so many positions past their last place.
fn past(inputs: &[Input], more: u64) -> Vec<Input> {
    let moved = inputs.iter().map(|s| {
        let mut input = s.clone();
        input.p = s.places().map(|places| places + more);
        input.set_walks();
        input
    });
    moved.collect()
}

/// Steps that all give a number, and a mark of the end.
fn stopped(plain: &[Input], beside: &[Input], number: u64, finished: u64) {
    for s in plain {
        assert_eq!(steps(s), ([number; 4], 4 * finished));
    }
    for s in beside {
        assert_eq!(windows_steps(s, lent(s)), ([number; 2], 2 * finished));
    }
}

/// `plain` are inputs without windows, `ported` those with one port, `beside` those beside windows; `broadcasts` are anchors.
pub fn call(part: &str, plain: &[Input], ported: &[Input], beside: &[Input], broadcasts: &[Broadcast]) {
    match part {
        "each" => {
            plain.iter().for_each(unwindowed);
            ported.iter().for_each(|s| expect(subframe(&downlink(s), s.i, &s.bits, s.level), 0));
            beside.iter().for_each(|s| windowed(s, lent(s)));
            broadcasts.iter().for_each(|s| expect(broadcast(s), 0));
        }
        "none" => plain.iter().for_each(|s| windowed(s, [&[], &[]])),
        "zero" => plain.iter().for_each(|s| windowed(s, [&[0; 17], &[0; 17]])),
        "end" => stopped(&past(plain, 0), &past(beside, 0), 0, 1),
        "past" => stopped(&past(plain, 1), &past(beside, 1), 14, 0),
        _ => panic!("no part {part}"),
    }
}

/// Cells of 23 numbers, and the same with one port; and anchors.
pub fn call_with_messages(plain: &[InputWithMessages], ported: &[InputWithMessages], broadcasts: &[Broadcast<23>]) {
    plain.iter().for_each(with_messages);
    ported.iter().for_each(|s| expect(subframe(&downlink_with_messages(s), s.i, &s.bits, s.level), 0));
    broadcasts.iter().for_each(|s| expect(broadcast(s), 0));
}
