//! The first table's lines for cells with messages.

use super::inputs::{space, InputWithMessages, Schedules};
use crate::broadcast::{self, Broadcast};
use crate::fast;
use crate::measure::versus;
use crate::ours;
use crate::questions::{element_line, elements, fill_line, judge_line, line, step};
use crate::inputs::{any_space, Random};

/// How many accepted inputs are timed, and how many of any kind compared: fewer where an answer takes longer.
fn many(schedules: Schedules) -> (usize, usize) {
    match schedules {
        Schedules::One | Schedules::Apart | Schedules::Meeting => (512, 1 << 16),
        Schedules::Slowest => (32, 1 << 12),
    }
}

/// Whether the library reads messages: a window of no length is refused then.
fn reads_messages() -> bool {
    let mut cell = [0; 23];
    [cell[0], cell[3]] = [3, 1];
    ours::judge(&cell, &[], &[]) == 21
}

/// A line of the table. A library that reads no messages answers as if none were sent: its answers are counted, and may differ.
fn report(name: &str, ours: f64, fast: f64, agreed: usize, compared: usize) {
    println!("| {name} | {ours:.1} | {fast:.1} | {:.2} | {agreed} of {compared}{} |", ours / fast, remark(agreed == compared));
    assert!(agreed == compared || !reads_messages(), "{name}: the answers differ");
}

fn records(name: &str, same: usize, compared: usize) {
    assert!(same == compared || !reads_messages(), "{name}: the records differ");
}

fn remark(agrees: bool) -> &'static str {
    if agrees { "" } else { ", DIFFER" }
}

/// Search spaces, and cells that broadcast, are drawn by generators of their own.
pub fn table(r: &mut Random, spaces: &mut Random, b: &mut Random) {
    if !reads_messages() {
        println!("\nThe library reads 8 numbers of a cell: below it answers as if no messages were sent.");
        println!("Its answers differ, and its times are of another question.");
    }
    println!("\n| cell with messages | ours, ns | fast, ns | ours / fast | answers agree |\n|---|---|---|---|---|");
    for schedules in Schedules::ALL {
        lines(r, spaces, schedules);
        broadcasts(b, schedules);
    }
}

fn lines(r: &mut Random, spaces: &mut Random, schedules: Schedules) {
    let (timed, compared) = many(schedules);
    let accepted = (0..timed).map(|_| InputWithMessages::accepted(r, schedules).with_space(space(spaces, schedules)));
    let mut timed: Vec<InputWithMessages> = accepted.collect();
    let mut ported: Vec<InputWithMessages> = timed.iter().map(|s| s.clone().with_one_port(r)).collect();
    let any = (0..compared).map(|_| InputWithMessages::any(r, schedules).with_space(any_space(spaces)));
    let mut compared: Vec<InputWithMessages> = any.collect();
    let (timed, compared) = (&mut timed[..], &mut compared[..]);
    let named = |question: &str| format!("{question}, {}", schedules.name());
    judge_line!(&named("judge"), timed, compared);
    cell(timed, compared, &named);
    plans(timed, compared, &named);
    forwards(timed, compared, &named);
    backwards(timed, compared, &named);
    steps(timed, compared, &named);
    search(timed, compared, &named);
    element_line!(&named("element"), &mut ported[..], compared);
    fill_line!(&named("fill"), &mut ported[..], compared);
}

fn broadcasts(r: &mut Random, schedules: Schedules) {
    let (timed, compared) = many(schedules);
    let mut timed: Vec<Broadcast<23>> = (0..timed).map(|_| Broadcast::accepted_with(r, schedules)).collect();
    let mut compared: Vec<Broadcast<23>> = (0..compared).map(|_| Broadcast::any_with(r, schedules)).collect();
    broadcast::lines(&mut timed, &mut compared, &|question| format!("{question}, {}", schedules.name()));
}

fn cell(timed: &mut [InputWithMessages], compared: &mut [InputWithMessages], named: &impl Fn(&str) -> String) {
    line!(
        &named("bitmap"), timed, compared, 3,
        |s, a| ours::bitmap(&s.cell, &s.anchor, &s.other, a),
        fast::bitmap(&s.cell, &s.anchor, &s.other)
    );
    line!(
        &named("count"), timed, compared, 2,
        |s, a| ours::count(&s.cell, &s.anchor, &s.other, a),
        fast::count(&s.cell, &s.anchor, &s.other)
    );
    line!(
        &named("cause"), timed, compared, 2,
        |s, a| ours::cause(&s.cell, &s.anchor, &s.other, s.at_down[0], a),
        fast::cause(&s.cell, &s.anchor, &s.other, s.at_down[0])
    );
}

fn plans(timed: &mut [InputWithMessages], compared: &mut [InputWithMessages], named: &impl Fn(&str) -> String) {
    line!(
        &named("plan down"), timed, compared, 5,
        |s, a| ours::plan_down(&s.cell, &s.anchor, &s.other, &s.down, a),
        fast::plan_down(&s.cell, &s.anchor, &s.other, &s.down)
    );
    line!(
        &named("plan control"), timed, compared, 5,
        |s, a| ours::plan_control(&s.cell, &s.anchor, &s.other, &s.control, a),
        fast::plan_control(&s.cell, &s.anchor, &s.other, &s.control)
    );
}

fn forwards(timed: &mut [InputWithMessages], compared: &mut [InputWithMessages], named: &impl Fn(&str) -> String) {
    line!(
        &named("forward down"), timed, compared, 6,
        |s, a| ours::forward_down(&s.cell, &s.anchor, &s.other, &s.down, s.p[0], a),
        fast::forward_down(&s.cell, &s.anchor, &s.other, &s.down, s.p[0])
    );
    line!(
        &named("forward control"), timed, compared, 6,
        |s, a| ours::forward_control(&s.cell, &s.anchor, &s.other, &s.control, s.p[1], a),
        fast::forward_control(&s.cell, &s.anchor, &s.other, &s.control, s.p[1])
    );
}

fn backwards(timed: &mut [InputWithMessages], compared: &mut [InputWithMessages], named: &impl Fn(&str) -> String) {
    line!(
        &named("backward down"), timed, compared, 6,
        |s, a| {
            let [t, slot, l, k] = s.at_down;
            ours::backward_down(&s.cell, &s.anchor, &s.other, &s.down, t, slot, l, k, a)
        },
        fast::backward_down(&s.cell, &s.anchor, &s.other, &s.down, s.at_down)
    );
    line!(
        &named("backward control"), timed, compared, 6,
        |s, a| {
            let [t, slot, l, k] = s.at_control;
            ours::backward_control(&s.cell, &s.anchor, &s.other, &s.control, t, slot, l, k, a)
        },
        fast::backward_control(&s.cell, &s.anchor, &s.other, &s.control, s.at_control)
    );
}

fn steps(timed: &mut [InputWithMessages], compared: &mut [InputWithMessages], named: &impl Fn(&str) -> String) {
    step!(
        &named("step down"), timed, compared, walk_down, 0,
        |s, a| ours::step_down(&mut s.walk_down, &s.anchor, &s.other, a),
        fast::step_down(&mut s.walk_down, &s.anchor, &s.other)
    );
    step!(
        &named("step control"), timed, compared, walk_control, 1,
        |s, a| ours::step_control(&mut s.walk_control, &s.anchor, &s.other, a),
        fast::step_control(&mut s.walk_control, &s.anchor, &s.other)
    );
}

fn search(timed: &mut [InputWithMessages], compared: &mut [InputWithMessages], named: &impl Fn(&str) -> String) {
    line!(
        &named("search"), timed, compared, 48,
        |s, a| ours::search(&s.cell, &s.anchor, &s.other, &s.space, a),
        fast::search(&s.cell, &s.anchor, &s.other, &s.space)
    );
}
