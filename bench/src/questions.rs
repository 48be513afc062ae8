//! The first table: each question, ours beside fast.

use crate::fast;
use crate::measure::versus;
use crate::ours;
use crate::inputs::Input;

/// One question with an answer of numbers: a line of the table.
macro_rules! line {
    ($name:expr, $timed:expr, $compared:expr, $columns:literal, |$s:ident, $a:ident| $ours:expr, $fast:expr) => {{
        let mut buffer = [0u64; $columns];
        let (ours_ns, fast_ns) = versus(
            $timed,
            |$s| {
                let $a = &mut buffer;
                $ours
            },
            |$s| $fast,
        );
        let mut agreed = 0;
        for $s in $compared.iter_mut() {
            let mut answer = [0u64; $columns];
            let $a = &mut answer;
            let no = $ours;
            agreed += (no == answer[0] && answer == $fast) as usize;
        }
        report($name, ours_ns, fast_ns, agreed, $compared.len());
    }};
}
pub(crate) use line;

pub fn report(name: &str, ours: f64, fast: f64, agreed: usize, compared: usize) {
    println!("| {name} | {ours:.1} | {fast:.1} | {:.2} | {agreed} of {compared} |", ours / fast);
    assert_eq!(agreed, compared, "{name}: the answers differ");
}

/// `timed` are accepted inputs, `ported` those of them with one port, `compared` any inputs.
pub fn table(timed: &mut [Input], ported: &mut [Input], compared: &mut [Input]) {
    println!("| question | ours, ns | fast, ns | ours / fast | answers agree |\n|---|---|---|---|---|");
    judge(timed, compared);
    bitmap(timed, compared);
    count(timed, compared);
    cause(timed, compared);
    plans(timed, compared);
    forwards(timed, compared);
    backwards(timed, compared);
    steps(timed, compared);
    search(timed, compared);
    element(ported, compared);
    fill(ported, compared);
}

/// The uplink's lines again, of inputs with random access windows.
pub fn beside_windows(timed: &mut [Input], compared: &mut [Input]) {
    plans_beside(timed, compared);
    forwards_beside(timed, compared);
    backwards_beside(timed, compared);
    steps_beside(timed, compared);
}

/// The judge's line.
macro_rules! judge_line {
    ($name:expr, $timed:expr, $compared:expr) => {{
        let (ns, fs) = versus(
            $timed,
            |s| ours::judge(&s.cell, &s.anchor, &s.other),
            |s| fast::judge(&s.cell, &s.anchor, &s.other),
        );
        let mut agreed = 0;
        for s in $compared.iter() {
            agreed += (ours::judge(&s.cell, &s.anchor, &s.other) == fast::judge(&s.cell, &s.anchor, &s.other)) as usize;
        }
        report($name, ns, fs, agreed, $compared.len());
    }};
}
pub(crate) use judge_line;

fn judge(timed: &mut [Input], compared: &[Input]) {
    judge_line!("judge", timed, compared);
}

fn bitmap(timed: &mut [Input], compared: &mut [Input]) {
    line!(
        "bitmap", timed, compared, 3,
        |s, a| ours::bitmap(&s.cell, &s.anchor, &s.other, a),
        fast::bitmap(&s.cell, &s.anchor, &s.other)
    );
}

fn count(timed: &mut [Input], compared: &mut [Input]) {
    line!(
        "count", timed, compared, 2,
        |s, a| ours::count(&s.cell, &s.anchor, &s.other, a),
        fast::count(&s.cell, &s.anchor, &s.other)
    );
}

fn cause(timed: &mut [Input], compared: &mut [Input]) {
    line!(
        "cause", timed, compared, 2,
        |s, a| ours::cause(&s.cell, &s.anchor, &s.other, s.at_down[0], a),
        fast::cause(&s.cell, &s.anchor, &s.other, s.at_down[0])
    );
}

fn plans(timed: &mut [Input], compared: &mut [Input]) {
    line!(
        "plan up", timed, compared, 7,
        |s, a| ours::plan_up(&s.up, a),
        fast::plan_up(&s.up)
    );
    line!(
        "plan ack", timed, compared, 7,
        |s, a| ours::plan_ack(&s.ack, a),
        fast::plan_ack(&s.ack)
    );
    line!(
        "plan down", timed, compared, 5,
        |s, a| ours::plan_down(&s.cell, &s.anchor, &s.other, &s.down, a),
        fast::plan_down(&s.cell, &s.anchor, &s.other, &s.down)
    );
    line!(
        "plan control", timed, compared, 5,
        |s, a| ours::plan_control(&s.cell, &s.anchor, &s.other, &s.control, a),
        fast::plan_control(&s.cell, &s.anchor, &s.other, &s.control)
    );
}

fn plans_beside(timed: &mut [Input], compared: &mut [Input]) {
    line!(
        "plan up, windows", timed, compared, 7,
        |s, a| ours::plan_up_windows(&s.up, &s.windows[0], a),
        fast::plan_up_windows(&s.up, &s.windows[0])
    );
    line!(
        "plan ack, windows", timed, compared, 7,
        |s, a| ours::plan_ack_windows(&s.ack, &s.windows[1], a),
        fast::plan_ack_windows(&s.ack, &s.windows[1])
    );
}

fn forwards(timed: &mut [Input], compared: &mut [Input]) {
    line!(
        "forward up", timed, compared, 5,
        |s, a| ours::forward_up(&s.up, s.p[0], a),
        fast::forward_up(&s.up, s.p[0])
    );
    line!(
        "forward ack", timed, compared, 5,
        |s, a| ours::forward_ack(&s.ack, s.p[3], a),
        fast::forward_ack(&s.ack, s.p[3])
    );
    line!(
        "forward down", timed, compared, 6,
        |s, a| ours::forward_down(&s.cell, &s.anchor, &s.other, &s.down, s.p[1], a),
        fast::forward_down(&s.cell, &s.anchor, &s.other, &s.down, s.p[1])
    );
    line!(
        "forward control", timed, compared, 6,
        |s, a| ours::forward_control(&s.cell, &s.anchor, &s.other, &s.control, s.p[2], a),
        fast::forward_control(&s.cell, &s.anchor, &s.other, &s.control, s.p[2])
    );
}

fn forwards_beside(timed: &mut [Input], compared: &mut [Input]) {
    line!(
        "forward up, windows", timed, compared, 5,
        |s, a| ours::forward_up_windows(&s.up, &s.windows[0], s.p[0], a),
        fast::forward_up_windows(&s.up, &s.windows[0], s.p[0])
    );
    line!(
        "forward ack, windows", timed, compared, 5,
        |s, a| ours::forward_ack_windows(&s.ack, &s.windows[1], s.p[3], a),
        fast::forward_ack_windows(&s.ack, &s.windows[1], s.p[3])
    );
}

fn backwards(timed: &mut [Input], compared: &mut [Input]) {
    line!(
        "backward up", timed, compared, 5,
        |s, a| ours::backward_up(&s.up, s.at_up[0], s.at_up[1], s.at_up[2], a),
        fast::backward_up(&s.up, s.at_up)
    );
    line!(
        "backward ack", timed, compared, 5,
        |s, a| ours::backward_ack(&s.ack, s.at_ack[0], s.at_ack[1], s.at_ack[2], a),
        fast::backward_ack(&s.ack, s.at_ack)
    );
    line!(
        "backward down", timed, compared, 6,
        |s, a| {
            let [t, slot, l, k] = s.at_down;
            ours::backward_down(&s.cell, &s.anchor, &s.other, &s.down, t, slot, l, k, a)
        },
        fast::backward_down(&s.cell, &s.anchor, &s.other, &s.down, s.at_down)
    );
    line!(
        "backward control", timed, compared, 6,
        |s, a| {
            let [t, slot, l, k] = s.at_control;
            ours::backward_control(&s.cell, &s.anchor, &s.other, &s.control, t, slot, l, k, a)
        },
        fast::backward_control(&s.cell, &s.anchor, &s.other, &s.control, s.at_control)
    );
}

fn backwards_beside(timed: &mut [Input], compared: &mut [Input]) {
    line!(
        "backward up, windows", timed, compared, 5,
        |s, a| ours::backward_up_windows(&s.up, &s.windows[0], s.at_up[0], s.at_up[1], s.at_up[2], a),
        fast::backward_up_windows(&s.up, &s.windows[0], s.at_up)
    );
    line!(
        "backward ack, windows", timed, compared, 5,
        |s, a| ours::backward_ack_windows(&s.ack, &s.windows[1], s.at_ack[0], s.at_ack[1], s.at_ack[2], a),
        fast::backward_ack_windows(&s.ack, &s.windows[1], s.at_ack)
    );
}

/// A step from the input's position: the record's position is set before each, and the records that are left are compared too.
macro_rules! step {
    ($name:expr, $timed:expr, $compared:expr, $walk:ident, $p:literal, |$s:ident, $a:ident| $ours:expr, $fast:expr) => {{
        line!(
            $name, $timed, $compared, 7,
            |$s, $a| {
                $s.$walk[0] = $s.p[$p];
                $ours
            },
            {
                $s.$walk[0] = $s.p[$p];
                $fast
            }
        );
        let mut same = 0;
        for $s in $compared.iter_mut() {
            $s.set_walks();
            let $a = &mut [0; 7];
            $ours;
            let moved = $s.$walk;
            $s.set_walks();
            $fast;
            same += (moved == $s.$walk) as usize;
            $s.set_walks();
        }
        records($name, same, $compared.len());
    }};
}
pub(crate) use step;

fn records(name: &str, same: usize, compared: usize) {
    assert_eq!(same, compared, "{name}: the records differ");
}

fn steps(timed: &mut [Input], compared: &mut [Input]) {
    step!(
        "step up", timed, compared, walk_up, 0,
        |s, a| ours::step_up(&mut s.walk_up, a),
        fast::step_up(&mut s.walk_up)
    );
    step!(
        "step ack", timed, compared, walk_ack, 3,
        |s, a| ours::step_ack(&mut s.walk_ack, a),
        fast::step_ack(&mut s.walk_ack)
    );
    step!(
        "step down", timed, compared, walk_down, 1,
        |s, a| ours::step_down(&mut s.walk_down, &s.anchor, &s.other, a),
        fast::step_down(&mut s.walk_down, &s.anchor, &s.other)
    );
    step!(
        "step control", timed, compared, walk_control, 2,
        |s, a| ours::step_control(&mut s.walk_control, &s.anchor, &s.other, a),
        fast::step_control(&mut s.walk_control, &s.anchor, &s.other)
    );
}

fn steps_beside(timed: &mut [Input], compared: &mut [Input]) {
    step!(
        "step up, windows", timed, compared, walk_up, 0,
        |s, a| ours::step_up_windows(&mut s.walk_up, &s.windows[0], a),
        fast::step_up_windows(&mut s.walk_up, &s.windows[0])
    );
    step!(
        "step ack, windows", timed, compared, walk_ack, 3,
        |s, a| ours::step_ack_windows(&mut s.walk_ack, &s.windows[1], a),
        fast::step_ack_windows(&mut s.walk_ack, &s.windows[1])
    );
}

fn search(timed: &mut [Input], compared: &mut [Input]) {
    line!(
        "search", timed, compared, 48,
        |s, a| ours::search(&s.cell, &s.anchor, &s.other, &s.space, a),
        fast::search(&s.cell, &s.anchor, &s.other, &s.space)
    );
    let numbers: Vec<u64> = compared.iter().map(|s| fast::search(&s.cell, &s.anchor, &s.other, &s.space)[0]).collect();
    let many = |no| numbers.iter().filter(|&&x| x == no).count();
    assert!(2 * many(0) >= numbers.len(), "too few accepted search spaces");
    assert!(many(22) > 0 && many(23) > 0, "no search space that is refused by itself");
}

/// The place of an element that is asked for.
pub fn elements(i: u64, [_, slot, l, k]: [u64; 4]) -> [u64; 4] {
    [i, slot, l, k]
}

/// The element's line; its answer has two amplitudes, which are compared by their digits.
macro_rules! element_line {
    ($name:expr, $timed:expr, $compared:expr) => {{
        let (mut answer, mut pair) = ([0; 2], [0.0; 2]);
        macro_rules! ours {
            ($s:expr) => {{
                let (lent, at): ([&[u8]; 2], _) = ([&$s.anchor, &$s.other], elements($s.i, $s.at_down));
                let no = ours::element(&$s.cell, lent, &$s.down, at, &$s.bits, $s.level, &mut answer, &mut pair);
                (no, answer[1], pair)
            }};
        }
        macro_rules! fast {
            ($s:expr) => {
                fast::element(&$s.cell, [&$s.anchor, &$s.other], &$s.down, elements($s.i, $s.at_down), &$s.bits, $s.level)
            };
        }
        let (ns, fs) = versus($timed, |s| ours!(s), |s| fast!(s));
        let digits = |(no, state, [re, im]): (u64, u64, [f32; 2])| (no, state, re.to_bits(), im.to_bits());
        let mut agreed = 0;
        for s in $compared.iter().chain($timed.iter()) {
            agreed += (digits(ours!(s)) == digits(fast!(s))) as usize;
        }
        report($name, ns, fs, agreed, $compared.len() + $timed.len());
    }};
}
pub(crate) use element_line;

fn element(timed: &mut [Input], compared: &[Input]) {
    element_line!("element", timed, compared);
}

/// The fill's line; its output is compared by its digits.
macro_rules! fill_line {
    ($name:expr, $timed:expr, $compared:expr) => {{
        let mut out = [0.0f32; 336];
        let mut also = [0.0f32; 336];
        let (ns, fs) = versus(
            $timed,
            |s| ours::fill(&s.cell, [&s.anchor, &s.other], &s.down, s.i, &s.bits, s.level, &mut out),
            |s| fast::fill(&s.cell, [&s.anchor, &s.other], &s.down, s.i, &s.bits, s.level, &mut also),
        );
        let mut agreed = 0;
        for s in $compared.iter().chain($timed.iter()) {
            (out, also) = ([7.0; 336], [7.0; 336]);
            let no = ours::fill(&s.cell, [&s.anchor, &s.other], &s.down, s.i, &s.bits, s.level, &mut out);
            let same = no == fast::fill(&s.cell, [&s.anchor, &s.other], &s.down, s.i, &s.bits, s.level, &mut also);
            agreed += (same && out.map(f32::to_bits) == also.map(f32::to_bits)) as usize;
        }
        report($name, ns, fs, agreed, $compared.len() + $timed.len());
    }};
}
pub(crate) use fill_line;

fn fill(timed: &mut [Input], compared: &[Input]) {
    fill_line!("fill", timed, compared);
}
