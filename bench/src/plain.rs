//! The plain engine: its times beside a plain loop written by hand, and that it answers as the quick one does.

use crate::fast;
use crate::measure::versus_in;
use crate::ours;
use crate::inputs::{Input, Random};

const TIMED: usize = 128;
const ROUNDS: usize = 41;
/// Inputs are timed by so many, because their ways are long.
const FEW: usize = 8;
const COMPARED: usize = 1 << 14;

/// One line: times, the ratio, how many subframes or slots are passed in the mean, the time of each, and how many answers agree with those
/// of the loop and of fast's search.
macro_rules! line {
    ($name:expr, $timed:expr, $compared:expr, $columns:literal, |$s:ident, $a:ident| $ours:expr, $hand:expr, $fast:expr, $from:expr) => {{
        let mut buffer = [0u64; $columns];
        let mut ask = |$s: &mut Input| {
            let $a = &mut buffer;
            $ours
        };
        let (mut ours_ns, mut hand_ns) = (0.0, 0.0);
        for few in $timed.chunks_mut(FEW) {
            let (ours, hand) = versus_in(ROUNDS, few, &mut ask, |$s| $hand);
            ours_ns += ours * few.len() as f64 / TIMED as f64;
            hand_ns += hand * few.len() as f64 / TIMED as f64;
        }
        let way: u64 = $timed.iter().map(|$s| $fast[1] - $from + 1).sum();
        let way = way as f64 / $timed.len() as f64;
        let mut agreed = 0;
        for $s in $compared.iter() {
            let mut answer = [0u64; $columns];
            let $a = &mut answer;
            let no = $ours;
            agreed += (no == answer[0] && answer == $hand && answer == $fast) as usize;
        }
        let (ratio, each, asked) = (ours_ns / hand_ns, ours_ns / way, $compared.len());
        println!("| {} | {ours_ns:.0} | {hand_ns:.0} | {ratio:.2} | {way:.0} | {each:.2} | {agreed} of {asked} |", $name);
        assert_eq!(agreed, asked, "{}: the answers differ", $name);
    }};
}

/// The first slot after a subframe, as an uplink plan without windows has it.
fn first_up(s: &Input) -> u64 {
    fast::plan_up(&s.up)[1]
}

fn first_ack(s: &Input) -> u64 {
    fast::plan_ack(&s.ack)[1]
}

fn forwards(timed: &mut [Input], compared: &[Input]) {
    line!(
        "forward down", timed, compared, 6,
        |s, a| ours::forward_down_plain(&s.cell, &s.anchor, &s.other, &s.down, s.p[1], a),
        fast::forward_down_plain(&s.cell, &s.anchor, &s.other, &s.down, s.p[1]),
        fast::forward_down(&s.cell, &s.anchor, &s.other, &s.down, s.p[1]),
        s.down[0] + 5
    );
    line!(
        "forward control", timed, compared, 6,
        |s, a| ours::forward_control_plain(&s.cell, &s.anchor, &s.other, &s.control, s.p[2], a),
        fast::forward_control_plain(&s.cell, &s.anchor, &s.other, &s.control, s.p[2]),
        fast::forward_control(&s.cell, &s.anchor, &s.other, &s.control, s.p[2]),
        s.control[0]
    );
    uplink(timed, compared, "");
}

fn uplink(timed: &mut [Input], compared: &[Input], words: &str) {
    line!(
        format!("forward up{words}"), timed, compared, 5,
        |s, a| ours::forward_up_plain(&s.up, &s.windows[0], s.p[0], a),
        fast::forward_up_plain(&s.up, &s.windows[0], s.p[0]),
        fast::forward_up_windows(&s.up, &s.windows[0], s.p[0]),
        first_up(s)
    );
    line!(
        format!("forward ack{words}"), timed, compared, 5,
        |s, a| ours::forward_ack_plain(&s.ack, &s.windows[1], s.p[3], a),
        fast::forward_ack_plain(&s.ack, &s.windows[1], s.p[3]),
        fast::forward_ack_windows(&s.ack, &s.windows[1], s.p[3]),
        first_ack(s)
    );
}

/// Number, answer and record of a step are those of the quick engine's.
fn same<const N: usize>(
    walk: &[u64; N],
    quick: impl Fn(&mut [u64; N], &mut [u64; 7]) -> u64,
    plain: impl Fn(&mut [u64; N], &mut [u64; 7]) -> u64,
) -> bool {
    let (mut left, mut expected) = (*walk, [7; 7]);
    let (mut record, mut answer) = (*walk, [8; 7]);
    quick(&mut left, &mut expected) == plain(&mut record, &mut answer) && (left, expected) == (record, answer)
}

fn steps(inputs: &[Input]) {
    let agreed = |s: &Input| {
        let (anchor, other, [up, ack]) = (&s.anchor, &s.other, &s.windows);
        same(&s.walk_up, |w, a| ours::step_up_windows(w, up, a), |w, a| ours::step_up_plain(w, up, a)) as usize
            + same(&s.walk_ack, |w, a| ours::step_ack_windows(w, ack, a), |w, a| ours::step_ack_plain(w, ack, a)) as usize
            + same(&s.walk_down, |w, a| ours::step_down(w, anchor, other, a), |w, a| ours::step_down_plain(w, anchor, other, a)) as usize
            + same(
                &s.walk_control,
                |w, a| ours::step_control(w, anchor, other, a),
                |w, a| ours::step_control_plain(w, anchor, other, a),
            ) as usize
    };
    let (agreed, asked): (usize, usize) = (inputs.iter().map(agreed).sum(), 4 * inputs.len());
    println!("\nSteps of both engines, number, answer and record: {agreed} of {asked} agree.\n");
    assert_eq!(agreed, asked, "steps: the engines differ");
}

pub fn table(r: &mut Random) {
    let mut timed: Vec<Input> = (0..TIMED).map(|_| Input::accepted(r)).collect();
    let compared: Vec<Input> = (0..COMPARED).map(|_| Input::any(r)).collect();
    println!("| plain engine | ours, ns | by hand, ns | ours / by hand | subframes or slots | ours, ns each | answers agree |");
    println!("|---|---|---|---|---|---|---|");
    forwards(&mut timed, &compared);
    let mut timed: Vec<Input> = timed.into_iter().map(|s| s.beside_windows(r, 3)).collect();
    let compared: Vec<Input> = compared.into_iter().map(|s| s.beside_any_windows(r)).collect();
    uplink(&mut timed, &compared, ", windows");
    steps(&compared);
}
