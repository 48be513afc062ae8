//! The functions that end in _windows, asked with no window: they answer as the plain ones do.

use crate::ours;
use crate::inputs::Input;

/// None lent, and a count of 0; what follows the count is not read.
const NO_WINDOWS: [&[u64]; 3] = [&[], &[0; 17], &COUNT_OF_ZERO];
const COUNT_OF_ZERO: [u64; 17] = {
    let mut numbers = [u64::MAX; 17];
    numbers[0] = 0;
    numbers
};

/// How often number, record and answer are those of the plain function.
fn same<const N: usize, T: PartialEq>(
    plain: impl Fn(&mut [u64; N]) -> T, beside: impl Fn(&[u64], &mut [u64; N]) -> T,
) -> usize {
    let mut expected = [7; N];
    let left = plain(&mut expected);
    let as_plain = |windows: &&&[u64]| {
        let mut answer = [8; N];
        beside(windows, &mut answer) == left && answer == expected
    };
    NO_WINDOWS.iter().filter(as_plain).count()
}

fn up(s: &Input) -> usize {
    let (p, [slot, l, k]) = (s.p[0], s.at_up);
    let step = |a: &mut [u64; 7]| {
        let mut walk = s.walk_up;
        (ours::step_up(&mut walk, a), walk)
    };
    let step_beside = |w: &[u64], a: &mut [u64; 7]| {
        let mut walk = s.walk_up;
        (ours::step_up_windows(&mut walk, w, a), walk)
    };
    same(|a| ours::plan_up(&s.up, a), |w, a| ours::plan_up_windows(&s.up, w, a))
        + same(|a| ours::forward_up(&s.up, p, a), |w, a| ours::forward_up_windows(&s.up, w, p, a))
        + same(|a| ours::backward_up(&s.up, slot, l, k, a), |w, a| ours::backward_up_windows(&s.up, w, slot, l, k, a))
        + same(step, step_beside)
}

fn ack(s: &Input) -> usize {
    let (p, [slot, l, k]) = (s.p[3], s.at_ack);
    let step = |a: &mut [u64; 7]| {
        let mut walk = s.walk_ack;
        (ours::step_ack(&mut walk, a), walk)
    };
    let step_beside = |w: &[u64], a: &mut [u64; 7]| {
        let mut walk = s.walk_ack;
        (ours::step_ack_windows(&mut walk, w, a), walk)
    };
    same(|a| ours::plan_ack(&s.ack, a), |w, a| ours::plan_ack_windows(&s.ack, w, a))
        + same(|a| ours::forward_ack(&s.ack, p, a), |w, a| ours::forward_ack_windows(&s.ack, w, p, a))
        + same(|a| ours::backward_ack(&s.ack, slot, l, k, a), |w, a| ours::backward_ack_windows(&s.ack, w, slot, l, k, a))
        + same(step, step_beside)
}

pub fn compare(inputs: &[Input]) {
    let agreed: usize = inputs.iter().map(|s| up(s) + ack(s)).sum();
    let asked = inputs.len() * 8 * NO_WINDOWS.len();
    println!("With no window lent and with a count of 0 the functions that end in _windows answer as the plain ones: {agreed} of {asked}.\n");
    assert_eq!(agreed, asked, "with no window: the answers differ");
}
