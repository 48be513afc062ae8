//! Fast's answers held to a scan: messages are sent copy by copy, each on the first subframes that are still free from its begin.

use super::inputs::{InputWithMessages, Schedules};
use crate::fast::{self, Cell};
use crate::inputs::{self, Random};

const PERIOD: i64 = 40_960;

/// How far before subframe 0 the scan begins: further than four windows.
const EARLY: i64 = 20_480;

const CELLS: usize = 20_000;
const TIMES: usize = 40;

/// The causes without messages, which repeat after 2,560 subframes.
fn causes_without_messages(s: &InputWithMessages, eight: &Cell) -> Vec<u64> {
    (0..2560).map(|t| fast::cause(eight, &s.anchor, &s.other, t)[1]).collect()
}

/// The cause of each subframe of a period from subframe 0 on, 0 for none.
fn causes_with_messages(s: &InputWithMessages, own: &[u64]) -> Vec<u64> {
    let mut causes: Vec<u64> = (-EARLY..PERIOD).map(|t| own[t.rem_euclid(2560) as usize]).collect();
    let (window, offset, count) = (s.cell[8] as i64, s.cell[9] as i64, s.cell[10]);
    for j in 0..if s.cell[1] == 0 { count as i64 } else { 0 } {
        let entry = 11 + 3 * j as usize;
        take_windows(&mut causes, window, j * (window / 10) + offset, [s.cell[entry], s.cell[entry + 1], s.cell[entry + 2]]);
    }
    causes.split_off(EARLY as usize)
}

/// All windows of a schedule: `start` is the frame in which one opens, [T, every, size] the schedule.
fn take_windows(causes: &mut [u64], window: i64, start: i64, [period, every, size]: [u64; 3]) {
    for frame in -EARLY / 10..PERIOD / 10 {
        if (frame - start).rem_euclid(period as i64) == 0 {
            for copy in (0..window / 10).step_by(every as usize) {
                take_copy(causes, 10 * (frame + copy), 10 * frame + window, size);
            }
        }
    }
}

/// One copy: the first `size` free subframes from its begin, and none from the window's end on.
fn take_copy(causes: &mut [u64], begin: i64, end: i64, size: u64) {
    let mut wanted = size;
    for t in begin..end.min(PERIOD) {
        let cause = &mut causes[(t + EARLY) as usize];
        if wanted > 0 && *cause == 0 {
            (*cause, wanted) = (5, wanted - 1);
        }
    }
}

/// The usable subframes by scanning, over and over again after a period.
struct Scanned {
    causes: Vec<u64>,
    /// How many are usable before each subframe of a period, and in all of it.
    before: Vec<u64>,
    usable: Vec<u64>,
}

impl Scanned {
    fn new(causes: Vec<u64>) -> Scanned {
        let (mut before, mut usable) = (vec![0], vec![]);
        for (t, &cause) in causes.iter().enumerate() {
            if cause == 0 {
                usable.push(t as u64);
            }
            before.push(usable.len() as u64);
        }
        Scanned { causes, before, usable }
    }

    fn cause(&self, t: u64) -> u64 {
        self.causes[(t % PERIOD as u64) as usize]
    }

    fn rank(&self, t: u64) -> u64 {
        let (q, r) = (t / PERIOD as u64, t % PERIOD as u64);
        q * self.usable.len() as u64 + self.before[r as usize]
    }

    fn nth(&self, from: u64, j: u64) -> u64 {
        let (k, many) = (self.rank(from) + j, self.usable.len() as u64);
        k / many * PERIOD as u64 + self.usable[(k % many) as usize]
    }
}

/// What the two kinds of grant have in common, asked with messages and without.
struct Asked<'a> {
    plan: &'a dyn Fn(bool) -> [u64; 5],
    forward: &'a dyn Fn(bool, u64) -> [u64; 6],
    backward: &'a dyn Fn(bool, [u64; 4]) -> [u64; 6],
}

/// Where the grant's search begins, how many usable subframes it passes over, and how many it sends.
struct Span {
    from: u64,
    skip: u64,
    sent: u64,
}

fn check(scanned: &Scanned, plain: &Scanned, asked: &Asked, span: &Span, r: &mut Random) {
    let (plan, usual) = ((asked.plan)(true), (asked.plan)(false));
    let last = span.skip + span.sent - 1;
    let [no, first_t, last_t, ..] = plan;
    assert_eq!([no, first_t, last_t], [0, scanned.nth(span.from, span.skip), scanned.nth(span.from, last)]);
    assert_eq!(plan[3..], usual[3..]);
    let each = plan[4] / span.sent;
    for _ in 0..TIMES {
        let p = r.below(plan[4]);
        let [no, t, rest @ ..] = (asked.forward)(true, p);
        assert_eq!([no, t], [0, scanned.nth(span.from, span.skip + p / each)]);
        assert_eq!(rest, (asked.forward)(false, p)[2..]);
        let t = t.saturating_sub(2) + r.below(5);
        let at = [r.below(2), r.below(7), r.below(12)];
        check_back(scanned, plain, asked, span, [t, at[0], at[1], at[2]]);
    }
    for t in [first_t.saturating_sub(1), first_t, last_t, last_t + 1, span.from + r.below(1 << 20), u64::MAX / 2 + r.below(1 << 30)] {
        check_back(scanned, plain, asked, span, [t, r.below(2), r.below(7), r.below(12)]);
    }
}

/// Backward, beside that of the subframe that is sent as the same one without messages.
fn check_back(scanned: &Scanned, plain: &Scanned, asked: &Asked, span: &Span, [t, slot, l, k]: [u64; 4]) {
    let i = if t < span.from { u64::MAX } else { (scanned.rank(t) - scanned.rank(span.from)).wrapping_sub(span.skip) };
    let found = (asked.backward)(true, [t, slot, l, k]);
    if i >= span.sent || i == 0 && scanned.cause(t) != 0 {
        return assert_eq!(found, [0; 6]);
    }
    if scanned.cause(t) != 0 {
        return assert_eq!(found, [0, 0, 0, 0, 0, scanned.cause(t)]);
    }
    assert_eq!(found, (asked.backward)(false, [plain.nth(span.from, span.skip + i), slot, l, k]));
}

fn check_grants(s: &InputWithMessages, eight: &Cell, scanned: &Scanned, r: &mut Random) {
    let plain = Scanned::new(causes_without_messages(s, eight).repeat(PERIOD as usize / 2560));
    let [n, delay, rmax, length, _] = s.down;
    let delays = if rmax < 128 { [0, 4, 8, 12, 16, 32, 64, 128] } else { [0, 16, 32, 64, 128, 256, 512, 1024] };
    let (a, o) = (&s.anchor, &s.other);
    let plan = |with| if with { fast::plan_down(&s.cell, a, o, &s.down) } else { fast::plan_down(eight, a, o, &s.down) };
    let forward = |with, p| if with { fast::forward_down(&s.cell, a, o, &s.down, p) } else { fast::forward_down(eight, a, o, &s.down, p) };
    let backward = |with, at| if with { fast::backward_down(&s.cell, a, o, &s.down, at) } else { fast::backward_down(eight, a, o, &s.down, at) };
    let sent = plan(false)[3] * [1, 2, 3, 4, 5, 6, 8, 10][length as usize];
    let asked = Asked { plan: &plan, forward: &forward, backward: &backward };
    check(scanned, &plain, &asked, &Span { from: n + 5, skip: delays[delay as usize], sent }, r);
    let g = &s.control;
    let plan = |with| if with { fast::plan_control(&s.cell, a, o, g) } else { fast::plan_control(eight, a, o, g) };
    let forward = |with, p| if with { fast::forward_control(&s.cell, a, o, g, p) } else { fast::forward_control(eight, a, o, g, p) };
    let backward = |with, at| if with { fast::backward_control(&s.cell, a, o, g, at) } else { fast::backward_control(eight, a, o, g, at) };
    let asked = Asked { plan: &plan, forward: &forward, backward: &backward };
    check(scanned, &plain, &asked, &Span { from: g[0], skip: 0, sent: g[1] }, r);
}

/// A search space's candidates, each from its own R and the start.
fn check_search(s: &InputWithMessages, scanned: &Scanned, r: &mut Random) {
    let space @ [n, rmax, g, alpha] = inputs::space(r);
    let period = rmax * [3, 4, 8, 16, 32, 64, 96, 128][g as usize] / 2;
    let start = (n..).find(|t| t % 10_240 % period == alpha * period / 8).expect("a start");
    let sizes = (0..4).map(|log| (rmax / 8).max(1) << log).filter(|&size| size <= rmax);
    let candidates = sizes.flat_map(|size| (0..rmax / size).map(move |u| (u * size, size)));
    let mut listed: Vec<[u64; 3]> =
        candidates.map(|(j, size)| [scanned.nth(start, j), size, scanned.nth(start, j + size - 1)]).collect();
    listed.sort();
    let mut expected = vec![0, start, listed.len() as u64];
    expected.extend(listed.as_flattened());
    expected.resize(48, 0);
    assert_eq!(fast::search(&s.cell, &s.anchor, &s.other, &space)[..], expected);
}

/// A cell of 8 numbers that is accepted, with listed messages: judged, asked for causes, and its grants.
fn check_cell(s: &InputWithMessages, r: &mut Random) -> u64 {
    let eight: &Cell = s.cell.first_chunk().expect("8 numbers");
    let scanned = Scanned::new(causes_with_messages(s, &causes_without_messages(s, eight)));
    let no = fast::judge(&s.cell, &s.anchor, &s.other);
    assert_eq!(no, if scanned.usable.is_empty() { 18 } else { 0 });
    for _ in 0..TIMES {
        let t = r.next() >> r.below(48);
        let expected = if no == 0 { [0, scanned.cause(t)] } else { [no, 0] };
        assert_eq!(fast::cause(&s.cell, &s.anchor, &s.other, t), expected);
    }
    if no == 0 {
        check_grants(s, eight, &scanned, r);
        check_search(s, &scanned, r);
    }
    no
}

#[test]
fn answers_as_by_scanning() {
    let mut r = Random::new(0x5851_f42d_4c95_7f2d);
    let (mut cells, mut empty) = (0, 0);
    while cells < CELLS {
        let schedules = match r.below(16) {
            0 => Schedules::Slowest,
            1..=3 => Schedules::One,
            4..=6 => Schedules::Apart,
            _ => Schedules::Meeting,
        };
        let s = InputWithMessages::anchor(&mut r, schedules);
        let eight: &Cell = s.cell.first_chunk().expect("8 numbers");
        if fast::judge(eight, &s.anchor, &s.other) == 0 {
            empty += (check_cell(&s, &mut r) == 18) as usize;
            cells += 1;
        }
    }
    assert!(empty > CELLS / 100, "too few cells of which nothing is left: {empty} of {cells}");
}
