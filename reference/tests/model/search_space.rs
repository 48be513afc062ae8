//! Where control may start (02, "L6"): starts, candidates, the turn of the
//! hyperframe, and numbers 22 and 23.

use crate::common::{ask, ask_bytes, value};
use reference::generator::every_search_space::{combinations, write_every_search_space};
use reference::model::accepted_cell::AcceptedCell;
use reference::model::search_space::SearchSpace;
use reference::text::read_question::read_line;
use reference::text::values::Values;
use std::collections::BTreeSet;

/// P7's cell: standalone anchor, identity 0, schedule 0, no bitmap, one port.
const CELL: &str = "set mode=3 nports=1\n";

fn search(words: &str) -> String {
    ask(&format!("{CELL}search {words}")).remove(0)
}

/// The answer for (n, Rmax, g, alpha).
fn asked(n: u64, rmax: u64, g: u64, alpha: u64) -> String {
    search(&format!("n={n} rmax={rmax} g={g} alpha={alpha}"))
}

fn start(n: u64, rmax: u64, g: u64, alpha: u64) -> u64 {
    value(&asked(n, rmax, g, alpha), "start")
}

/// The candidates of an answer, (first, R, last) each.
fn candidates(answer: &str) -> Vec<[u64; 3]> {
    let words = answer.split(' ').skip(3);
    let numbers = |word: &str| -> [u64; 3] {
        let parts = word.split(',').map(|part| part.parse().expect("a number"));
        let parts: Vec<u64> = parts.collect();
        parts.try_into().expect("three numbers")
    };
    words.map(numbers).collect()
}

/// READING C6.6, REQUESTS L6.
#[test]
fn seven_candidates() {
    let words = "18,1,18 18,2,19 18,4,22 19,1,19 21,1,21 21,2,22 22,1,22";
    let expected = format!("no=0 start=18 count=7 {words}");
    assert_eq!(asked(15, 4, 2, 1), expected);
    assert_eq!(asked(18, 4, 2, 1), expected, "n itself counts");
    assert_eq!(start(19, 4, 2, 1), 34);
    assert_eq!(start(3, 4, 2, 1), 18);
    assert_eq!(start(2, 4, 2, 1), 2);
}

/// The other examples of REQUESTS L6.
#[test]
fn worked_examples() {
    let words = "10241,1,10241 10241,2,10242 10241,4,10246 10242,1,10242 \
10243,1,10243 10243,2,10246 10246,1,10246";
    let expected = format!("no=0 start=10241 count=7 {words}");
    assert_eq!(asked(10_238, 4, 0, 2), expected);
    assert_eq!(start(10_237, 4, 0, 2), 10_237, "four before 10,241");
    assert_eq!(start(1, 2048, 7, 0), 10_240);
    assert_eq!(asked(0, 512, 7, 3), "no=23 start=0 count=0");
    assert_eq!(asked(0, 1, 1, 0), "no=22 start=0 count=0");
    assert_eq!(asked(0, 3, 8, 0), "no=10 start=0 count=0", "before 12");
}

/// Worked by hand for G 4: the usable subframes from 0 on are 1 2 3 6 7 8 11
/// 12 13 14 16 17 18 19 21 22.
#[test]
fn one_three_seven_fifteen() {
    assert_eq!(asked(0, 1, 2, 0), "no=0 start=0 count=1 1,1,1");
    let three = "no=0 start=0 count=3 1,1,1 1,2,2 2,1,2";
    assert_eq!(asked(0, 2, 2, 0), three);
    let seven = "no=0 start=0 count=7 1,1,1 1,2,2 1,4,6 2,1,2 3,1,3 3,2,6 6,1,6";
    assert_eq!(asked(0, 4, 2, 0), seven);
    let fifteen = "1,1,1 1,2,2 1,4,6 1,8,12 2,1,2 3,1,3 3,2,6 6,1,6 \
7,1,7 7,2,8 7,4,12 8,1,8 11,1,11 11,2,12 12,1,12";
    let expected = format!("no=0 start=0 count=15 {fifteen}");
    assert_eq!(asked(0, 8, 2, 0), expected);
    let from_two = "1,2,2 1,4,6 1,8,12 1,16,22 3,2,6 7,2,8 7,4,12 11,2,12 \
13,2,14 13,4,17 13,8,22 16,2,17 18,2,19 18,4,22 21,2,22";
    let expected = format!("no=0 start=0 count=15 {from_two}");
    assert_eq!(asked(0, 16, 2, 0), expected, "no R of 1 from Rmax 16 on");
}

/// The start is named though it isn't usable: 20 and 25 are the anchor's.
#[test]
fn starts_that_are_not_usable() {
    assert_eq!(asked(20, 1, 2, 0), "no=0 start=20 count=1 21,1,21");
    assert_eq!(asked(21, 1, 3, 1), "no=0 start=25 count=1 26,1,26");
    assert_eq!(asked(28, 1, 2, 0), "no=0 start=28 count=1 28,1,28");
    let withheld = search("n=3 rmax=2 g=2 bits=10 anchor=0100");
    assert_eq!(withheld, "no=0 start=8 count=3 17,1,17 17,2,27 27,1,27");
}

/// Rmax 8 and G 1.5: T is 12, and the eight usable subframes go past it.
#[test]
fn candidates_may_pass_the_next_start() {
    let answer = asked(0, 8, 0, 0);
    let listed = candidates(&answer);
    assert_eq!(listed[3], [1, 8, 12]);
    assert_eq!(start(1, 8, 0, 0), 12);
    let sparse = search("n=0 rmax=2 g=2 bits=40 anchor=4000000000");
    assert_eq!(sparse, "no=0 start=0 count=3 1,1,1 1,2,41 41,1,41");
}

/// READING C6.4: T 6, offset 2.
#[test]
fn the_turn_cuts_a_step_short() {
    let starts: BTreeSet<u64> = (10_227..10_250).map(|n| start(n, 4, 0, 3)).collect();
    let expected = [10_232, 10_238, 10_242, 10_248, 10_254];
    assert_eq!(starts, BTreeSet::from(expected));
    for turn in [2 * 10_240, 104_857 * 10_240] {
        assert_eq!(start(turn - 2, 4, 0, 3), turn - 2);
        assert_eq!(start(turn - 1, 4, 0, 3), turn + 2);
    }
}

/// The T up to a hyperframe that don't divide it: those with a factor 3, and
/// 4,096 and 8,192. Where they do, every step is T.
#[test]
fn steps_over_a_turn() {
    let (mut uneven, mut even) = (BTreeSet::new(), BTreeSet::new());
    for space in combinations() {
        let period = period(space.rmax, space.g);
        if space.judge().is_ok() && period <= 10_240 {
            match step_over_turn(&space) == period {
                true => even.insert(period),
                false => uneven.insert(period),
            };
        }
    }
    let mut expected: BTreeSet<u64> = (0..11).map(|power| 6 << power).collect();
    expected.extend([4096, 8192]);
    assert_eq!(uneven, expected);
    let expected: BTreeSet<u64> = (2..12).map(|power| 1 << power).collect();
    assert_eq!(even, expected);
}

/// From the last start before a turn to the first after it: what whole T leave
/// of 10,240, and T more where the offset in subframes is no less than that.
fn step_over_turn(space: &SearchSpace) -> u64 {
    let (rmax, g, alpha) = (space.rmax, space.g, space.alpha);
    let turn = 3 * 10_240;
    let mut before = (0..turn).rev();
    let last = before.find(|&t| space.starts_at(t)).expect("a start");
    assert_eq!(start(last, rmax, g, alpha), last);
    let first = start(last + 1, rmax, g, alpha);
    assert_eq!(first, turn + offset(space));
    let period = period(rmax, g);
    let more = if offset(space) < 10_240 % period {
        0
    } else {
        period
    };
    assert_eq!(first - last, 10_240 % period + more, "{space:?}");
    first - last
}

const G: [f64; 8] = [1.5, 2.0, 4.0, 8.0, 16.0, 32.0, 48.0, 64.0];
const OFFSET: [f64; 4] = [0.0, 1.0 / 8.0, 1.0 / 4.0, 3.0 / 8.0];

/// T, where it is whole.
fn period(rmax: u64, g: u64) -> u64 {
    (rmax as f64 * G[g as usize]) as u64
}

/// The offset's part of T; all of it is exact in f64.
fn offset(search: &SearchSpace) -> u64 {
    let period = search.rmax as f64 * G[search.g as usize];
    (period * OFFSET[search.alpha as usize]).floor() as u64
}

/// T above 10,240 has one start in each hyperframe, at the offset's part.
#[test]
fn one_start_a_hyperframe() {
    let mut longer = 0;
    for space in combinations() {
        let (rmax, g, alpha) = (space.rmax, space.g, space.alpha);
        let offset = offset(&space);
        if period(rmax, g) <= 10_240 || offset >= 10_240 {
            continue;
        }
        longer += 1;
        for hyperframe in [0, 1, 6, 104_856] {
            let turn = 10_240 * hyperframe;
            assert_eq!(start(turn, rmax, g, alpha), turn + offset);
            assert_eq!(start(turn + offset, rmax, g, alpha), turn + offset);
            let next = turn + 10_240 + offset;
            assert_eq!(start(turn + offset + 1, rmax, g, alpha), next);
        }
    }
    assert_eq!(longer, 4 * 14 - 15, "14 pairs of Rmax and G");
}

/// n = 2^30 - 1 is subframe 6,143 of its hyperframe, 2^30 - 6,144 its first.
#[test]
fn past_two_to_the_30() {
    let largest = (1 << 30) - 1;
    assert_eq!(
        asked(largest, 1, 2, 0),
        "no=0 start=1073741824 count=1 1073741824,1,1073741824"
    );
    assert_eq!(asked(largest + 1, 1, 2, 0), "no=9 start=0 count=0");
    let next = (1 << 30) - 6144 + 10_240;
    assert_eq!(start(largest, 2048, 7, 0), next);
    let answer = asked(largest, 2048, 4, 1);
    assert_eq!(value(&answer, "start"), next + 4096);
    let last = candidates(&answer).iter().map(|c| c[2]).max();
    assert!(last > Some(next + 4096 + 2048));
    let sparse = "bits=40 anchor=4000000000 siwindow=1600 messages=4 \
m1=4096,2,8 m2=4096,2,8 m3=4096,2,8 m4=4096,2,8";
    let answer = search(&format!("n={largest} rmax=64 g=7 alpha=0 {sparse}"));
    assert_eq!(value(&answer, "no"), 0);
    assert_eq!(value(&answer, "start"), 1_073_743_872);
}

/// READING C5.7's messages: 13 14 16 17 18 19 33 34 are what they leave.
#[test]
fn beside_messages() {
    let messages = "messages=1 m1=64,2,8";
    let words = "13,1,13 13,2,14 13,4,17 14,1,14 16,1,16 16,2,17 17,1,17";
    let expected = format!("no=0 start=0 count=7 {words}");
    let question = format!("n=0 rmax=4 g=2 {messages}");
    assert_eq!(search(&question), expected);
    let off_anchor = search(&format!("{question} carrier=1"));
    let words = "0,1,0 0,2,1 0,4,3 1,1,1 2,1,2 2,2,3 3,1,3";
    assert_eq!(off_anchor, format!("no=0 start=0 count=7 {words}"));
    let late = "bits=40 anchor=4000000000 siwindow=1600 messages=4 \
m1=4096,2,8 m2=4096,2,8 m3=4096,2,8 m4=4096,2,8";
    let answer = search(&format!("n=0 rmax=2 g=2 {late}"));
    let words = "6401,1,6401 6401,2,6441 6441,1,6441";
    assert_eq!(answer, format!("no=0 start=0 count=3 {words}"));
}

/// The numbers of every combination, by the words of 02: 22 is (1, 1.5),
/// (1, 2) and (2, 1.5), 23 is fifteen triples.
#[test]
fn numbers_22_and_23() {
    let mut short = BTreeSet::new();
    let mut past = BTreeSet::new();
    for space in combinations() {
        let (rmax, g, alpha) = (space.rmax, space.g, space.alpha);
        match value(&asked(0, rmax, g, alpha), "no") {
            0 => {}
            22 => assert!(short.insert((rmax, g, alpha))),
            no => assert!(no == 23 && past.insert((rmax, g, alpha))),
        }
    }
    let pairs: BTreeSet<_> = short.iter().map(|&(rmax, g, _)| (rmax, g)).collect();
    assert_eq!(pairs, BTreeSet::from([(1, 0), (1, 1), (2, 0)]));
    assert_eq!(short.len(), 12, "whatever the offset");
    let triples = [
        (2048, 6, 1),
        (2048, 7, 1),
        (1024, 6, 2),
        (1024, 7, 2),
        (2048, 5, 2),
        (2048, 6, 2),
        (2048, 7, 2),
        (512, 7, 3),
        (1024, 5, 3),
        (1024, 6, 3),
        (1024, 7, 3),
        (2048, 4, 3),
        (2048, 5, 3),
        (2048, 6, 3),
        (2048, 7, 3),
    ];
    assert_eq!(past, BTreeSet::from(triples));
}

/// The largest parts that are accepted: 9,216 and 8,192 of a hyperframe.
#[test]
fn just_below_23() {
    assert_eq!(start(0, 512, 6, 3), 9216);
    assert_eq!(start(9217, 512, 6, 3), 10_240 + 9216);
    assert_eq!(start(0, 1024, 7, 1), 8192);
    assert_eq!(start(0, 2048, 4, 2), 8192);
}

/// The cell's, then 9, 10, 12, 22, 23.
#[test]
fn order_of_refusals() {
    let no = |words: &str| {
        let answer = search(words);
        let zeros = format!("no={} start=0 count=0", value(&answer, "no"));
        assert_eq!(answer, zeros, "{words}");
        value(&answer, "no")
    };
    let full = "siwindow=640 messages=2 m1=64,2,8 m2=64,2,8";
    let all = "n=1073741824 g=8 alpha=4 rmax=3";
    assert_eq!(no(&format!("{all} mode=4")), 1);
    assert_eq!(no(&format!("{all} identity=504")), 2);
    assert_eq!(no(&format!("{all} nports=0")), 3);
    assert_eq!(no(&format!("{all} cports=1")), 4);
    assert_eq!(no(&format!("{all} control=1")), 5);
    assert_eq!(no(&format!("{all} sib1=12")), 6);
    assert_eq!(no(&format!("{all} bits=11")), 7);
    assert_eq!(no(&format!("{all} siwindow=0")), 21);
    assert_eq!(no(&format!("{all} bits=10 anchor=0000")), 8);
    assert_eq!(no(&format!("{all} bits=10 anchor=8400")), 18);
    assert_eq!(no(&format!("{all} {full}")), 18);
    assert_eq!(no(all), 9);
    assert_eq!(no("n=1073741824 rmax=1"), 9, "before 22");
    assert_eq!(no("g=8 alpha=4 rmax=3"), 10);
    assert_eq!(no("alpha=4 rmax=1"), 10, "before 22");
    assert_eq!(no("rmax=3"), 12);
    assert_eq!(no("rmax=1"), 22);
    assert_eq!(no("rmax=2048 g=7 alpha=3"), 23);
}

#[test]
fn largest_numbers_and_past_them() {
    let no = |words: &str| value(&search(words), "no");
    assert_eq!(no("n=1073741823 rmax=1 g=2"), 0);
    for n in ["1073741824", "4294967296", "18446744073709551615"] {
        assert_eq!(no(&format!("n={n} rmax=1 g=2")), 9);
    }
    assert_eq!(no("rmax=1 g=7 alpha=3"), 0);
    for field in ["8", "256", "4294967298", "18446744073709551615"] {
        assert_eq!(no(&format!("rmax=4 g={field}")), 10);
        assert_eq!(no(&format!("rmax=4 alpha={field}")), 10);
    }
    assert_eq!(no("rmax=4 alpha=4"), 10);
    for rmax in ["0", "3", "6", "2047", "4096", "4294967300"] {
        assert_eq!(no(&format!("g=2 rmax={rmax}")), 12);
    }
    assert_eq!(no("rmax=9223372036854775808 g=7"), 12);
    let idle = "rmax=4 r=0 format=9 ncce=9 delay=9 subframes=9 copies=99 t=7";
    assert_eq!(no(idle), 0, "no grant's numbers but n and Rmax");
}

/// The first start not before n, worked out with no scan.
fn worked_start(search: &SearchSpace) -> u64 {
    let period = period(search.rmax, search.g);
    let offset = offset(search);
    let turn = search.n - search.n % 10_240;
    let within = search.n % 10_240;
    let steps = within.saturating_sub(offset).div_ceil(period);
    match offset + steps * period {
        start if start < 10_240 => turn + start,
        _ => turn + 10_240 + offset,
    }
}

/// The last of r usable subframes from `first` on, which is one of them.
fn last_of(cell: &AcceptedCell, first: u64, r: u64) -> u64 {
    let mut usable = (first..).filter(|&t| cell.usable(t));
    usable.nth(r as usize - 1).expect("without end")
}

/// Each R has Rmax/R candidates, one after the other from the start on.
fn check_rows(cell: &AcceptedCell, search: &SearchSpace, start: u64, listed: &[[u64; 3]]) {
    let copies: BTreeSet<u64> = listed.iter().map(|c| c[1]).collect();
    let least = (search.rmax / 8).max(1);
    let powers = (0..12).map(|power| 1 << power);
    let wanted = powers.filter(|r| (least..=search.rmax).contains(r));
    assert_eq!(copies, wanted.collect::<BTreeSet<u64>>());
    for r in copies {
        let row: Vec<_> = listed.iter().filter(|c| c[1] == r).collect();
        assert_eq!(row.len() as u64, search.rmax / r);
        let mut from = start;
        for [first, _, last] in row {
            assert!(cell.usable(*first));
            assert!((from..*first).all(|t| !cell.usable(t)));
            assert_eq!(*last, last_of(cell, *first, r));
            from = last + 1;
        }
    }
}

/// Every line of `reference spaces`, held against the starts worked out above
/// and, every fifth one, candidate by candidate.
#[test]
fn every_combination() {
    let mut file = Vec::new();
    write_every_search_space(&mut file).expect("memory takes all");
    let answers = ask_bytes(&file);
    assert_eq!(answers.len(), 2 * 12 * 8 * 4 * 10);
    let mut values = Values::default();
    let mut answers = answers.iter().enumerate();
    let (mut short, mut past) = (0, 0);
    for line in file.split(|&b| b == b'\n').filter(|line| !line.is_empty()) {
        read_line(&mut values, line).expect("a question");
        if line.starts_with(b"set") {
            continue;
        }
        let (number, answer) = answers.next().expect("an answer");
        match value(answer, "no") {
            0 => check_answer(&values, answer, number % 5 == 0),
            22 => short += 1,
            no => {
                assert_eq!(no, 23);
                past += 1;
            }
        }
    }
    assert_eq!((short, past), (2 * 10 * 12, 2 * 10 * 15));
}

fn check_answer(values: &Values, answer: &str, rows_too: bool) {
    let search = values.search();
    let start = value(answer, "start");
    assert_eq!(start, worked_start(&search), "{search:?}");
    let listed = candidates(answer);
    assert_eq!(listed.len() as u64, value(answer, "count"));
    let order = |pair: &[[u64; 3]]| pair[0][..2] < pair[1][..2];
    assert!(listed.windows(2).all(order), "by first, then R");
    if rows_too {
        let cell = values.cell.accept().expect("accepted");
        check_rows(&cell, &search, start, &listed);
    }
}

/// READING C6.9: each candidate is what plan answers of an NPDCCH from it on.
#[test]
fn candidates_as_control_grants() {
    let cells = [
        "mode=3 nports=1",
        "mode=0 identity=100 nports=1 cports=1 control=1 carrier=1 bits=10 other=9140",
        "mode=1 identity=3 nports=2 cports=4 control=3 sib1=5 bits=40 anchor=f73e9a55e1 \
siwindow=480 sioffset=15 messages=3 m1=64,4,8 m2=64,2,2 m3=128,2,8",
    ];
    for cell in cells {
        for (n, rmax, g, alpha) in [(15, 4, 2, 1), (10_239, 64, 0, 3), (7777, 256, 3, 2)] {
            let words = format!("n={n} rmax={rmax} g={g} alpha={alpha}");
            let answer = ask(&format!("set {cell}\nsearch {words}")).remove(0);
            for [first, r, last] in candidates(&answer) {
                let plan = format!("plan control {cell} n={first} r={r} format=1 ncce=0");
                let plan = ask(&plan).remove(0);
                assert_eq!(value(&plan, "first"), first);
                assert_eq!(value(&plan, "last"), last);
                assert_eq!(value(&plan, "copies"), r);
            }
        }
    }
}
