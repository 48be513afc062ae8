//! Cells of more than 8 numbers whose messages are not all lent or of a count of 0: they are answered as the 8 are.

use crate::ours;
use crate::inputs::Input;

/// Lent after the eight: some of the 15, which are not read, or all of them with a count of 0, after which nothing is read.
fn longer(s: &Input, turn: usize) -> [Vec<u64>; 2] {
    let some = vec![u64::MAX; 1 + turn % 14];
    let mut none = vec![u64::MAX; 15];
    none[..3].copy_from_slice(&[160, 0, 0]);
    [some, none].map(|more| [&s.cell[..], &more].concat())
}

/// The answers to a cell and its grants, and the walks' records without what follows the grant.
fn answers(s: &Input, cell: &[u64]) -> (Vec<u64>, [Vec<u64>; 2]) {
    let (a, o, more) = (&s.anchor, &s.other, &cell[8..]);
    let ([t, d1, d2, d3], [u, c1, c2, c3]) = (s.at_down, s.at_control);
    let (mut b, mut n, mut c) = ([0; 3], [0; 2], [0; 2]);
    let (mut pd, mut pc, mut fd, mut fc, mut bd, mut bc) = ([0; 5], [0; 5], [0; 6], [0; 6], [0; 6], [0; 6]);
    let (mut sd, mut sc, mut ss) = ([0; 7], [0; 7], [0; 48]);
    let mut walks = [[&s.walk_down[..], more].concat(), [&s.walk_control[..], more].concat()];
    let mut all = vec![ours::judge(cell, a, o)];
    ours::bitmap(cell, a, o, &mut b);
    ours::count(cell, a, o, &mut n);
    ours::cause(cell, a, o, t, &mut c);
    ours::plan_down(cell, a, o, &s.down, &mut pd);
    ours::plan_control(cell, a, o, &s.control, &mut pc);
    ours::forward_down(cell, a, o, &s.down, s.p[1], &mut fd);
    ours::forward_control(cell, a, o, &s.control, s.p[2], &mut fc);
    ours::backward_down(cell, a, o, &s.down, t, d1, d2, d3, &mut bd);
    ours::backward_control(cell, a, o, &s.control, u, c1, c2, c3, &mut bc);
    ours::step_down(&mut walks[0], a, o, &mut sd);
    ours::step_control(&mut walks[1], a, o, &mut sc);
    ours::search(cell, a, o, &s.space, &mut ss);
    for answer in [&b[..], &n, &c, &pd, &pc, &fd, &fc, &bd, &bc, &sd, &sc, &ss] {
        all.extend(answer);
    }
    all.extend(broadcasts(s, cell));
    walks[0].truncate(14);
    walks[1].truncate(13);
    (all, walks)
}

/// The answers about NPBCH and SIB1, in the frame of the NPDSCH's place.
fn broadcasts(s: &Input, cell: &[u64]) -> Vec<u64> {
    let (a, o, p, [t, slot, l, k]) = (&s.anchor, &s.other, s.p[1] % 8192, s.at_down);
    let frame = t - t % 10;
    let (mut fb, mut fs, mut bb, mut bs) = ([0; 6], [0; 6], [0; 5], [0; 5]);
    ours::forward_npbch(cell, a, o, p, &mut fb);
    ours::forward_sib1(cell, a, o, p, &mut fs);
    ours::backward_npbch(cell, a, o, frame, slot, l, k, &mut bb);
    ours::backward_sib1(cell, a, o, frame + 4, slot, l, k, &mut bs);
    [&fb[..], &fs, &bb, &bs].concat()
}

pub fn compare(inputs: &[Input]) {
    let mut agreed = 0;
    for (turn, s) in inputs.iter().enumerate() {
        let expected = answers(s, &s.cell);
        agreed += longer(s, turn).iter().filter(|cell| answers(s, cell) == expected).count();
    }
    let asked = 2 * inputs.len();
    println!("A cell of 9 to 22 numbers, and one of 23 with a count of 0, are answered as one of 8: {agreed} of {asked}.\n");
    assert_eq!(agreed, asked, "cells without messages: the answers differ");
}
