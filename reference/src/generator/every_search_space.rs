//! Questions for the candidates of every Rmax, G and offset (02, "L6").

use crate::model::downlink::LARGEST_N;
use crate::model::search_space::{SearchSpace, HYPERFRAME};
use crate::text::question::Question;
use std::io::{self, Write};

/// Words that set a standalone anchor, then an in-band one with a bitmap and
/// messages.
const CELLS: [&str; 2] = [
    "mode=3 nports=1",
    "mode=1 identity=5 nports=2 cports=4 control=2 sib1=4 bits=40 anchor=f73e9a55e1 \
siwindow=480 sioffset=9 messages=2 m1=64,2,8 m2=128,4,2",
];

/// The first subframe of the sixth hyperframe.
const SIXTH_HYPERFRAME: u64 = 5 * HYPERFRAME;

/// Every combination, also those that are refused, with n = 0.
pub fn combinations() -> Vec<SearchSpace> {
    let mut list = Vec::new();
    for power in 0..12 {
        for g in 0..8 {
            list.extend((0..4).map(|alpha| SearchSpace {
                n: 0,
                rmax: 1 << power,
                g,
                alpha,
            }));
        }
    }
    list
}

/// Ten n: at starts, just past them, around the sixth hyperframe's begin, and the largest.
fn asked_from(search: &SearchSpace) -> [u64; 10] {
    let offset = search.offset_subframes();
    let before_sixth = (0..SIXTH_HYPERFRAME).rev().find(|&t| search.starts_at(t));
    let last = before_sixth.unwrap_or(SIXTH_HYPERFRAME - 2);
    [
        0,
        offset,
        offset + 1,
        last,
        last + 1,
        SIXTH_HYPERFRAME - 1,
        SIXTH_HYPERFRAME,
        SIXTH_HYPERFRAME + offset,
        SIXTH_HYPERFRAME + offset + 1,
        LARGEST_N,
    ]
}

/// Writes the questions: each combination from ten n in two cells.
pub fn write_every_search_space(out: &mut impl Write) -> io::Result<()> {
    for cell in CELLS {
        writeln!(out, "{} {cell}", Question::Set.text())?;
        for search in combinations() {
            for n in asked_from(&search) {
                write!(out, "{} n={n}", Question::Search.text())?;
                let SearchSpace { rmax, g, alpha, .. } = search;
                writeln!(out, " rmax={rmax} g={g} alpha={alpha}")?;
            }
        }
    }
    out.flush()
}
