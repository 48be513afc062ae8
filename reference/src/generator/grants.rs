//! Accepted grants for a question file, and the words that set them.

use super::cells::UsableShare;
use super::random::Random;
use super::random_access_windows::{random_windows, window_words};
use super::system_information::subframe_near_window;
use super::words::{number_word, Word};
use crate::model::acknowledgement::{Ack, LARGEST_ACK_N};
use crate::model::cell::{Cell, ANCHOR_PERIOD};
use crate::model::downlink::{self, Npdcch, Npdsch, LARGEST_N, SUBFRAMES};
use crate::model::grant::Grant;
use crate::model::random_access_windows::Windows;
use crate::model::system_information::MESSAGE_PERIOD;
use crate::model::uplink::Npusch;
use crate::text::question::Kind;

/// The n of a grant: early, late or any.
pub fn random_n(random: &mut Random) -> u64 {
    match random.below(10) {
        0..=4 => random.below(3 * ANCHOR_PERIOD),
        5 => random.pick(&[0, 1, 2, 9, 10, 2559, 10235, 10239, 10240]),
        6 => random.pick(&[LARGEST_N, LARGEST_N - 1, 1 << 29, (1 << 29) - 1]),
        7 => LARGEST_N - random.below(3 * ANCHOR_PERIOD),
        _ => random.below(1 << 30),
    }
}

fn random_npdsch(random: &mut Random) -> Npdsch {
    Npdsch {
        n: random_n(random),
        delay: random.below(8),
        rmax: 1 << random.below(12),
        subframes: random.below(8),
        copies: random.below(16),
    }
}

/// Is a scan short enough? Long ones come seldom, very long ones never.
pub fn scan_is_bearable(random: &mut Random, steps: u64, long: u64) -> bool {
    steps < long || (random.chance(2) && steps < 4_000_000)
}

/// A begin near the messages' windows; none without messages.
pub fn random_n_near_window(random: &mut Random, cell: &Cell) -> Option<u64> {
    let near = subframe_near_window(random, &cell.messages)?;
    let turns = LARGEST_N / MESSAGE_PERIOD - 2;
    match random.below(4) {
        0 => None,
        1 => Some(near + MESSAGE_PERIOD * turns),
        _ => Some(near),
    }
}

fn random_bearable_npdsch(random: &mut Random, cell: &Cell, share: &UsableShare) -> Npdsch {
    loop {
        let mut g = random_npdsch(random);
        let copies = downlink::COPIES[g.copies as usize];
        let sent = copies * SUBFRAMES[g.subframes as usize];
        if scan_is_bearable(random, share.subframes_until(sent), 100_000) {
            g.n = random_n_near_window(random, cell).unwrap_or(g.n);
            return g;
        }
    }
}

/// Long scans come with messages only.
fn random_bearable_npdcch(random: &mut Random, cell: &Cell, share: &UsableShare) -> Npdcch {
    loop {
        let mut g = random_npdcch(random);
        if scan_is_bearable(random, share.subframes_until(g.r), 200_000) {
            g.n = random_n_near_window(random, cell).unwrap_or(g.n);
            return g;
        }
    }
}

fn random_npdcch(random: &mut Random) -> Npdcch {
    let (format, ncce) = random.pick(&[(0, 0), (0, 1), (1, 0)]);
    Npdcch {
        n: random_n(random),
        r: 1 << random.below(12),
        format,
        ncce,
    }
}

fn random_npusch(random: &mut Random) -> Npusch {
    let spacing = random.below(2);
    let subcarrier = match (spacing, random.below(3)) {
        (0, 0) => random.pick(&[0, 1, 11, 12, 18, 19, 46, 47]),
        (0, _) => random.below(48),
        (_, 0) => random.pick(&[0, 11, 12, 15, 16, 17, 18, 18]),
        _ => random.below(19),
    };
    Npusch {
        n: random_n(random),
        spacing,
        subcarrier,
        units: random.below(8),
        copies: random.below(8),
        delay: random.below(4),
        mcs: random.below(5),
        windows: Windows::default(),
    }
}

/// The first n for windows that reach over t = 0 is often small.
fn random_early_n(random: &mut Random, windows: &Windows) -> Option<u64> {
    let window_reaches_over_zero = windows
        .entries_in_use()
        .iter()
        .any(|w| w.overlaps_time(&(0..1)));
    (window_reaches_over_zero && random.chance(60)).then(|| random.below(400))
}

/// An NPUSCH grant that the windows push aside now and then.
fn random_npusch_beside_windows(random: &mut Random) -> Npusch {
    let mut g = random_npusch(random);
    g.windows = random_windows(random, &g.slot_use(), g.slot_count());
    g.n = random_early_n(random, &g.windows).unwrap_or(g.n);
    g
}

/// Near the largest n the slots at 15 kHz pass 2^32.
fn random_ack_n(random: &mut Random) -> u64 {
    match random.below(10) {
        0..=2 => random.below(3 * ANCHOR_PERIOD),
        3 => random.pick(&[0, 1, 2, 9, 10, 99, 100, 101, 2559, 10239, 10240]),
        4 => random.pick(&[LARGEST_ACK_N, LARGEST_ACK_N - 1, LARGEST_ACK_N - 17]),
        5 => LARGEST_ACK_N - random.below(40),
        6 => LARGEST_ACK_N - random.below(600),
        7 => random.between(LARGEST_N - 40, LARGEST_N + 40),
        _ => random.below(1 << 31),
    }
}

fn random_ack(random: &mut Random) -> Ack {
    Ack {
        n: random_ack_n(random),
        spacing: random.below(2),
        field: random.below(16),
        copies: random.below(8),
        windows: Windows::default(),
    }
}

/// An acknowledgement that the windows push aside now and then.
fn random_ack_beside_windows(random: &mut Random) -> Ack {
    let mut g = random_ack(random);
    g.windows = random_windows(random, &g.slot_use(), g.slot_count());
    g.n = random_early_n(random, &g.windows).unwrap_or(g.n);
    g
}

pub fn random_grant(random: &mut Random, kind: Kind, cell: &Cell, share: &UsableShare) -> Grant {
    match kind {
        Kind::Down => Grant::Down(random_bearable_npdsch(random, cell, share)),
        Kind::Control => Grant::Control(random_bearable_npdcch(random, cell, share)),
        Kind::Up => Grant::Up(random_npusch_beside_windows(random)),
        Kind::Ack => Grant::Ack(random_ack_beside_windows(random)),
    }
}

/// The words that set a grant.
pub fn grant_words(random: &mut Random, grant: &Grant) -> Vec<Word> {
    let mut words = grant_numbers(grant);
    match grant {
        Grant::Up(g) => words.extend(window_words(random, &g.windows)),
        Grant::Ack(g) => words.extend(window_words(random, &g.windows)),
        _ => {}
    }
    words
}

/// The words of a grant's own numbers.
fn grant_numbers(grant: &Grant) -> Vec<Word> {
    match grant {
        Grant::Down(g) => vec![
            number_word("n", g.n),
            number_word("delay", g.delay),
            number_word("rmax", g.rmax),
            number_word("subframes", g.subframes),
            number_word("copies", g.copies),
        ],
        Grant::Control(g) => vec![
            number_word("n", g.n),
            number_word("r", g.r),
            number_word("format", g.format),
            number_word("ncce", g.ncce),
        ],
        Grant::Up(g) => vec![
            number_word("n", g.n),
            number_word("spacing", g.spacing),
            number_word("subcarrier", g.subcarrier),
            number_word("units", g.units),
            number_word("copies", g.copies),
            number_word("delay", g.delay),
            number_word("mcs", g.mcs),
        ],
        Grant::Ack(g) => vec![
            number_word("n", g.n),
            number_word("spacing", g.spacing),
            number_word("field", g.field),
            number_word("copies", g.copies),
        ],
    }
}
