//! A timeline of a grant: a row a frame, a sign a subframe or slot.

use crate::model::cell::Cause;
use crate::model::grant::Grant;
use crate::model::listing::Listing;
use crate::model::uplink_slots::is_in_gap;

/// The frame's number turns after so many.
pub const FRAMES: u64 = 1024;

/// The most rows that a timeline shows.
pub const MOST_ROWS: u64 = 64;

const SUBFRAME_LEGEND: [&str; 2] = [
    "0 to 9 codeword subframe, B NPBCH, P NPSS, S NSSS, I SIB1, M message, x bitmap, \
     . before the first or after the last",
    "t is the row's first subframe, over the signs is the subframe of the frame",
];
const UNIT_LEGEND: &str =
    "0 to 9 resource unit, G gap, W random access window, . before the first or after the last";
const SLOT_LEGEND: &str =
    "0 to 3 codeword slot, G gap, W random access window, . before the first or after the last";
const SLOT_COLUMNS: &str =
    "slot is the row's first slot, over the signs is the subframe of the frame in which each begins";

/// A grant from its first to its last frame.
#[derive(Clone, Debug, Default)]
pub struct Timeline {
    /// The line over the rows.
    pub columns: &'static str,
    pub rows: Vec<Row>,
    /// Frames past the last row.
    pub more: u64,
    pub legend: [&'static str; 2],
}

/// One frame.
#[derive(Clone, Debug, Default)]
pub struct Row {
    /// The number of its first subframe or slot.
    pub first: u64,
    pub signs: String,
    /// Modulo 1024.
    pub frame: u64,
}

/// Subframes or slots of a frame.
fn units_in_frame(grant: &Grant) -> u64 {
    match grant.slot_use() {
        None => 10,
        Some(slot) if slot.spacing == 1 => 20,
        Some(_) => 5,
    }
}

fn columns(grant: &Grant) -> &'static str {
    match units_in_frame(grant) {
        10 => "         t frame 0123456789",
        20 => "      slot frame 0 1 2 3 4 5 6 7 8 9",
        _ => "      slot frame 02468",
    }
}

fn legend(grant: &Grant) -> [&'static str; 2] {
    match grant {
        Grant::Down(_) | Grant::Control(_) => SUBFRAME_LEGEND,
        Grant::Up(_) => [UNIT_LEGEND, SLOT_COLUMNS],
        Grant::Ack(_) => [SLOT_LEGEND, SLOT_COLUMNS],
    }
}

/// The timeline of an accepted grant.
pub fn timeline(grant: &Grant, listing: &Listing) -> Timeline {
    let units = units_in_frame(grant);
    let frames = listing.first() / units..listing.last() / units + 1;
    let count = frames.end - frames.start;
    let row = |frame| Row {
        first: frame * units,
        signs: (frame * units..(frame + 1) * units)
            .map(|unit| sign(grant, listing, unit))
            .collect(),
        frame: frame % FRAMES,
    };
    Timeline {
        columns: columns(grant),
        rows: frames.take(MOST_ROWS as usize).map(row).collect(),
        more: count.saturating_sub(MOST_ROWS),
        legend: legend(grant),
    }
}

fn sign(grant: &Grant, listing: &Listing, unit: u64) -> char {
    if unit < listing.first() || unit > listing.last() {
        return '.';
    }
    if let Some(i) = listing.number_of_unit(unit) {
        return digit(carried(grant, listing.carries[i as usize]));
    }
    match &listing.cell {
        Some(cell) => cause_sign(cell.cause(unit)),
        None => postponed_sign(grant, unit),
    }
}

fn digit(number: u64) -> char {
    match char::from_digit(number as u32, 10) {
        Some(digit) => digit,
        None => unreachable!("no codeword has over ten subframes or units"),
    }
}

/// What is told of a codeword subframe or slot that is sent.
fn carried(grant: &Grant, codeword: u64) -> u64 {
    codeword / grant.slots_in_unit().unwrap_or(1)
}

fn cause_sign(cause: Option<Cause>) -> char {
    match cause {
        Some(Cause::Npbch) => 'B',
        Some(Cause::Npss) => 'P',
        Some(Cause::Nsss) => 'S',
        Some(Cause::Sib1) => 'I',
        Some(Cause::Message) => 'M',
        Some(Cause::Bitmap) => 'x',
        None => unreachable!("between first and last each usable subframe is sent"),
    }
}

/// A slot that isn't sent is in a gap, or a window pushes it aside.
fn postponed_sign(grant: &Grant, slot: u64) -> char {
    match grant.first_named_slot() {
        Some((spacing, first)) if is_in_gap(spacing, first, slot) => 'G',
        _ => 'W',
    }
}
