//! A picture of one transmitted subframe, or of one transmitted slot.

use super::timeline::FRAMES;
use crate::model::cell::Cause;
use crate::model::elements::{self, Element, Layout, SLOTS, SUBCARRIERS, SYMBOLS};
use crate::model::listing::Listing;
use crate::model::uplink_slots::{first_subframe_of, SlotUse};

const DOWNLINK_LEGEND: &str =
    "o ours, N narrowband reference, C cell reference, # control region, . anything else";
const UPLINK_LEGEND: &str = "o data, R reference, . tone not granted";

/// One transmitted subframe or slot.
#[derive(Clone, Debug, Default)]
pub struct Picture {
    /// Which one it is, and what it carries.
    pub title: String,
    pub legend: &'static str,
    /// The lines over the columns.
    pub columns: [String; 2],
    /// The highest k on top.
    pub rows: Vec<String>,
    /// The subframes between this one and the next one sent; slots and
    /// channels don't say.
    pub skipped: Option<Vec<(u64, Cause)>>,
}

/// The subframes between the i-th one sent and the next, with their causes.
pub fn skipped_after(listing: &Listing, i: usize) -> Vec<(u64, Cause)> {
    let (Some(cell), Some(&next)) = (&listing.cell, listing.sent.get(i + 1)) else {
        return Vec::new();
    };
    let between = listing.sent[i] + 1..next;
    between.filter_map(|t| Some((t, cell.cause(t)?))).collect()
}

/// `frame 2, subframe 1 of it` of subframe 21.
fn frame_text(t: u64) -> String {
    format!("frame {}, subframe {} of it", (t / 10) % FRAMES, t % 10)
}

/// `i=0 of 8 transmitted`.
fn number_text(listing: &Listing, i: usize) -> String {
    format!("i={i} of {} transmitted", listing.sent.len())
}

/// The rows of a grid, the highest k on top: a label, then the signs.
fn rows(subcarriers: u64, signs: impl Fn(u64) -> String) -> Vec<String> {
    let from_top = (0..subcarriers).rev();
    from_top.map(|k| format!("k {k:>2} {}", signs(k))).collect()
}

/// The i-th subframe sent; what is skipped after it is told of a grant.
pub fn subframe(layout: &Layout, listing: &Listing, i: usize) -> Picture {
    let (t, codeword) = (listing.sent[i], listing.carries[i]);
    let (frame, number) = (frame_text(t), number_text(listing, i));
    Picture {
        title: format!("subframe {t}: {frame}, {number}, codeword subframe {codeword}"),
        legend: DOWNLINK_LEGEND,
        columns: [
            "     slot 0  slot 1".to_string(),
            "   l 0123456 0123456".to_string(),
        ],
        rows: rows(SUBCARRIERS, |k| subframe_signs(layout, listing, k)),
        skipped: listing.cell.as_ref().map(|_| skipped_after(listing, i)),
    }
}

/// One subcarrier of a subframe, first slot first.
fn subframe_signs(layout: &Layout, listing: &Listing, k: u64) -> String {
    let signs_of = |slot| -> String {
        let symbols = (0..SYMBOLS).map(|l| Element { slot, l, k });
        symbols.map(|e| sign(layout, listing, e)).collect()
    };
    let slots: Vec<String> = (0..SLOTS).map(signs_of).collect();
    slots.join(" ")
}

fn sign(layout: &Layout, listing: &Listing, e: Element) -> char {
    if listing.number_of_element(e).is_some() {
        'o'
    } else if elements::narrowband_reference(layout, e) {
        'N'
    } else if elements::cell_reference(layout, e) {
        'C'
    } else if elements::in_control_region(layout, e) {
        '#'
    } else {
        '.'
    }
}

/// The i-th slot sent; `slots_in_unit` where resource units are told.
pub fn slot(
    slot_use: &SlotUse,
    listing: &Listing,
    slots_in_unit: Option<u64>,
    i: usize,
) -> Picture {
    let (slot, codeword) = (listing.sent[i], listing.carries[i]);
    let t = first_subframe_of(slot_use.spacing, slot);
    let (frame, number) = (frame_text(t), number_text(listing, i));
    let mut title = format!("slot {slot}: from subframe {t}, {frame}, {number}");
    title.push_str(&format!(", codeword slot {codeword}"));
    if let Some(slots) = slots_in_unit {
        title.push_str(&format!(", resource unit {}", codeword / slots));
    }
    let tones = &slot_use.tones;
    title.push_str(&format!(", tones {} to {}", tones.start, tones.end - 1));
    Picture {
        title,
        legend: UPLINK_LEGEND,
        columns: [format!("     slot {slot}"), "   l 0123456".to_string()],
        rows: rows(slot_use.subcarriers(), |k| slot_signs(slot_use, k)),
        skipped: None,
    }
}

/// One subcarrier of a slot.
fn slot_signs(slot_use: &SlotUse, k: u64) -> String {
    let sign = |l| {
        if !slot_use.tones.contains(&k) {
            '.'
        } else if slot_use.references.contains(&l) {
            'R'
        } else {
            'o'
        }
    };
    (0..SYMBOLS).map(sign).collect()
}
