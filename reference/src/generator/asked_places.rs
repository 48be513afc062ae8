//! What a generated question asks for: positions, transmitted subframes or
//! slots, places that the grant has and places that it just misses.

use super::random::Random;
use super::setup::Setup;
use super::system_information::subframe_near_window;
use super::words::Word;
use crate::model::cell::Cause;
use crate::model::elements::{self, Element, SLOTS, SYMBOLS};
use crate::model::system_information::MESSAGE_PERIOD;
use crate::text::question::{Kind, Question};

/// Subframes of a frame that the anchor takes, always or in some frames.
const ANCHOR_SUBFRAMES: [u64; 7] = [0, 4, 4, 4, 5, 9, 9];

/// The number of a transmitted subframe or slot: ends, passes, gaps, any.
pub fn random_sent_number(random: &mut Random, setup: &Setup) -> u64 {
    let listing = &setup.listing;
    let count = listing.sent.len() as u64;
    let n = listing.codeword_units;
    let i = match random.below(6) {
        0 => 0,
        1 => count - 1,
        2 => random.pick(&[1, 3, 4, 7, 8, n - 1, n, n + 1]),
        3 => random.pick(&[4 * n - 1, 4 * n, 4 * n + 1, 8 * n, 2 * n]),
        4 => random.pick(&[127, 128, 129, 255, 256, 511, 512, 513, 1024]),
        _ => random.below(count),
    };
    i % count
}

/// The subframe of a picture: beside messages often one before many skipped
/// ones, or before about as many as a picture lists.
pub fn random_pictured_number(random: &mut Random, setup: &Setup) -> u64 {
    let sent = &setup.listing.sent;
    if !setup.has_messages() || sent.len() < 2 || random.chance(30) {
        return random_sent_number(random, setup);
    }
    let skipped = |i: usize| sent[i + 1] - sent[i] - 1;
    let numbers = 0..sent.len() - 1;
    let longest = numbers.clone().max_by_key(|&i| skipped(i));
    let about_200 = numbers.min_by_key(|&i| skipped(i).abs_diff(200));
    random.pick(&[longest, about_200]).unwrap_or(0) as u64
}

/// A grant whose first subframe is the last before the longest row of skipped
/// ones, and a picture of it.
pub fn words_before_longest_skip(random: &mut Random, setup: &Setup) -> Vec<Word> {
    let period = MESSAGE_PERIOD;
    let usable: Vec<u64> = (5..2 * period)
        .filter(|&t| setup.cause(t).is_none())
        .collect();
    let longest = usable.windows(2).max_by_key(|pair| pair[1] - pair[0]);
    let Some(pair) = longest else {
        return Vec::new();
    };
    let t = pair[0] + period * random.below(20_000);
    let word = |name, value: u64| (name, value.to_string());
    match setup.kind {
        Kind::Control => vec![word("n", t), word("r", 2), word("i", 0)],
        _ => vec![
            word("n", t - 5),
            word("delay", 0),
            word("copies", 1),
            word("i", 0),
        ],
    }
}

/// A position: first, last, at a unit's ends, any, or around the end.
pub fn random_position(random: &mut Random, setup: &Setup, question: Question) -> u64 {
    let total = setup.listing.place_count();
    let width = setup.listing.elements_per_unit();
    let walk = matches!(question, Question::Step(_));
    let percent = random.below(100);
    if walk && percent < 25 {
        return total - 1 - random.below(4).min(total - 1);
    }
    match percent {
        0..=4 => random.pick(&[total, total + 1, total + width, u64::MAX]),
        5..=6 if walk => total,
        7..=14 => 0,
        15..=24 => total - 1,
        _ => {
            let within = match random.below(3) {
                0 => 0,
                1 => width - 1,
                _ => random.below(width),
            };
            random_sent_number(random, setup) * width + within
        }
    }
}

/// A subframe to be asked for its cause: sent, skipped, at the places that
/// the anchor takes, any up to 2^64 - 1.
pub fn random_subframe(random: &mut Random, setup: &Setup) -> u64 {
    if setup.has_messages() && random.chance(40) {
        return random_subframe_near_window(random, setup);
    }
    let unit = setup.listing.sent[random_sent_number(random, setup) as usize];
    let any = random.any() >> random.below(64);
    let early = random.below(2 * 10240);
    let taken = random.pick(&ANCHOR_SUBFRAMES);
    match random.below(8) {
        0 => unit,
        1 => random_skipped_unit(random, setup).unwrap_or(unit + 1),
        2 => distant_unit(random, setup, unit),
        3 => early,
        4 if taken == 4 => next_sib1(setup, early).unwrap_or(early),
        4 | 5 => early - early % 10 + taken,
        6 => (any - any % 10).saturating_add(taken),
        _ => any,
    }
}

/// The next subframe that SIB1 takes; it takes none off the anchor.
fn next_sib1(setup: &Setup, t: u64) -> Option<u64> {
    let fourth = t - t % 10 + 4;
    let mut fourths = (fourth..fourth + 640).step_by(10);
    fourths.find(|&t| setup.cause(t) == Some(Cause::Sib1))
}

/// A subframe near the windows of the setup's messages: often one that they
/// take, or where the anchor takes some; early or far away.
fn random_subframe_near_window(random: &mut Random, setup: &Setup) -> u64 {
    let any = subframe_near_window(random, &setup.cell.messages).unwrap_or(0);
    let is_taken = |t: &u64| setup.cause(*t) == Some(Cause::Message);
    let near = match random.below(5) {
        0 => any,
        1 | 2 => any - any % 10 + random.pick(&ANCHOR_SUBFRAMES),
        _ => (any..any + 20).find(is_taken).unwrap_or(any),
    };
    let turns = random.any() >> random.below(64);
    let far = (turns / MESSAGE_PERIOD).saturating_sub(3) * MESSAGE_PERIOD;
    random.pick(&[near, near, near + far])
}

/// The words of a place to be asked backward.
pub fn place_words(random: &mut Random, setup: &Setup) -> Vec<Word> {
    let (unit, e) = random_place(random, setup);
    let (l, k) = (e.l.to_string(), e.k.to_string());
    if setup.kind.is_uplink() {
        return vec![("slot", unit.to_string()), ("l", l), ("k", k)];
    }
    vec![
        ("t", unit.to_string()),
        ("slot", e.slot.to_string()),
        ("l", l),
        ("k", k),
    ]
}

/// A place that forward gives, a near miss, a reference, or far away.
fn random_place(random: &mut Random, setup: &Setup) -> (u64, Element) {
    let listing = &setup.listing;
    let unit = listing.sent[random_sent_number(random, setup) as usize];
    let e = random.pick(&listing.elements);
    if setup.has_messages() && random.chance(10) {
        let between = random_skipped_unit(random, setup).unwrap_or(unit);
        return (between, random_element(random, setup));
    }
    match random.below(100) {
        0..=34 => (unit, e),
        35..=42 => {
            let between = random_skipped_unit(random, setup).unwrap_or(unit);
            (between, random_element(random, setup))
        }
        43..=52 => (
            unit,
            neighbouring_element(random, setup.kind.is_uplink(), e),
        ),
        53..=59 => (neighbouring_unit(random, setup, unit), e),
        60..=64 => (distant_unit(random, setup, unit), e),
        65..=78 => (unit, random_reference_element(random, setup)),
        79..=82 => (
            neighbouring_unit(random, setup, unit),
            random_reference_element(random, setup),
        ),
        83..=88 => (unit, random_element(random, setup)),
        89..=92 => (
            unit,
            Element {
                k: (e.k + 6) % setup.grant.subcarriers(),
                ..e
            },
        ),
        _ => {
            let l = random.below(setup.cell.control.max(1));
            let k = random.below(setup.grant.subcarriers());
            (unit, Element { slot: 0, l, k })
        }
    }
}

/// One element aside; now and then this leaves the grid.
pub fn neighbouring_element(random: &mut Random, uplink: bool, e: Element) -> Element {
    match random.below(5) {
        0 => Element { k: e.k + 1, ..e },
        1 => Element {
            k: e.k.saturating_sub(1),
            ..e
        },
        2 => Element { l: e.l + 1, ..e },
        3 => Element {
            l: e.l.saturating_sub(1),
            ..e
        },
        _ if uplink => Element { k: e.k + 3, ..e },
        _ => Element {
            slot: 1 - e.slot,
            ..e
        },
    }
}

/// A subframe or slot aside, around the span, or unsent within it.
fn neighbouring_unit(random: &mut Random, setup: &Setup, unit: u64) -> u64 {
    let listing = &setup.listing;
    match random.below(6) {
        0 => unit.saturating_sub(1),
        1 => unit + 1,
        2 => listing.first().saturating_sub(1),
        3 => listing.last() + 1,
        _ => random_unsent_unit(random, setup).unwrap_or(listing.last() + 2),
    }
}

/// A subframe or slot between first and last that isn't sent.
fn random_unsent_unit(random: &mut Random, setup: &Setup) -> Option<u64> {
    let sent = &setup.listing.sent;
    let from = random.below(sent.len() as u64) as usize;
    let holes = |pairs: &[u64]| {
        pairs
            .windows(2)
            .find(|w| w[1] > w[0] + 1)
            .map(|w| (w[0], w[1]))
    };
    let (before, after) = holes(&sent[from..]).or_else(|| holes(sent))?;
    Some(random.between(before + 1, after - 1))
}

/// As `random_unsent_unit`; of a downlink grant often one that SIB1 or a
/// message takes.
fn random_skipped_unit(random: &mut Random, setup: &Setup) -> Option<u64> {
    let wanted = if setup.has_messages() && random.chance(60) {
        Some(Cause::Message)
    } else if !setup.kind.is_uplink() && random.chance(40) {
        Some(Cause::Sib1)
    } else {
        None
    };
    if wanted.is_some() {
        for _ in 0..8 {
            let t = random_unsent_unit(random, setup)?;
            if setup.cause(t) == wanted {
                return Some(t);
            }
        }
    }
    random_unsent_unit(random, setup)
}

/// Far away: cut to 32 bits, or by a whole period, some look like the grant's own.
fn distant_unit(random: &mut Random, setup: &Setup, unit: u64) -> u64 {
    if setup.has_messages() && random.chance(20) {
        return unit + MESSAGE_PERIOD * random.between(1, 3);
    }
    let aside = random.any() >> random.below(64);
    random.pick(&[
        0,
        unit + 2560,
        unit + 10240,
        unit + (1 << 32),
        unit % (1 << 32),
        unit + (1 << 63),
        (1 << 32) - 1,
        1 << 32,
        u64::MAX,
        u64::MAX - 1,
        aside,
    ])
}

fn random_element(random: &mut Random, setup: &Setup) -> Element {
    Element {
        slot: match setup.kind.is_uplink() {
            true => 0,
            false => random.below(SLOTS),
        },
        l: random.below(SYMBOLS),
        k: random.below(setup.grant.subcarriers()),
    }
}

/// A reference element; in the uplink also its symbol on tones not granted.
fn random_reference_element(random: &mut Random, setup: &Setup) -> Element {
    if let Some(slot) = setup.grant.slot_use() {
        let l = random.between(slot.references.start, slot.references.end - 1);
        let e = random.pick(&setup.listing.elements);
        let k = match random.below(4) {
            0 => random.below(slot.subcarriers()),
            _ => e.k,
        };
        return Element { slot: 0, l, k };
    }
    loop {
        let e = random_element(random, setup);
        if elements::reference_kind(&setup.cell.layout(), e) != 0 {
            return e;
        }
    }
}
