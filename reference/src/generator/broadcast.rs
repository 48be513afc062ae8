//! Questions on NPBCH and SIB1 for a question file: positions, places of any
//! period up to 2^64 - 1, places beside them, pictures.

use super::asked_places::neighbouring_element;
use super::cells::{cell_words, random_accepted_anchor};
use super::random::Random;
use super::refusals::random_above;
use super::setup::Setup;
use super::words::{number_word, Word};
use crate::model::accepted_cell::{AcceptedCell, CellCache};
use crate::model::broadcast::{Broadcast, Channel};
use crate::model::elements::{self, Element};
use crate::text::question::Question;
use std::rc::Rc;

/// One past the last position of any period: 128 subframes of 160 elements.
const MOST_PLACES: u64 = 128 * 160;

/// The cell that is asked of: the setup's own, or another anchor with its
/// words. A setup off the anchor keeps its own now and then: none is given.
fn random_asked_cell(random: &mut Random, setup: &Setup) -> (Option<Rc<AcceptedCell>>, Vec<Word>) {
    let on_anchor = setup.cell.carrier == 0;
    let own = if on_anchor { 85 } else { 25 };
    if random.chance(own) {
        let accepted = setup.listing.cell.clone();
        return (accepted.filter(|_| on_anchor), Vec::new());
    }
    let accepted = random_accepted_anchor(random, &mut CellCache::default());
    let words = cell_words(random, &accepted.cell);
    (Some(accepted), words)
}

/// The words of a question on a channel.
pub fn broadcast_words(random: &mut Random, setup: &Setup, question: Question) -> Vec<Word> {
    let Some(channel) = question.channel() else {
        return Vec::new();
    };
    let (accepted, mut words) = random_asked_cell(random, setup);
    let listed = accepted.and_then(|accepted| Broadcast::of(channel, &accepted).ok());
    words.extend(match listed {
        Some(broadcast) => words_in_period(random, &broadcast, question),
        None => words_without_broadcast(random, channel),
    });
    words
}

/// The words of a question on a channel that is sent.
fn words_in_period(random: &mut Random, broadcast: &Broadcast, question: Question) -> Vec<Word> {
    match question {
        Question::ChannelForward(_) => vec![number_word("p", random_position(random, broadcast))],
        Question::ChannelPicture(_) => {
            let count = broadcast.listing.sent.len() as u64;
            let any = random.below(count);
            vec![number_word("i", random.pick(&[0, 1, 7, 8, count - 1, any]))]
        }
        _ => {
            let (t, e) = random_place(random, broadcast);
            place_words(t, e)
        }
    }
}

/// Words for a cell that has no broadcast.
fn words_without_broadcast(random: &mut Random, channel: Channel) -> Vec<Word> {
    let e = random.pick(&elements::all_elements());
    let mut words = place_words(random.below(2 * channel.period()), e);
    words.push(number_word("p", random.below(MOST_PLACES)));
    words.push(number_word("i", random.below(64)));
    words
}

fn place_words(t: u64, e: Element) -> Vec<Word> {
    vec![
        number_word("t", t),
        number_word("slot", e.slot),
        number_word("l", e.l),
        number_word("k", e.k),
    ]
}

/// A position: first, last, at a subframe's or a block's ends, any, around the end.
fn random_position(random: &mut Random, broadcast: &Broadcast) -> u64 {
    let listing = &broadcast.listing;
    let (total, width) = (listing.place_count(), listing.elements_per_unit());
    let count = listing.sent.len() as u64;
    let i = match random.below(4) {
        0 => 8 * random.below(count / 8),
        1 => 8 * random.below(count / 8) + 7,
        _ => random.below(count),
    };
    let within = random.below(width);
    match random.below(100) {
        0..=5 => random.pick(&[total, total + 1, total + width, MOST_PLACES, u64::MAX]),
        6..=11 => 0,
        12..=19 => total - 1,
        _ => i * width + random.pick(&[0, width - 1, within, within]),
    }
}

/// A place that forward gives, in any period, or one that the channel just misses.
fn random_place(random: &mut Random, broadcast: &Broadcast) -> (u64, Element) {
    let listing = &broadcast.listing;
    let sent = random.pick(&listing.sent);
    let e = random.pick(&listing.elements);
    let any = random.pick(&elements::all_elements());
    let t = in_random_period(random, broadcast.channel.period(), sent);
    match random.below(100) {
        0..=44 => (t, e),
        45..=59 => (t, any),
        60..=69 => (t, random_reference_element(random, broadcast)),
        70..=79 => (t, neighbouring_element(random, false, e)),
        80..=89 => (neighbouring_subframe(random, broadcast.channel, t), e),
        90..=94 => (
            neighbouring_subframe(random, broadcast.channel, t),
            random_reference_element(random, broadcast),
        ),
        _ => (random.any() >> random.below(64), any),
    }
}

/// The same subframe in the first period, an early one, any up to the last.
fn in_random_period(random: &mut Random, period: u64, t: u64) -> u64 {
    let last = (u64::MAX - t) / period;
    let any = (random.any() >> random.below(64)).min(last);
    let near_last = last - random.below(3);
    let turns = random.pick(&[0, 0, 1, 2, 5, any, any, last, near_last]);
    t + period * turns
}

/// A subframe aside: the next frame's, where SIB1 has none, or another of the frame.
fn neighbouring_subframe(random: &mut Random, channel: Channel, t: u64) -> u64 {
    let aside = match channel {
        Channel::Npbch => [1, 4, 5, 9, 3, 7],
        Channel::Sib1 => [10, 10, 20, 1, 160, 320],
    };
    let by = random.pick(&aside);
    match random.chance(50) {
        true => t.saturating_add(by),
        false => t.saturating_sub(by),
    }
}

fn random_reference_element(random: &mut Random, broadcast: &Broadcast) -> Element {
    let mut list = elements::all_elements();
    list.retain(|&e| elements::reference_kind(&broadcast.layout, e) != 0);
    random.pick(&list)
}

/// Number 25: the cell off the anchor, and with no bitmap.
pub fn off_anchor_words() -> Vec<Word> {
    vec![number_word("carrier", 1), number_word("bits", 0)]
}

/// Number 14: past the end of any period, or outside the grid.
pub fn words_outside(random: &mut Random, question: Question) -> Vec<Word> {
    let (name, largest) = match question {
        Question::ChannelForward(_) => ("p", MOST_PLACES - 1),
        Question::ChannelPicture(_) => ("i", 127),
        _ => random.pick(&[("slot", 1), ("l", 6), ("k", 11)]),
    };
    vec![number_word(name, random_above(random, largest))]
}
