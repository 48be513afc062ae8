//! Search spaces for a question file: any, ones whose steps are uneven at a
//! turn of the hyperframe, ones with one start a hyperframe, and ones that are
//! refused.

use super::grants::{random_n, random_n_near_window, scan_is_bearable};
use super::random::Random;
use super::setup::Setup;
use super::special_search_spaces::{has_factor_3, starts_once_a_hyperframe, steps_unevenly};
use super::words::{number_word, Word};
use crate::model::downlink::LARGEST_N;
use crate::model::grant::Grant;
use crate::model::refusal::Refusal;
use crate::model::search_space::{SearchSpace, HYPERFRAME};

/// Listed numbers, with n = 0; they may still be refused.
fn random_listed(random: &mut Random) -> SearchSpace {
    SearchSpace {
        n: 0,
        rmax: 1 << random.below(12),
        g: random.below(8),
        alpha: random.below(4),
    }
}

/// Made anew until it is as wanted.
fn random_until(random: &mut Random, wanted: impl Fn(&SearchSpace) -> bool) -> SearchSpace {
    loop {
        let search = random_listed(random);
        if wanted(&search) {
            return search;
        }
    }
}

/// An accepted one, often with a T that is worth a question.
fn random_accepted(random: &mut Random) -> SearchSpace {
    let any = |_: &SearchSpace| true;
    let sorts: [fn(&SearchSpace) -> bool; 5] = [
        any,
        any,
        has_factor_3,
        steps_unevenly,
        starts_once_a_hyperframe,
    ];
    let wanted = random.pick(&sorts);
    random_until(random, |search| search.judge().is_ok() && wanted(search))
}

/// The search space of a setup, from the grant's n and, where it has one, with
/// its Rmax; accepted.
pub fn random_setup_search_space(random: &mut Random, grant: &Grant) -> SearchSpace {
    let own = |search: &SearchSpace| match grant {
        Grant::Down(g) => SearchSpace {
            n: g.n,
            rmax: g.rmax,
            ..*search
        },
        Grant::Control(g) => SearchSpace { n: g.n, ..*search },
        Grant::Up(_) | Grant::Ack(_) => *search,
    };
    own(&random_until(random, |search| own(search).judge().is_ok()))
}

/// Around a turn of the hyperframe: from the last start before it on.
fn random_n_at_turn(random: &mut Random, search: &SearchSpace) -> u64 {
    let any = random.between(1, LARGEST_N / HYPERFRAME);
    let turn = HYPERFRAME * random.pick(&[1, 2, 3, 4, 5, any, LARGEST_N / HYPERFRAME]);
    let last = (0..turn).rev().find(|&t| search.starts_at(t)).unwrap_or(0);
    let between = random.between(last, turn);
    random.pick(&[last, last + 1, between, between, turn - 1, turn])
}

/// At a start, or just before or after it.
fn random_n_near_start(random: &mut Random, search: &SearchSpace) -> u64 {
    let n = random_n(random);
    let start = SearchSpace { n, ..*search }.first_start();
    let beside = random.pick(&[start, start + 1, start.saturating_sub(1)]);
    beside.min(LARGEST_N)
}

/// From where a start is looked for.
fn random_search_n(random: &mut Random, setup: &Setup, search: &SearchSpace) -> u64 {
    match random.below(10) {
        0..=2 => random_n_at_turn(random, search),
        3..=5 => random_n_near_start(random, search),
        6 => LARGEST_N - random.below(HYPERFRAME),
        _ => random_n_near_window(random, &setup.cell).unwrap_or_else(|| random_n(random)),
    }
}

/// A search space whose candidates come soon in the setup's cell, now and then
/// the setup's own.
fn random_asked(random: &mut Random, setup: &Setup) -> SearchSpace {
    loop {
        let mut search = match random.chance(20) {
            true => setup.search,
            false => random_accepted(random),
        };
        if scan_is_bearable(random, setup.share.subframes_until(search.rmax), 50_000) {
            search.n = random_search_n(random, setup, &search);
            return search;
        }
    }
}

/// The words of a search space, n first.
fn words_of(search: &SearchSpace) -> [Word; 4] {
    [
        number_word("n", search.n),
        number_word("rmax", search.rmax),
        number_word("g", search.g),
        number_word("alpha", search.alpha),
    ]
}

/// The words of a question for candidates; what the setup has so anyway is
/// often left out.
pub fn search_words(random: &mut Random, setup: &Setup) -> Vec<Word> {
    let own = words_of(&setup.search);
    let mut words = words_of(&random_asked(random, setup)).to_vec();
    words.retain(|word| !own.contains(word) || random.chance(40));
    words
}

/// The words that a setup's own search space adds to those of its grant; an
/// uplink setup has none.
pub fn setup_search_words(grant: &Grant, search: &SearchSpace) -> Vec<Word> {
    let words = words_of(search);
    match grant {
        Grant::Down(_) => words[2..].to_vec(),
        Grant::Control(_) => words[1..].to_vec(),
        Grant::Up(_) | Grant::Ack(_) => Vec::new(),
    }
}

/// Numbers 22 and 23: listed numbers that are refused so.
pub fn refused_search_words(random: &mut Random, no: Refusal) -> Vec<Word> {
    let search = random_until(random, |search| search.judge() == Err(no));
    words_of(&search)[1..].to_vec()
}
