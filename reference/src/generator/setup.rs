//! Setups of a question file: an accepted cell and grant, set by one line, that
//! some tens of questions share.

use super::cells::{
    cell_words, first_accepted, random_accepted_cell, random_cell_without_messages, UsableShare,
};
use super::grants::{grant_words, random_grant};
use super::random::Random;
use super::search_spaces::{random_setup_search_space, setup_search_words};
use super::words::{data_word, level_word, number_word, Word};
use crate::model::accepted_cell::CellCache;
use crate::model::cell::{Cause, Cell};
use crate::model::grant::Grant;
use crate::model::listing::Listing;
use crate::model::search_space::SearchSpace;
use crate::text::question::Kind;

/// A cell, a grant, its listing, and the words that set them.
#[derive(Clone, Debug)]
pub struct Setup {
    pub kind: Kind,
    pub cell: Cell,
    pub grant: Grant,
    pub listing: Listing,
    /// A search space; an uplink setup doesn't ask for it.
    pub search: SearchSpace,
    /// The engine that its positions are asked of.
    pub engine: u64,
    pub words: Vec<Word>,
    pub share: UsableShare,
}

/// Values that the kind's questions don't look at.
fn unread_words(random: &mut Random, kind: Kind) -> Vec<Word> {
    let names: &[&'static str] = match kind {
        Kind::Down => &[
            "r",
            "format",
            "ncce",
            "spacing",
            "subcarrier",
            "units",
            "mcs",
            "field",
            "windows",
        ],
        Kind::Control => &[
            "delay",
            "subframes",
            "copies",
            "spacing",
            "mcs",
            "field",
            "windows",
        ],
        Kind::Up => &[
            "mode",
            "carrier",
            "identity",
            "nports",
            "bits",
            "siwindow",
            "messages",
            "rmax",
            "g",
            "alpha",
            "subframes",
            "r",
            "field",
        ],
        Kind::Ack => &[
            "mode",
            "nports",
            "bits",
            "sioffset",
            "messages",
            "g",
            "subframes",
            "r",
            "subcarrier",
            "units",
            "delay",
            "mcs",
        ],
    };
    let mut words = Vec::new();
    for &name in names {
        if random.chance(50) {
            let value = random.pick(&[0, 1, 3, 99, 1 << 32, u64::MAX]);
            words.push(number_word(name, value));
        }
    }
    words
}

impl Setup {
    /// An accepted cell and grant of a kind; an uplink grant, which has no cell,
    /// comes with one without messages.
    pub fn random(random: &mut Random, kind: Kind) -> Setup {
        let mut cells = CellCache::default();
        let accepted = match kind.is_uplink() {
            true => first_accepted(random, &mut cells, random_cell_without_messages),
            false => random_accepted_cell(random, &mut cells),
        };
        let share = UsableShare::of(&accepted);
        let cell = accepted.cell.clone();
        let grant = random_grant(random, kind, &cell, &share);
        let listing = match grant.list(&cell, &mut cells) {
            Ok(listing) => listing,
            Err(no) => unreachable!("made to be accepted, refused with {no}"),
        };
        let search = random_setup_search_space(random, &grant);
        let engine = u64::from(random.chance(30));
        let mut words = grant_words(random, &grant);
        words.push(number_word("engine", engine));
        words.extend(setup_search_words(&grant, &search));
        if !kind.is_uplink() {
            words.extend(cell_words(random, &cell));
        }
        if kind == Kind::Down {
            words.push(data_word(random, &cell, listing.codeword_units));
            words.push(level_word(random));
            words.push(number_word("room", 336));
        }
        Setup {
            kind,
            cell,
            grant,
            listing,
            search,
            engine,
            words,
            share,
        }
    }

    /// All words of the setup's `set` line.
    pub fn set_words(&self, random: &mut Random) -> Vec<Word> {
        let mut words = self.words.clone();
        if random.chance(40) {
            words.extend(unread_words(random, self.kind));
        }
        words
    }

    /// Has the setup's own cell a message or more?
    pub fn has_messages(&self) -> bool {
        self.cell.messages.count > 0
    }

    /// Does it skip subframes for messages?
    pub fn has_skipped(&self) -> bool {
        self.has_messages() && !self.kind.is_uplink()
    }

    /// Why a subframe isn't usable; an uplink grant's slots have no cause.
    pub fn cause(&self, t: u64) -> Option<Cause> {
        self.listing.cell.as_ref()?.cause(t)
    }

    /// Another accepted grant in the same cell, for plan; none where scans are long.
    pub fn other_grant_words(&self, random: &mut Random) -> Option<Vec<Word>> {
        if !self.kind.is_uplink() && self.share.is_small() {
            return None;
        }
        let grant = random_grant(random, self.kind, &self.cell, &self.share);
        Some(grant_words(random, &grant))
    }

    /// A new level and new bits of the right length.
    pub fn other_data_words(&self, random: &mut Random) -> Vec<Word> {
        let data = data_word(random, &self.cell, self.listing.codeword_units);
        vec![data, level_word(random)]
    }

    /// The setup's own words for the names that a line changed.
    pub fn words_to_restore(&self, changed: &[Word]) -> Vec<Word> {
        let own = self.words.iter();
        own.filter(|(name, text)| changed.iter().any(|(n, x)| n == name && x != text))
            .cloned()
            .collect()
    }

    /// The name of the own carrier's buffer and of the other one.
    pub fn buffer_names(&self) -> (&'static str, &'static str) {
        match self.cell.carrier {
            0 => ("anchor", "other"),
            _ => ("other", "anchor"),
        }
    }
}
