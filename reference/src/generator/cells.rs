//! Cells for a question file, and the words that set them.

use super::random::Random;
use super::system_information::{message_words, random_messages};
use super::words::{hex_in_any_case, number_word, Word};
use crate::model::accepted_cell::{AcceptedCell, CellCache};
use crate::model::cell::{Cell, ANCHOR_PERIOD};
use crate::model::system_information::Messages;
use std::rc::Rc;

/// Bits at which a bitmap meets synchronization and broadcast.
const BORDER_BITS: [u64; 16] = [0, 4, 5, 9, 10, 14, 15, 19, 20, 24, 25, 29, 30, 34, 35, 39];

fn set_bit(bytes: &mut [u8], bit: u64) {
    bytes[(bit / 8) as usize] |= 128 >> (bit % 8);
}

/// A bitmap of 10 or 40 bits with these bits set.
pub fn bitmap_with_ones(bits: u64, ones: &[u64]) -> Vec<u8> {
    let mut bytes = vec![0; bits.div_ceil(8) as usize];
    for &bit in ones {
        set_bit(&mut bytes, bit % bits);
    }
    bytes
}

/// Dense, random, sparse, borderline or empty bitmaps.
fn random_bitmap(random: &mut Random, bits: u64) -> Vec<u8> {
    let style = random.below(13);
    let mut ones = Vec::new();
    let few = random.between(1, 3);
    match style {
        0 => {}
        1 | 2 => ones.extend(0..bits),
        3 | 4 => ones.extend((0..bits).filter(|_| random.chance(90))),
        5..=8 => ones.extend((0..bits).filter(|_| random.chance(50))),
        9 | 10 => ones.extend((0..few).map(|_| random.below(bits))),
        _ => ones.extend((0..few).map(|_| random.pick(&BORDER_BITS))),
    }
    bitmap_with_ones(bits, &ones)
}

/// Some bytes that nobody should look at.
fn unread_bytes(random: &mut Random) -> Vec<u8> {
    let count = random.pick(&[0, 0, 1, 2, 2, 5, 5, 6, 64]);
    random.bytes(count)
}

/// A cell with listed numbers and messages; bitmap and messages may still
/// leave nothing usable.
pub fn random_cell(random: &mut Random) -> Cell {
    let mut cell = random_cell_without_messages(random);
    cell.messages = random_messages(random, cell.carrier);
    cell
}

/// As `random_cell`, without messages.
pub fn random_cell_without_messages(random: &mut Random) -> Cell {
    let mode = random.pick(&[0, 1, 1, 2, 3]);
    let nports = if random.chance(75) { 1 } else { 2 };
    let (cports, control) = random_cell_ports_and_control_region(random, mode, nports);
    let identity = if random.chance(30) {
        random.pick(&[0, 1, 2, 3, 4, 5, 6, 7, 502, 503])
    } else {
        random.below(504)
    };
    let bits = random.pick(&[0, 10, 40, 40]);
    let mut own = match bits {
        0 => Vec::new(),
        _ => random_bitmap(random, bits),
    };
    if random.chance(40) {
        own.extend(unread_bytes(random));
        own.truncate(64);
    }
    let carrier = u64::from(random.chance(40));
    let not_own = unread_bytes(random);
    let (anchor, other) = match carrier {
        0 => (own, not_own),
        _ => (not_own, own),
    };
    Cell {
        mode,
        carrier,
        identity,
        nports,
        cports,
        control,
        sib1: random.below(12),
        bits,
        anchor,
        other,
        messages: Messages::default(),
    }
}

/// Cell ports and control region of a mode, beside so many narrowband ports;
/// in mode 0 as many cell ports.
fn random_cell_ports_and_control_region(random: &mut Random, mode: u64, nports: u64) -> (u64, u64) {
    match mode {
        0 => (nports, random.between(1, 3)),
        1 => (random.pick(&[1, 2, 4]), random.between(1, 3)),
        _ => (0, 0),
    }
}

/// The first cell made that is accepted; the cache keeps it.
pub fn first_accepted(
    random: &mut Random,
    cells: &mut CellCache,
    make: fn(&mut Random) -> Cell,
) -> Rc<AcceptedCell> {
    loop {
        let cell = make(random);
        if let Ok(accepted) = cells.accept(&cell) {
            return accepted;
        }
    }
}

/// An accepted anchor; three of four have no messages.
pub fn random_accepted_anchor(random: &mut Random, cells: &mut CellCache) -> Rc<AcceptedCell> {
    loop {
        let make = match random.chance(25) {
            true => random_cell,
            false => random_cell_without_messages,
        };
        let accepted = first_accepted(random, cells, make);
        if accepted.cell.carrier == 0 {
            return accepted;
        }
    }
}

/// An accepted cell; the cache keeps it.
pub fn random_accepted_cell(random: &mut Random, cells: &mut CellCache) -> Rc<AcceptedCell> {
    first_accepted(random, cells, random_cell)
}

/// How many subframes of a period are usable.
#[derive(Clone, Copy, Debug)]
pub struct UsableShare {
    usable: u64,
    period: u64,
}

impl UsableShare {
    pub fn of(accepted: &AcceptedCell) -> UsableShare {
        let period = accepted.period();
        let usable = (0..period).filter(|&t| accepted.usable(t)).count() as u64;
        UsableShare { usable, period }
    }

    /// About how many subframes go by until so many usable ones have come.
    pub fn subframes_until(&self, usable: u64) -> u64 {
        usable * self.period / self.usable
    }

    /// Fewer than 200 of 2,560.
    pub fn is_small(&self) -> bool {
        self.usable * ANCHOR_PERIOD < 200 * self.period
    }
}

/// The words that set a cell and its messages.
pub fn cell_words(random: &mut Random, cell: &Cell) -> Vec<Word> {
    let mut words = vec![
        number_word("mode", cell.mode),
        number_word("carrier", cell.carrier),
        number_word("identity", cell.identity),
        number_word("nports", cell.nports),
        number_word("cports", cell.cports),
        number_word("control", cell.control),
        number_word("sib1", cell.sib1),
        number_word("bits", cell.bits),
        ("anchor", hex_in_any_case(random, &cell.anchor)),
        ("other", hex_in_any_case(random, &cell.other)),
    ];
    words.extend(message_words(random, &cell.messages));
    words
}
