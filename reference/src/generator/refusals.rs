//! Words with which a question of a setup is refused with a wanted number.

use super::broadcast::{off_anchor_words, words_outside};
use super::cells::bitmap_with_ones;
use super::random::Random;
use super::random_access_windows::{unlisted_windows, window_words, windows_leaving_nothing_free};
use super::search_spaces::refused_search_words;
use super::setup::Setup;
use super::system_information::{self, message_words};
use super::words::{data_word, hex_in_any_case, number_word, Word};
use crate::model::acknowledgement::LARGEST_ACK_N;
use crate::model::downlink;
use crate::model::grant::Grant;
use crate::model::random_access_windows::Windows;
use crate::model::uplink_slots::SlotUse;
use crate::text::question::{Kind, Question};

const CELL_REFUSALS: &[u64] = &[1, 2, 3, 4, 5, 24, 6, 7, 21, 21, 8, 8, 18, 18];
const PLAN_REFUSALS: &[u64] = &[1, 2, 3, 4, 5, 24, 6, 7, 21, 21, 8, 18, 9, 10, 12];
const SEARCH_REFUSALS: &[u64] = &[
    1, 2, 3, 4, 5, 24, 6, 7, 21, 8, 18, 9, 10, 10, 12, 22, 22, 22, 23, 23, 23,
];
const CHANNEL_REFUSALS: &[u64] = &[1, 2, 3, 4, 5, 24, 6, 7, 21, 8, 18, 25, 25, 14, 14];
const PLAN_UP_REFUSALS: &[u64] = &[9, 10, 11, 13, 19, 20];
const PLAN_ACK_REFUSALS: &[u64] = &[9, 10, 19, 20];
const PLACE_REFUSALS: &[u64] = &[1, 2, 3, 4, 5, 24, 6, 7, 21, 21, 8, 18, 9, 10, 12, 14];
const PLACE_UP_REFUSALS: &[u64] = &[9, 10, 11, 13, 19, 20, 14];
const PLACE_ACK_REFUSALS: &[u64] = &[9, 10, 19, 20, 14];
const FILL_REFUSALS: &[u64] = &[
    1, 2, 3, 4, 5, 24, 6, 7, 21, 8, 18, 9, 10, 12, 14, 15, 15, 15, 15, 15, 15, 16, 16, 16, 16, 16,
    16, 16, 16, 16, 17,
];

/// Bits of forty that synchronization takes on an anchor.
const SYNCHRONIZATION_BITS: [u64; 10] = [0, 5, 9, 10, 15, 20, 25, 29, 30, 35];

/// Levels outside the bounds: just outside, zeros, subnormals, negatives,
/// infinities and NaN.
const BAD_LEVELS: [u32; 20] = [
    0x357F_FFFF,
    0x4980_0001,
    0x357F_FFFE,
    0x4980_0002,
    0x0000_0000,
    0x8000_0000,
    0x0000_0001,
    0x007F_FFFF,
    0x0080_0000,
    0xB580_0000,
    0xBF80_0000,
    0xC980_0000,
    0x7F7F_FFFF,
    0x7F80_0000,
    0xFF80_0000,
    0x7F80_0001,
    0x7FC0_0000,
    0xFFC0_0000,
    0x7FFF_FFFF,
    0xFFFF_FFFF,
];

/// The numbers with which a question can be refused, in the list's order; those
/// that are wanted more often stand there more than once.
pub fn possible_refusals(question: Question) -> &'static [u64] {
    match question {
        Question::Set | Question::Meaning | Question::Help(_) => &[],
        Question::Cell | Question::Bitmap | Question::Cause | Question::Count => CELL_REFUSALS,
        Question::Search => SEARCH_REFUSALS,
        Question::Plan(Kind::Up) | Question::Timeline(Kind::Up) => PLAN_UP_REFUSALS,
        Question::Plan(Kind::Ack) | Question::Timeline(Kind::Ack) => PLAN_ACK_REFUSALS,
        Question::Plan(_) | Question::Timeline(_) => PLAN_REFUSALS,
        Question::Fill | Question::Element => FILL_REFUSALS,
        _ if question.channel().is_some() => CHANNEL_REFUSALS,
        _ => match question.kind() {
            Some(Kind::Up) => PLACE_UP_REFUSALS,
            Some(Kind::Ack) => PLACE_ACK_REFUSALS,
            _ => PLACE_REFUSALS,
        },
    }
}

/// A number above the largest: one more, wide ones, and ones that look
/// allowed when cut to 8, 16 or 32 bits.
pub fn random_above(random: &mut Random, largest: u64) -> u64 {
    let small = random.below(largest.min(1 << 30) + 1);
    let wide = 1 << random.pick(&[8, 16, 31, 32, 33, 63]);
    let value = match random.below(8) {
        0 | 1 => largest + 1,
        2 => largest + 2,
        3 => random.pick(&[(1 << 32) - 1, 1 << 32]),
        4 => u64::MAX,
        5 | 6 => wide + small,
        _ => random.any(),
    };
    value.max(largest + 1)
}

/// One of a list or, less often, a number above the largest.
pub fn random_unlisted(random: &mut Random, list: &[u64], largest: u64) -> u64 {
    if random.chance(70) {
        random.pick(list)
    } else {
        random_above(random, largest)
    }
}

fn word_above(random: &mut Random, name: &'static str, largest: u64) -> Vec<Word> {
    vec![(name, random_above(random, largest).to_string())]
}

/// One of a list or a number above the largest.
fn unlisted_word(random: &mut Random, name: &'static str, list: &[u64], largest: u64) -> Vec<Word> {
    if random.chance(60) {
        vec![(name, random.pick(list).to_string())]
    } else {
        word_above(random, name, largest)
    }
}

/// Words that would alone bring the number `no` to the question.
pub fn words_refused_with(
    random: &mut Random,
    setup: &Setup,
    question: Question,
    no: u64,
) -> Vec<Word> {
    let in_band = setup.cell.in_band();
    match no {
        1 if random.chance(50) => word_above(random, "mode", 3),
        1 => word_above(random, "carrier", 1),
        2 => word_above(random, "identity", 503),
        3 => unlisted_word(random, "nports", &[0, 3, 4], 2),
        4 if in_band => unlisted_word(random, "cports", &[0, 3, 5, 6, 8], 4),
        4 => unlisted_word(random, "cports", &[1, 2, 3, 4], 0),
        5 if in_band => unlisted_word(random, "control", &[0, 4], 3),
        5 => unlisted_word(random, "control", &[1, 2, 3], 0),
        24 => unequal_ports(random, setup),
        6 => word_above(random, "sib1", 11),
        7 => bad_bitmap(random, setup),
        21 => unlisted_messages(random),
        8 => bitmap_of_zeros(random, setup),
        18 if random.chance(50) => messages_that_take_all(random, setup),
        18 => bitmap_that_anchor_takes(random, setup),
        25 => off_anchor_words(),
        9 if setup.kind == Kind::Ack => word_above(random, "n", LARGEST_ACK_N),
        9 => word_above(random, "n", downlink::LARGEST_N),
        10 if question == Question::Search => bad_search_field(random),
        10 => bad_field(random, setup),
        11 => bad_subcarrier(random, setup),
        12 => bad_power(random, setup, question),
        22 | 23 => refused_search_words(random, no),
        13 => vec![("mcs", random.between(5, 15).to_string())],
        19 => refused_windows(random, setup, unlisted_windows),
        20 => refused_windows(random, setup, windows_leaving_nothing_free),
        14 if question.channel().is_some() => words_outside(random, question),
        14 => bad_place(random, setup, question),
        15 => bad_length(random, setup, question),
        16 => vec![("level", format!("{:08x}", random.pick(&BAD_LEVELS)))],
        _ => two_ports(random, setup),
    }
}

/// Number 24: mode 0 with other cell ports than narrowband ports, all listed.
fn unequal_ports(random: &mut Random, setup: &Setup) -> Vec<Word> {
    let (nports, cports) = random.pick(&[(1, 2), (1, 4), (2, 1), (2, 4)]);
    let mut words = vec![
        number_word("mode", 0),
        number_word("nports", nports),
        number_word("cports", cports),
    ];
    if !setup.cell.in_band() {
        words.push(number_word("control", random.between(1, 3)));
    }
    words
}

/// Number 7: a length not listed, a buffer too short, spare bits set.
fn bad_bitmap(random: &mut Random, setup: &Setup) -> Vec<Word> {
    let (own, other) = setup.buffer_names();
    let bits = random.pick(&[10, 40]);
    let full = if bits == 10 { 2 } else { 5 };
    let good = random.bytes(4);
    match random.below(3) {
        0 => unlisted_word(random, "bits", &[1, 5, 8, 9, 11, 16, 20, 39, 41, 80], 40),
        1 => {
            let short = random.pick(&[0, full - 1, full - 1]).min(4);
            vec![
                ("bits", bits.to_string()),
                (own, hex_in_any_case(random, &good[..short])),
                (other, "ff00ff00ff".to_string()),
            ]
        }
        _ => {
            let spare = 1 << random.below(6);
            let bytes = [good[0], (good[1] & 0b1100_0000) | spare, good[2], good[3]];
            let count = random.pick(&[2, 2, 4]);
            vec![
                ("bits", "10".to_string()),
                (own, hex_in_any_case(random, &bytes[..count])),
                (other, "ffc0".to_string()),
            ]
        }
    }
}

/// Number 21: messages with a number that isn't listed.
fn unlisted_messages(random: &mut Random) -> Vec<Word> {
    let messages = system_information::unlisted_messages(random);
    message_words(random, &messages)
}

/// Number 8: a bitmap that allows nothing.
fn bitmap_of_zeros(random: &mut Random, setup: &Setup) -> Vec<Word> {
    let (own, other) = setup.buffer_names();
    let bits = random.pick(&[10, 40]);
    let bytes = bitmap_with_ones(bits, &[]);
    vec![
        ("bits", bits.to_string()),
        (own, with_unread_byte(random, bytes)),
        (other, "ffffffffff".to_string()),
    ]
}

/// Number 18: a bitmap that allows only what the anchor takes.
fn bitmap_that_anchor_takes(random: &mut Random, setup: &Setup) -> Vec<Word> {
    let bits = random.pick(&[10, 40]);
    let mut ones = Vec::new();
    let mut words = Vec::new();
    if bits == 10 {
        ones.extend([0, 5].iter().filter(|_| random.chance(60)));
    } else {
        ones.extend(SYNCHRONIZATION_BITS.iter().filter(|_| random.chance(40)));
        if setup.cell.sib1 % 3 == 2 || random.chance(40) {
            words.push(("sib1", random.pick(&[2, 5, 8, 11]).to_string()));
            let frame = 10 * (setup.cell.identity % 2);
            ones.extend([4 + frame, 24 + frame].iter().filter(|_| random.chance(70)));
        }
    }
    if ones.is_empty() {
        ones.push(5);
    }
    let bytes = bitmap_with_ones(bits, &ones);
    words.extend([
        ("carrier", "0".to_string()),
        ("bits", bits.to_string()),
        ("anchor", with_unread_byte(random, bytes)),
        ("other", "ffffffffff".to_string()),
    ]);
    words
}

/// Number 18: messages that take all that the anchor and the bitmap leave; on
/// the anchor, whatever carrier the setup is on.
fn messages_that_take_all(random: &mut Random, setup: &Setup) -> Vec<Word> {
    let mut cell = setup.cell.clone();
    let mut words = Vec::new();
    if cell.carrier == 1 {
        (cell.carrier, cell.bits) = (0, 0);
        words = vec![("carrier", "0".to_string()), ("bits", "0".to_string())];
    }
    let messages = system_information::messages_taking_all(random, &cell);
    words.extend(message_words(random, &messages));
    words
}

/// A buffer's text, now and then with a byte more than is read.
fn with_unread_byte(random: &mut Random, mut bytes: Vec<u8>) -> String {
    if random.chance(40) {
        bytes.push(255);
    }
    hex_in_any_case(random, &bytes)
}

/// Number 10: a field above its largest number, or NCCE 1 with format 1.
fn bad_field(random: &mut Random, setup: &Setup) -> Vec<Word> {
    let fields: &[(&'static str, u64)] = match setup.kind {
        Kind::Down => &[("delay", 7), ("subframes", 7), ("copies", 15)],
        Kind::Control => &[("format", 1), ("ncce", 1)],
        Kind::Up => &[
            ("spacing", 1),
            ("subcarrier", 63),
            ("units", 7),
            ("copies", 7),
            ("delay", 3),
            ("mcs", 15),
        ],
        Kind::Ack => &[("spacing", 1), ("field", 15), ("copies", 7)],
    };
    if setup.kind == Kind::Control && random.chance(33) {
        return vec![("format", "1".to_string()), ("ncce", "1".to_string())];
    }
    let (name, largest) = random.pick(fields);
    word_above(random, name, largest)
}

/// Number 10: G or the offset of a search space above its last field.
fn bad_search_field(random: &mut Random) -> Vec<Word> {
    let (name, largest) = random.pick(&[("g", 7), ("alpha", 3)]);
    word_above(random, name, largest)
}

/// Number 11: a subcarrier field that the spacing doesn't have.
fn bad_subcarrier(random: &mut Random, setup: &Setup) -> Vec<Word> {
    let end = match setup.grant {
        Grant::Up(g) if g.spacing == 1 => 19,
        _ => 48,
    };
    let field = match random.below(3) {
        0 => end,
        1 => 63,
        _ => random.between(end, 63),
    };
    vec![("subcarrier", field.to_string())]
}

/// Number 12: Rmax or NPDCCH copies not a power of two in range.
fn bad_power(random: &mut Random, setup: &Setup, question: Question) -> Vec<Word> {
    let name = match setup.kind {
        Kind::Control if question != Question::Search => "r",
        _ => "rmax",
    };
    let list = [0, 3, 5, 6, 7, 12, 96, 127, 129, 2047, 2049, 4096, 1 << 40];
    unlisted_word(random, name, &list, 2048)
}

/// Number 14: past the end, or outside the grid.
fn bad_place(random: &mut Random, setup: &Setup, question: Question) -> Vec<Word> {
    let total = setup.listing.place_count();
    let sent = setup.listing.sent.len() as u64;
    match question {
        Question::Forward(_) => word_above(random, "p", total - 1),
        Question::Step(_) => word_above(random, "p", total),
        Question::Backward(_) => outside_grid(random, setup),
        Question::Element if random.chance(60) => outside_grid(random, setup),
        _ => word_above(random, "i", sent - 1),
    }
}

fn outside_grid(random: &mut Random, setup: &Setup) -> Vec<Word> {
    let subcarriers = setup.grant.subcarriers();
    match random.below(3) {
        0 => word_above(random, "l", 6),
        1 if !setup.kind.is_uplink() => word_above(random, "slot", 1),
        _ => word_above(random, "k", subcarriers - 1),
    }
}

/// Numbers 19 and 20: windows made for the tones of an uplink grant.
fn refused_windows(
    random: &mut Random,
    setup: &Setup,
    make: fn(&mut Random, &SlotUse) -> Windows,
) -> Vec<Word> {
    let Some(slot_use) = setup.grant.slot_use() else {
        return Vec::new();
    };
    let windows = make(random, &slot_use);
    window_words(random, &windows)
}

/// Number 15: bits of a wrong length, or output not of 336 numbers.
fn bad_length(random: &mut Random, setup: &Setup, question: Question) -> Vec<Word> {
    if question == Question::Fill && random.chance(50) {
        let room = random.pick(&[0, 1, 168, 335, 335, 337, 337, 672, 1024]);
        return vec![("room", room.to_string())];
    }
    let right = setup.listing.codeword_symbols().div_ceil(4);
    let one_subframe = setup.listing.elements_per_unit().div_ceil(4);
    let lengths = [right - 1, right + 1, 0, 1024, 2 * right, one_subframe];
    let length = match random.pick(&lengths) {
        length if length == right => right + 1,
        length => length,
    };
    let bytes = random.bytes(length as usize);
    vec![("data", hex_in_any_case(random, &bytes))]
}

/// Number 17: two ports, with bits of the length that two ports want.
fn two_ports(random: &mut Random, setup: &Setup) -> Vec<Word> {
    let mut cell = setup.cell.clone();
    cell.nports = 2;
    if cell.same_identity() {
        cell.cports = 2;
    }
    let data = data_word(random, &cell, setup.listing.codeword_units);
    vec![
        number_word("nports", 2),
        number_word("cports", cell.cports),
        data,
    ]
}
