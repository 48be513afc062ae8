//! Words of a line: a name and a value.

use super::random::Random;
use crate::model::cell::Cell;
use crate::model::elements;
use crate::text::write_answer::hex_text;

/// A name and its value's text.
pub type Word = (&'static str, String);

pub fn number_word(name: &'static str, value: u64) -> Word {
    (name, value.to_string())
}

/// Buffer text; now and then in upper case.
pub fn hex_in_any_case(random: &mut Random, bytes: &[u8]) -> String {
    let text = hex_text(bytes);
    if random.chance(10) {
        text.to_uppercase()
    } else {
        text
    }
}

/// Bits of the right length for a cell's codeword of so many subframes.
pub fn data_word(random: &mut Random, cell: &Cell, subframes: u64) -> Word {
    let symbols = subframes * elements::eligible_count(&cell.layout());
    let bytes = random.bytes(symbols.div_ceil(4) as usize);
    ("data", hex_in_any_case(random, &bytes))
}

/// A level inside the bounds, often at or next to one of them.
pub fn level_word(random: &mut Random) -> Word {
    let (least, most) = (0x3580_0000, 0x4980_0000);
    let pattern = match random.below(5) {
        0 => 0x3F80_0000,
        1 => random.pick(&[least, least + 1, most - 1, most]),
        _ => random.between(least, most),
    };
    ("level", format!("{pattern:08x}"))
}
