//! Fill of one transmitted NPDSCH subframe on one port, and one element of it
//! (01, "Questions", the paragraph on fill).

use super::cell::Cell;
use super::elements::{self, Element, SLOTS, SUBCARRIERS, SYMBOLS};
use super::listing::Listing;
use super::refusal::{refuse, Refusal};

/// How many f32 a fill writes.
pub const OUTPUT_NUMBERS: u64 = 2 * SLOTS * SYMBOLS * SUBCARRIERS;

/// The f32 by which the level is multiplied.
const ROOT_HALF: u32 = 0x3F35_04F3;

/// A QPSK symbol: a real and an imaginary number kept together.
#[derive(Clone, Copy, Debug, PartialEq)]
pub struct Symbol {
    pub re: f32,
    pub im: f32,
}

/// What one element carries.
#[derive(Clone, Copy, Debug, PartialEq)]
pub enum ElementContent {
    Silent,
    /// A reference place of this kind, 1 or 2.
    Reference(u64),
    Symbol(Symbol),
}

/// What a fill is given: the subframe's number i, the bits and the level.
#[derive(Clone, Copy, Debug)]
pub struct FillInput<'a> {
    pub i: u64,
    pub data: &'a [u8],
    pub level: f32,
}

fn level_out_of_range(level: f32) -> bool {
    let least = 1.0 / 1_048_576.0;
    let most = 1_048_576.0;
    !(least <= level && level <= most)
}

fn data_length_wrong(listing: &Listing, data: &[u8]) -> bool {
    data.len() as u64 != listing.codeword_symbols().div_ceil(4)
}

/// Numbers 14 to 17 of a fill, in order.
fn judge_fill(cell: &Cell, listing: &Listing, input: &FillInput, room: u64) -> Result<(), Refusal> {
    refuse(14, input.i >= listing.sent.len() as u64)?;
    refuse(
        15,
        data_length_wrong(listing, input.data) || room != OUTPUT_NUMBERS,
    )?;
    refuse(16, level_out_of_range(input.level))?;
    refuse(17, cell.nports == 2)
}

/// Numbers 14 to 17 of one element, in order; it has no output buffer.
fn judge_element(
    cell: &Cell,
    listing: &Listing,
    input: &FillInput,
    e: Element,
) -> Result<(), Refusal> {
    refuse(14, input.i >= listing.sent.len() as u64)?;
    refuse(14, !e.in_downlink_grid())?;
    refuse(15, data_length_wrong(listing, input.data))?;
    refuse(16, level_out_of_range(input.level))?;
    refuse(17, cell.nports == 2)
}

/// Bit number `bit`, the first bit highest.
fn bit_at(data: &[u8], bit: u64) -> bool {
    let byte = data[(bit / 8) as usize];
    (byte >> (7 - bit % 8)) & 1 == 1
}

/// Plus for bit 0, minus for bit 1; the product is rounded once.
fn signed_size(bit: bool, level: f32) -> f32 {
    let size = level * f32::from_bits(ROOT_HALF);
    if bit {
        -size
    } else {
        size
    }
}

/// Symbol c: bits 2c (real) and 2c + 1 (imaginary).
fn symbol(data: &[u8], c: u64, level: f32) -> Symbol {
    Symbol {
        re: signed_size(bit_at(data, 2 * c), level),
        im: signed_size(bit_at(data, 2 * c + 1), level),
    }
}

/// What an element of transmitted subframe i carries, all numbers judged before.
fn content_of(cell: &Cell, listing: &Listing, input: &FillInput, e: Element) -> ElementContent {
    if let Some(number) = listing.number_of_element(e) {
        let carried = listing.carries[input.i as usize];
        let c = carried * listing.elements_per_unit() + number;
        return ElementContent::Symbol(symbol(input.data, c, input.level));
    }
    match elements::reference_kind(&cell.layout(), e) {
        0 => ElementContent::Silent,
        kind => ElementContent::Reference(kind),
    }
}

/// One element asked instead of a fill.
pub fn element(
    cell: &Cell,
    listing: &Listing,
    input: &FillInput,
    e: Element,
) -> Result<ElementContent, Refusal> {
    judge_element(cell, listing, input, e)?;
    Ok(content_of(cell, listing, input, e))
}

/// Write all 336 numbers, +0 where not ours; a refused fill writes nothing.
pub fn fill(
    cell: &Cell,
    listing: &Listing,
    input: &FillInput,
    output: &mut [f32],
) -> Result<(), Refusal> {
    judge_fill(cell, listing, input, output.len() as u64)?;
    for slot in 0..SLOTS {
        for l in 0..SYMBOLS {
            for k in 0..SUBCARRIERS {
                let number = ((slot * 7 + l) * 12 + k) as usize;
                let (re, im) = match content_of(cell, listing, input, Element { slot, l, k }) {
                    ElementContent::Symbol(s) => (s.re, s.im),
                    _ => (0.0, 0.0),
                };
                output[2 * number] = re;
                output[2 * number + 1] = im;
            }
        }
    }
    Ok(())
}
