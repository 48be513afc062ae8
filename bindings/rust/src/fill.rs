//! The numbers of a transmitted subframe of an NPDSCH, on one port: QPSK from the bits of the whole codeword.

use crate::cell::Cell;
use crate::downlink::NpdschGrant;
use crate::numbers;
use crate::refusal::{accepted, Refusal};

/// The real and the imaginary number of each element: slot, l, k.
pub type Subframe = [[[[f32; 2]; 12]; 7]; 2];

/// What goes out at an element.
#[derive(Clone, Copy, Debug, PartialEq)]
pub enum Element {
    /// Nothing.
    Silent,
    /// A narrowband reference.
    Reference,
    /// A cell reference.
    CellReference,
    /// A symbol.
    Symbol {
        /// Its real number.
        re: f32,
        /// Its imaginary number.
        im: f32,
    },
}

impl NpdschGrant {
    /// Writes transmitted subframe i, from 0: +0 where not ours. `bits` are those of the whole codeword, the first the highest of byte 0:
    /// two a symbol, N * E symbols for N subframes with E eligible elements each (a plan's places by its copies), rounded up to whole
    /// bytes. If it is refused, `output` stays as it was. The processor has to round to nearest, as usual, and not to trap floating-point
    /// exceptions.
    pub fn fill(&self, cell: &Cell, i: u64, bits: &[u8], level: f32, output: &mut Subframe) -> Result<(), Refusal> {
        let lent = [cell.anchor_bitmap, cell.non_anchor_bitmap];
        let output = output.as_flattened_mut().as_flattened_mut().as_flattened_mut();
        accepted(numbers::fill(cell.numbers().get(), lent, &self.numbers(), i, bits, level, output))
    }

    /// One element of it, at [i, slot, l, k].
    pub fn element(&self, cell: &Cell, at: [u64; 4], bits: &[u8], level: f32) -> Result<Element, Refusal> {
        let lent = [cell.anchor_bitmap, cell.non_anchor_bitmap];
        let (mut a, mut pair) = ([0; 2], [0.0; 2]);
        accepted(numbers::element(cell.numbers().get(), lent, &self.numbers(), at, bits, level, &mut a, &mut pair))?;
        Ok(match a[1] {
            4 => Element::Symbol { re: pair[0], im: pair[1] },
            1 => Element::Reference,
            2 => Element::CellReference,
            _ => Element::Silent,
        })
    }
}
