//! An accepted cell: which subframes are usable, and why others aren't (02,
//! "L2" and "L5").

use super::cell::{Cause, Cell, ANCHOR_PERIOD};
use super::refusal::{refuse, Refusal};
use super::system_information::MESSAGE_PERIOD;
use std::rc::Rc;

/// An accepted cell, with what its messages take of a whole period.
#[derive(Clone, Debug)]
pub struct AcceptedCell {
    pub cell: Cell,
    /// Taken by a message, by subframe of the period; empty if none is sent.
    taken: Vec<bool>,
}

impl Cell {
    /// The cell's refusals in the list's order, 21 after 7 and 18 after 8.
    pub fn accept(&self) -> Result<AcceptedCell, Refusal> {
        self.judge_numbers()?;
        self.messages.judge()?;
        refuse(8, !(0..ANCHOR_PERIOD).any(|t| self.bitmap_allows(t)))?;
        let accepted = AcceptedCell::new(self);
        refuse(18, !(0..accepted.period()).any(|t| accepted.usable(t)))?;
        Ok(accepted)
    }
}

impl AcceptedCell {
    /// Messages are sent on the anchor only, in subframes that the anchor and
    /// the bitmap leave free.
    fn new(cell: &Cell) -> AcceptedCell {
        let mut accepted = AcceptedCell {
            cell: cell.clone(),
            taken: Vec::new(),
        };
        if cell.carrier == 0 && cell.messages.count > 0 {
            let subframes = 0..ANCHOR_PERIOD;
            let once: Vec<bool> = subframes.map(|t| accepted.usable(t)).collect();
            let free = once.repeat((MESSAGE_PERIOD / ANCHOR_PERIOD) as usize);
            let mut left = free.clone();
            cell.messages.take_subframes(&mut left);
            accepted.taken = free.iter().zip(left).map(|(&f, l)| f && !l).collect();
        }
        accepted
    }

    /// The subframes after which all repeats.
    pub fn period(&self) -> u64 {
        match self.taken.is_empty() {
            true => ANCHOR_PERIOD,
            false => MESSAGE_PERIOD,
        }
    }

    fn is_taken_by_message(&self, t: u64) -> bool {
        !self.taken.is_empty() && self.taken[(t % MESSAGE_PERIOD) as usize]
    }

    /// Why subframe t isn't usable, none if it is.
    pub fn cause(&self, t: u64) -> Option<Cause> {
        let anchor = self.cell.anchor_cause(t);
        if anchor.is_some() {
            anchor
        } else if self.is_taken_by_message(t) {
            Some(Cause::Message)
        } else if !self.cell.bitmap_allows(t) {
            Some(Cause::Bitmap)
        } else {
            None
        }
    }

    /// A usable downlink subframe.
    pub fn usable(&self, t: u64) -> bool {
        self.cause(t).is_none()
    }

    /// The bitmap in force: a part of the own buffer.
    pub fn bitmap_in_force(&self) -> &[u8] {
        &self.cell.own_buffer()[..self.cell.bitmap_bytes()]
    }
}

/// How many cells are kept.
const KEPT_CELLS: usize = 4;

/// The cells asked last, each judged once.
#[derive(Debug, Default)]
pub struct CellCache {
    last: Vec<(Cell, Result<Rc<AcceptedCell>, Refusal>)>,
}

impl CellCache {
    /// As `Cell::accept`; done anew only if no cell with the same values is kept.
    pub fn accept(&mut self, cell: &Cell) -> Result<Rc<AcceptedCell>, Refusal> {
        match self.last.iter().position(|(kept, _)| kept == cell) {
            Some(at) => self.last[..=at].rotate_right(1),
            None => {
                let judged = cell.accept().map(Rc::new);
                self.last.insert(0, (cell.clone(), judged));
                self.last.truncate(KEPT_CELLS);
            }
        }
        self.last[0].1.clone()
    }
}
