//! What a question file asks of cells with messages.

use crate::generator::special_messages::{
    window_fills_period, window_reaches_over_zero, windows_overlap,
};
use crate::model::cell::Cell;
use crate::model::system_information::Messages;
use crate::text::answer::Answer;
use crate::text::question::Kind;
use crate::text::values::Values;
use crate::text::write_answer::LISTED_SKIPPED;
use std::io::{self, Write};

/// Questions of a cell with one to four listed messages.
#[derive(Clone, Debug, Default)]
pub struct MessageCounts {
    pub asked: u64,
    /// Accepted on the anchor, where messages are sent.
    pub on_anchor: u64,
    /// Of those, with windows of two entries that overlap.
    pub with_overlap: u64,
    /// Of those, with a window as long as its period.
    pub filling_period: u64,
    /// Of those, with a window from before t = 0.
    pub over_zero: u64,
    /// Of those, with a bitmap of at most three ones.
    pub sparse_bitmap: u64,
    /// Accepted off the anchor.
    pub off_anchor: u64,
    /// Refused with 18, and not without the messages.
    pub nothing_left: u64,
    /// Pictures that skip more subframes than they list.
    pub long_pictures: u64,
    /// The messages counted last, and what is special in them.
    last: Option<(Messages, [bool; 3])>,
}

/// Is it a question of a cell with messages whose numbers are all listed?
fn asks_of_messages(answer: &Answer, messages: &Messages) -> bool {
    let Some(question) = answer.question() else {
        return false;
    };
    let uplink = question.kind().is_some_and(Kind::is_uplink);
    !uplink && messages.count > 0 && messages.judge().is_ok()
}

fn is_sparse(cell: &Cell) -> bool {
    let part = cell.own_buffer().iter().take(cell.bitmap_bytes());
    let ones: u32 = part.map(|byte| byte.count_ones()).sum();
    cell.bits > 0 && ones <= 3
}

/// Would the cell be accepted if it had no messages?
fn accepted_without_messages(cell: &Cell) -> bool {
    let mut cell = cell.clone();
    cell.messages.count = 0;
    cell.accept().is_ok()
}

/// Does it skip more subframes than it lists?
fn is_long_picture(answer: &Answer) -> bool {
    let Answer::Picture(_, Ok(picture)) = answer else {
        return false;
    };
    let skipped = picture.skipped.as_ref();
    skipped.is_some_and(|skipped| skipped.len() > LISTED_SKIPPED)
}

impl MessageCounts {
    /// Counts an answer, given with the values in force.
    pub fn count(&mut self, answer: &Answer, values: &Values) {
        let cell = &values.cell;
        if !asks_of_messages(answer, &cell.messages) {
            return;
        }
        self.asked += 1;
        self.long_pictures += u64::from(is_long_picture(answer));
        match (answer.number(), cell.carrier) {
            (Some(0), 0) => self.count_on_anchor(cell),
            (Some(0), _) => self.off_anchor += 1,
            (Some(18), _) => self.nothing_left += u64::from(accepted_without_messages(cell)),
            _ => {}
        }
    }

    fn count_on_anchor(&mut self, cell: &Cell) {
        let [overlap, filling, over_zero] = self.special(&cell.messages);
        self.on_anchor += 1;
        self.with_overlap += u64::from(overlap);
        self.filling_period += u64::from(filling);
        self.over_zero += u64::from(over_zero);
        self.sparse_bitmap += u64::from(is_sparse(cell));
    }

    /// Do windows overlap, fill their period, reach over t = 0?
    fn special(&mut self, messages: &Messages) -> [bool; 3] {
        match self.last {
            Some((last, special)) if last == *messages => special,
            _ => {
                let special = [
                    windows_overlap,
                    window_fills_period,
                    window_reaches_over_zero,
                ]
                .map(|has| has(messages));
                self.last = Some((*messages, special));
                special
            }
        }
    }

    pub fn write(&self, out: &mut impl Write) -> io::Result<()> {
        writeln!(out, "questions of cells with messages: {}", self.asked)?;
        write!(out, "  accepted on the anchor: {}", self.on_anchor)?;
        write!(out, "; windows meet {}", self.with_overlap)?;
        write!(out, ", fill their period {}", self.filling_period)?;
        write!(out, ", reach over t = 0 {}", self.over_zero)?;
        writeln!(out, ", sparse bitmap {}", self.sparse_bitmap)?;
        write!(out, "  accepted off the anchor {}", self.off_anchor)?;
        write!(out, ", 18 by messages {}", self.nothing_left)?;
        writeln!(
            out,
            ", pictures past {LISTED_SKIPPED} {}",
            self.long_pictures
        )
    }
}
