//! What a question file asks of NPBCH and SIB1.

use crate::model::cell::Cell;
use crate::model::grant::BackwardAnswer;
use crate::text::answer::Answer;
use crate::text::values::Values;
use std::io::{self, Write};

/// Questions on the broadcast channels, and what is worth a question in them.
#[derive(Clone, Debug, Default)]
pub struct BroadcastCounts {
    pub asked: u64,
    pub accepted: u64,
    /// Of those accepted, by SIB1 schedule.
    pub schedules: [u64; 12],
    /// Of those accepted, by mode.
    pub modes: [u64; 4],
    /// Ours in the first period.
    pub ours_in_first_period: u64,
    /// Ours in a later one.
    pub ours_later: u64,
    /// Ours at 2^63 or later.
    pub ours_far_away: u64,
    /// A cell reference, asked out of band.
    pub cell_references_out_of_band: u64,
    /// Of an in-band cell with another control region than 3.
    pub other_control_region: u64,
    /// Of a cell with a bitmap or messages.
    pub with_bitmap_or_messages: u64,
}

impl BroadcastCounts {
    /// Counts an answer, given with the values in force.
    pub fn count(&mut self, answer: &Answer, values: &Values) {
        let Some(channel) = answer.question().and_then(|q| q.channel()) else {
            return;
        };
        self.asked += 1;
        if answer.number() != Some(0) {
            return;
        }
        self.count_accepted(&values.cell);
        if let Answer::ChannelBackward(_, Ok(found)) = answer {
            self.count_backward(found, values, channel.period());
        }
        let control = values.cell.control;
        let own_control = channel.layout(&values.cell).control == control;
        self.other_control_region += u64::from(control > 0 && !own_control);
    }

    fn count_accepted(&mut self, cell: &Cell) {
        self.accepted += 1;
        self.schedules[cell.sib1 as usize] += 1;
        self.modes[cell.mode as usize] += 1;
        self.with_bitmap_or_messages += u64::from(cell.bits > 0 || cell.messages.count > 0);
    }

    fn count_backward(&mut self, found: &BackwardAnswer, values: &Values, period: u64) {
        if found.ours {
            self.ours_in_first_period += u64::from(values.t < period);
            self.ours_later += u64::from(values.t >= period);
            self.ours_far_away += u64::from(values.t >= 1 << 63);
        }
        let in_band = values.cell.in_band();
        self.cell_references_out_of_band += u64::from(found.kind == 2 && !in_band);
    }

    pub fn write(&self, out: &mut impl Write) -> io::Result<()> {
        write!(out, "questions on NPBCH and SIB1: {}", self.asked)?;
        write!(out, "; accepted {}", self.accepted)?;
        writeln!(
            out,
            ", beside a bitmap or messages {}",
            self.with_bitmap_or_messages
        )?;
        write!(out, "  by schedule")?;
        for count in self.schedules {
            write!(out, " {count}")?;
        }
        write!(out, "; by mode")?;
        for count in self.modes {
            write!(out, " {count}")?;
        }
        writeln!(out)?;
        write!(
            out,
            "  ours in the first period {}",
            self.ours_in_first_period
        )?;
        write!(out, ", later {}", self.ours_later)?;
        writeln!(out, ", from 2^63 on {}", self.ours_far_away)?;
        write!(
            out,
            "  cell references out of band {}",
            self.cell_references_out_of_band
        )?;
        writeln!(
            out,
            ", not the cell's control region {}",
            self.other_control_region
        )
    }
}
