//! Questions for every place of one period of NPBCH and of SIB1 (02, "L9").

use crate::model::broadcast::{Broadcast, Channel};
use crate::model::cell::Cell;
use crate::model::elements::{self, Element};
use crate::text::question::Question;
use std::io::{self, Write};

/// Identities that are asked; past them SIB1's frames and the references repeat.
const IDENTITIES: u64 = 12;

/// The anchor cells of a schedule: each mode and identity. With the identity and
/// the schedule the ports change, so that each number of copies meets each of
/// the ports at each place of the references.
pub fn cells_of_schedule(schedule: u64) -> Vec<Cell> {
    let mut list = Vec::new();
    for mode in 0..4 {
        for identity in 0..IDENTITIES {
            let nports = 1 + identity / 6;
            let cports = match mode {
                0 => nports,
                1 => [1, 2, 4][((identity + schedule / 3) % 3) as usize],
                _ => 0,
            };
            let control = if mode > 1 { 0 } else { 1 + schedule / 3 % 3 };
            // Subframe 1 alone: a bitmap says nothing about broadcast.
            let bits = if schedule < 6 { 0 } else { 10 };
            list.push(Cell {
                mode,
                identity,
                nports,
                cports,
                control,
                sib1: schedule,
                bits,
                anchor: vec![0x40, 0x00],
                ..Cell::default()
            });
        }
    }
    list
}

fn write_cell(cell: &Cell, out: &mut impl Write) -> io::Result<()> {
    write!(out, "{} mode={}", Question::Set.text(), cell.mode)?;
    write!(out, " identity={} nports={}", cell.identity, cell.nports)?;
    write!(out, " cports={} control={}", cell.cports, cell.control)?;
    write!(out, " sib1={} bits={}", cell.sib1, cell.bits)?;
    writeln!(out, " anchor=4000")
}

/// Forward at every position and past the last; backward at every element of
/// the subframes sent, and at one of every other subframe of the period.
fn write_channel(channel: Channel, cell: &Cell, out: &mut impl Write) -> io::Result<()> {
    let accepted = cell.accept().expect("made to be accepted");
    let broadcast = Broadcast::of(channel, &accepted).expect("on the anchor");
    let forward = Question::ChannelForward(channel).text();
    for p in 0..=broadcast.listing.place_count() {
        writeln!(out, "{forward} p={p}")?;
    }
    let grid = elements::all_elements();
    for t in 0..channel.period() {
        if broadcast.listing.sent.contains(&t) {
            write_backward(channel, t, &grid, out)?;
        } else {
            let at = (t % grid.len() as u64) as usize;
            write_backward(channel, t, &grid[at..=at], out)?;
        }
    }
    Ok(())
}

fn write_backward(
    channel: Channel,
    t: u64,
    asked: &[Element],
    out: &mut impl Write,
) -> io::Result<()> {
    let backward = Question::ChannelBackward(channel).text();
    for Element { slot, l, k } in asked {
        writeln!(out, "{backward} t={t} slot={slot} l={l} k={k}")?;
    }
    Ok(())
}

/// Writes the questions of a schedule.
pub fn write_every_broadcast_place(schedule: u64, out: &mut impl Write) -> io::Result<()> {
    for cell in cells_of_schedule(schedule) {
        write_cell(&cell, out)?;
        for channel in Channel::ALL {
            write_channel(channel, &cell, out)?;
        }
    }
    out.flush()
}
