//! A `count` question for every combination of mode, ports, control region and
//! identity mod 6 with listed numbers (02, "L3"); mode 0 with unequal ports is
//! among them and refused (02, "L7").

use crate::model::cell::Cell;
use crate::text::question::Question;
use std::io::{self, Write};

/// The cell ports and control regions of a mode.
fn in_band_numbers(mode: u64) -> Vec<(u64, u64)> {
    if mode > 1 {
        return vec![(0, 0)];
    }
    let mut list = Vec::new();
    for cports in [1, 2, 4] {
        list.extend((1..=3).map(|control| (cports, control)));
    }
    list
}

/// Each combination twice: the smallest identity on the anchor, the largest off it.
pub fn cells_to_count() -> Vec<Cell> {
    let mut list = Vec::new();
    for mode in 0..4 {
        for nports in [1, 2] {
            for (cports, control) in in_band_numbers(mode) {
                for v in 0..6 {
                    for (carrier, identity) in [(0, v), (1, 498 + v)] {
                        list.push(Cell {
                            mode,
                            carrier,
                            identity,
                            nports,
                            cports,
                            control,
                            ..Cell::default()
                        });
                    }
                }
            }
        }
    }
    list
}

/// Writes the questions, each with all of the cell's numbers.
pub fn write_every_count(out: &mut impl Write) -> io::Result<()> {
    for cell in cells_to_count() {
        write!(out, "{}", Question::Count.text())?;
        write!(out, " mode={} carrier={}", cell.mode, cell.carrier)?;
        write!(out, " identity={} nports={}", cell.identity, cell.nports)?;
        write!(out, " cports={} control={}", cell.cports, cell.control)?;
        writeln!(out, " sib1={} bits={}", cell.sib1, cell.bits)?;
    }
    out.flush()
}
