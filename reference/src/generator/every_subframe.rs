//! Questions for the cause of every subframe of a whole period, in cells with
//! messages (02, "L5").

use super::cells::{cell_words, random_accepted_cell};
use super::random::Random;
use super::words::Word;
use crate::model::accepted_cell::CellCache;
use crate::model::system_information::MESSAGE_PERIOD;
use std::collections::HashMap;
use std::io::{self, Write};

/// The words of an accepted cell with messages, one in ten off the anchor.
fn random_cell_words(random: &mut Random) -> Vec<Word> {
    let off_anchor = u64::from(random.chance(10));
    loop {
        let accepted = random_accepted_cell(random, &mut CellCache::default());
        let cell = &accepted.cell;
        if cell.carrier == off_anchor && cell.messages.count > 0 {
            return cell_words(random, cell);
        }
    }
}

/// Where a period is begun: at 0, early or anywhere.
fn random_begin(random: &mut Random) -> u64 {
    let any = random.any() >> random.below(64);
    let early = random.below(MESSAGE_PERIOD);
    random.pick(&[0, 0, early, any.min(u64::MAX - MESSAGE_PERIOD)])
}

/// Writes the questions in so many cells; each `set` line gives only the
/// values that changed.
pub fn write_every_subframe(seed: u64, cells: u64, out: &mut impl Write) -> io::Result<()> {
    let mut random = Random::new(seed);
    let mut kept: HashMap<&str, String> = HashMap::new();
    for _ in 0..cells {
        write!(out, "set")?;
        for (name, text) in random_cell_words(&mut random) {
            if kept.get(name) != Some(&text) {
                write!(out, " {name}={text}")?;
                kept.insert(name, text);
            }
        }
        writeln!(out)?;
        let begin = random_begin(&mut random);
        for t in begin..begin + MESSAGE_PERIOD {
            writeln!(out, "cause t={t}")?;
        }
    }
    out.flush()
}
