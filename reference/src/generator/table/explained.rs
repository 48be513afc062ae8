//! What a question file asks of timelines, refusal numbers and help, and where
//! its errors stand.

use crate::text::answer::Answer;
use crate::text::help;
use crate::text::meaning;
use crate::text::timeline::Timeline;
use std::collections::BTreeSet;
use std::io::{self, Write};

/// The signs of a timeline, a digit as `0`.
pub const SIGNS: [char; 10] = ['0', 'B', 'P', 'S', 'I', 'M', 'x', 'G', 'W', '.'];

/// Errors in words past this one are counted with it.
pub const LAST_WORD: usize = 9;

#[derive(Clone, Debug, Default)]
pub struct ExplainedCounts {
    pub timelines: u64,
    pub rows: u64,
    /// Timelines with more frames than rows.
    pub past_rows: u64,
    /// Timelines that have a sign, by sign.
    pub with_sign: [u64; 10],
    /// Numbers asked for their meaning.
    pub numbers: BTreeSet<u64>,
    /// Words asked for, and how often all of them at once.
    pub words: BTreeSet<&'static str>,
    pub whole_help: u64,
    /// Errors by the number of the word.
    pub error_words: [u64; LAST_WORD + 1],
    /// Lines that end with a carriage return.
    pub returns: u64,
}

fn has_sign(timeline: &Timeline, sign: char) -> bool {
    let is_it = |c: char| c == sign || (sign == '0' && c.is_ascii_digit());
    timeline.rows.iter().any(|row| row.signs.contains(is_it))
}

impl ExplainedCounts {
    /// Counts an answer.
    pub fn count(&mut self, answer: &Answer) {
        match answer {
            Answer::LineError(at, _) => self.error_words[at.word.min(LAST_WORD)] += 1,
            Answer::Timeline(_, Ok(timeline)) => self.count_timeline(timeline),
            Answer::Meaning(no) => {
                self.numbers.insert(*no);
            }
            Answer::Help(None) => self.whole_help += 1,
            Answer::Help(Some(word)) => {
                self.words.insert(word);
            }
            _ => {}
        }
    }

    fn count_timeline(&mut self, timeline: &Timeline) {
        self.timelines += 1;
        self.rows += timeline.rows.len() as u64;
        self.past_rows += u64::from(timeline.more > 0);
        for (count, sign) in self.with_sign.iter_mut().zip(SIGNS) {
            *count += u64::from(has_sign(timeline, sign));
        }
    }

    /// How many of the numbers that have words were asked.
    pub fn listed_numbers(&self) -> usize {
        let listed = meaning::numbers();
        listed.iter().filter(|no| self.numbers.contains(no)).count()
    }

    pub fn write(&self, out: &mut impl Write) -> io::Result<()> {
        write!(out, "timelines: {}, rows {}", self.timelines, self.rows)?;
        write!(out, ", past the last row {}; with", self.past_rows)?;
        for (count, sign) in self.with_sign.iter().zip(SIGNS) {
            write!(out, " {sign} {count}")?;
        }
        writeln!(out)?;
        let all: BTreeSet<_> = help::words().into_iter().collect();
        write!(out, "help of {} words of {}", self.words.len(), all.len())?;
        write!(out, ", of all {}", self.whole_help)?;
        write!(out, "; meaning of {} numbers", self.numbers.len())?;
        write!(out, ", of {} of the", self.listed_numbers())?;
        writeln!(out, " {} listed", meaning::numbers().len())?;
        writeln!(out, "lines with a carriage return: {}", self.returns)?;
        write!(out, "error lines by word:")?;
        for (word, count) in self.error_words.iter().enumerate() {
            write!(out, " {word}={count}")?;
        }
        writeln!(out)
    }
}
