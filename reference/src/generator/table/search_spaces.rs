//! What a question file asks of search spaces.

use crate::generator::special_search_spaces::{
    has_factor_3, starts_once_a_hyperframe, steps_unevenly,
};
use crate::model::downlink::LARGEST_N;
use crate::model::search_space::{SearchSpace, StartAndCandidates, HYPERFRAME};
use crate::text::answer::Answer;
use crate::text::values::Values;
use std::io::{self, Write};

/// Accepted questions for candidates, and what is worth a question in them.
#[derive(Clone, Debug, Default)]
pub struct SearchCounts {
    pub accepted: u64,
    /// By the number of candidates: 1, 3, 7 or 15.
    pub candidates: [u64; 4],
    /// The start is n itself.
    pub start_at_n: u64,
    /// The start isn't usable.
    pub start_not_usable: u64,
    /// T has a factor 3.
    pub with_factor_3: u64,
    /// T is above 10,240: one start a hyperframe.
    pub one_start_a_hyperframe: u64,
    /// The start is past a turn of the hyperframe.
    pub start_past_turn: u64,
    /// Of those, the start before the turn isn't T away.
    pub uneven_step: u64,
    /// A candidate ends at the next start or past it.
    pub past_next_start: u64,
    /// A candidate ends in subframe 2^30 or later.
    pub past_largest_n: u64,
    /// Messages are sent in the cell.
    pub beside_messages: u64,
}

fn next_start(search: &SearchSpace, start: u64) -> u64 {
    let n = start + 1;
    SearchSpace { n, ..*search }.first_start()
}

impl SearchCounts {
    /// Counts an answer, given with the values in force.
    pub fn count(&mut self, answer: &Answer, values: &Values) {
        let Answer::Search(Ok(space)) = answer else {
            return;
        };
        let search = values.search();
        self.accepted += 1;
        self.count_start(&search, space.start);
        self.count_candidates(&search, space);
        let cell = &values.cell;
        self.beside_messages += u64::from(cell.carrier == 0 && cell.messages.count > 0);
    }

    fn count_start(&mut self, search: &SearchSpace, start: u64) {
        let turned = start / HYPERFRAME > search.n / HYPERFRAME;
        self.start_at_n += u64::from(start == search.n);
        self.with_factor_3 += u64::from(has_factor_3(search));
        self.one_start_a_hyperframe += u64::from(starts_once_a_hyperframe(search));
        self.start_past_turn += u64::from(turned);
        self.uneven_step += u64::from(turned && steps_unevenly(search));
    }

    fn count_candidates(&mut self, search: &SearchSpace, space: &StartAndCandidates) {
        let candidates = &space.candidates;
        self.candidates[candidates.len().ilog2() as usize] += 1;
        self.start_not_usable += u64::from(candidates[0].first > space.start);
        let last = candidates.iter().map(|c| c.last).max().unwrap_or(0);
        self.past_next_start += u64::from(last >= next_start(search, space.start));
        self.past_largest_n += u64::from(last > LARGEST_N);
    }

    pub fn write(&self, out: &mut impl Write) -> io::Result<()> {
        let [one, three, seven, fifteen] = self.candidates;
        write!(out, "search spaces accepted: {}", self.accepted)?;
        write!(out, "; with 1 candidate {one}, 3 {three}")?;
        write!(out, ", 7 {seven}, 15 {fifteen}")?;
        writeln!(out, "; beside messages {}", self.beside_messages)?;
        write!(out, "  start at n {}", self.start_at_n)?;
        write!(out, ", not usable {}", self.start_not_usable)?;
        write!(out, ", past a turn {}", self.start_past_turn)?;
        writeln!(out, ", of those not T after the last {}", self.uneven_step)?;
        write!(out, "  T with a factor 3 {}", self.with_factor_3)?;
        write!(out, ", above 10,240 {}", self.one_start_a_hyperframe)?;
        write!(out, "; last past the next start {}", self.past_next_start)?;
        writeln!(out, ", past 2^30 {}", self.past_largest_n)
    }
}
