//! What messages leave of the subframes that the anchor and the bitmap allow, and the search among them.

use super::cell::{masks, why_not, Pattern, Spot, Subframes};
use super::messages::Messages;
use super::timetable::{Sight, Stand, Timetable};
use super::Cell;

pub struct Left {
    pub pattern: Pattern,
    table: Timetable,
    /// How many are left in a period, once they have been counted.
    total: Option<u32>,
}

/// A cell's refusal, or what messages leave.
#[inline(always)]
pub fn left(cell: &Cell, messages: &Messages, anchor: &[u8], others: &[u8]) -> Result<Left, u64> {
    let mut pattern = masks(cell, Some(messages), anchor, others)?;
    let table = Timetable::new(pattern.count_frames(), messages);
    if table.is_empty() {
        return Err(18);
    }
    Ok(Left { pattern, table, total: None })
}

/// What is asked of a cell in which messages are sent.
#[inline(never)]
pub fn among_messages<A>(
    cell: &Cell, messages: &Messages, anchor: &[u8], others: &[u8], ask: impl FnOnce(Result<&mut Left, u64>) -> A,
) -> A {
    match left(cell, messages, anchor, others) {
        Ok(mut left) => ask(Ok(&mut left)),
        Err(no) => ask(Err(no)),
    }
}

impl Left {
    /// The allowed subframes of a unit before its y-th subframe.
    #[inline(always)]
    fn allowed(&self, at: &Stand, y: u32) -> u32 {
        self.pattern.rank((self.table.begin(at.n) + y) as u64) as u32 - at.free
    }

    /// How many are left of a unit before its y-th subframe, and whether a message takes that one if it is allowed.
    #[inline(always)]
    fn before(&self, at: &Stand, y: u32) -> (u32, bool) {
        let (allowed, need) = (self.allowed(at, y), self.table.need(at));
        (allowed.saturating_sub(need), allowed < need)
    }

    /// The cause of subframe t.
    #[inline(always)]
    pub fn cause(&self, cell: &Cell, t: u64) -> u64 {
        if !self.pattern.allows(t) {
            return why_not(cell, t);
        }
        let (_, within) = self.table.periods(t);
        let (n, y) = self.table.unit_of(within + self.table.lead());
        if self.before(&self.table.stand_at(n), y).1 { 5 } else { 0 }
    }

    /// The j-th from a given one on, and the subframe from which the search counts its time.
    #[inline(always)]
    pub fn sight(&self, from: u64, j: u64) -> (Sight, u64) {
        let (_, within) = self.table.periods(from);
        let begin = within + self.table.lead();
        let (n, y) = self.table.unit_of(begin);
        let at = self.table.stand_at(n);
        let k = j as u32 + self.before(&at, y).0;
        (Sight { at, k, free: None }, from.wrapping_sub(begin as u64))
    }

    /// Whole periods off k: how many subframes they are.
    #[inline(always)]
    fn jump(&self, g: &mut Sight, total: u32) -> u64 {
        let periods = g.k / total;
        g.k -= periods * total;
        periods as u64 * self.table.period() as u64
    }

    /// The k-th subframe that is left; the search's time moves on by the periods that are jumped over.
    #[inline(always)]
    fn find(&mut self, g: &mut Sight, zero: &mut u64) -> u64 {
        let free = self.free_before(g, zero, &mut 0);
        zero.wrapping_add(self.pattern.at(free as u64))
    }

    /// How many are allowed before the k-th that is left; and how many are left of the stretch in which it lies, if no window is open
    /// there.
    #[inline(always)]
    pub fn free_before(&mut self, g: &mut Sight, zero: &mut u64, quiet: &mut u32) -> u32 {
        if let Some(total) = self.total {
            *zero = zero.wrapping_add(self.jump(g, total));
        }
        let (limit, k) = (g.at.n + self.table.units(), g.k);
        if !self.table.seek(g, limit, quiet) {
            let total = k - g.k;
            self.total = Some(total);
            *zero = zero.wrapping_add(self.jump(g, total));
            self.table.seek(g, limit + self.table.units(), quiet);
        }
        g.free.unwrap_or_else(|| self.table.kth_alone(&g.at, g.k))
    }

    /// How many are left from a subframe on before a later one t, and whether a message takes t if it is allowed.
    #[inline(always)]
    fn count(&mut self, from: u64, t: u64) -> (u64, bool) {
        let (_, within) = self.table.periods(from);
        let (periods, ahead) = self.table.periods(t - from);
        let begin = within + self.table.lead();
        let ((n, y), (m, z)) = (self.table.unit_of(begin), self.table.unit_of(begin + ahead));
        let mut at = self.table.stand_at(n);
        let (head, _) = self.before(&at, y);
        let passed = self.stride_over(&mut at, m);
        let (rest, taken) = self.before(&at, z);
        let here = (passed + rest - head) as u64;
        if periods == 0 {
            return (here, taken);
        }
        let total = passed + self.stride_over(&mut at, n + self.table.units());
        (here + periods * total as u64, taken)
    }

    /// How many are left before unit n.
    #[inline(always)]
    fn stride_over(&mut self, at: &mut Stand, n: u32) -> u32 {
        let mut g = Sight { at: *at, k: u32::MAX, free: None };
        self.table.seek(&mut g, n, &mut 0);
        *at = g.at;
        u32::MAX - g.k
    }
}

impl Subframes for &mut Left {
    #[inline(always)]
    fn ends(&mut self, from: u64, j: u64, many: u64) -> (u64, u64) {
        let (mut g, mut zero) = self.sight(from, j);
        let first = self.find(&mut g, &mut zero);
        g.k += many as u32 - 1;
        (first, self.find(&mut g, &mut zero))
    }

    #[inline(always)]
    fn nth(&mut self, from: u64, j: u64) -> u64 {
        let (mut g, mut zero) = self.sight(from, j);
        self.find(&mut g, &mut zero)
    }

    #[inline(always)]
    fn locate(&mut self, from: u64, j: u64, many: u64, t: u64) -> Spot {
        if t < from {
            return Spot::Outside;
        }
        let (before, taken) = self.count(from, t);
        let i = before.wrapping_sub(j);
        if i >= many {
            return Spot::Outside;
        }
        if taken || !self.pattern.allows(t) {
            return if i == 0 { Spot::Outside } else { Spot::Skipped };
        }
        Spot::Sent(i)
    }

    #[inline(always)]
    fn why_not(&self, cell: &Cell, t: u64) -> u64 {
        if self.pattern.allows(t) { 5 } else { why_not(cell, t) }
    }
}
