//! When an uplink grant's slots are sent. From its first slot on 256 ms of slots follow, then 40 ms are left empty, and so on. Random access
//! windows push groups of slots aside.
//!
//! With windows, time is counted in milliseconds from the first slot, eight to a unit: a round has 37 units, of which the first 32 are sent
//! in. The free milliseconds repeat after the longest period, and all of it after 37 periods. What is left of such a cycle goes round by
//! round, by counts.

use super::cell::{byte_counts, select, ONES};
use super::refused;
use std::ops::Range;

/// A count, and four windows of period, start, length and first tone.
type Windows = [u64; 17];

const SENT: u32 = 32;
const ROUND: u32 = 37;

/// Words of 64 ms: the longest period, and what is sent of a round that begins at its end.
const WORDS: usize = 45;

/// More slots than ever lie between the first and the last of a grant.
const FAR: u64 = 1 << 28;

/// A period is 5 << 3 to 5 << 9, a length 21 << 13 to 21 << 19 or 3 << 16 to 3 << 22.
#[inline(always)]
fn is_listed(period: u64, start: u64, length: u64, tone: u64) -> bool {
    let (a, b) = (period.trailing_zeros(), length.trailing_zeros());
    (3..=9).contains(&a)
        && period >> a == 5
        && (8..=1024).contains(&start)
        && start.is_power_of_two()
        && ((13..=19).contains(&b) && length >> b == 21 || (16..=22).contains(&b) && length >> b == 3)
        && tone <= 36
}

/// Refusal 19 is not due: no windows, or up to four that are listed.
pub(super) fn are_listed(windows: &[u64]) -> bool {
    let Some((&count, rest)) = windows.split_first() else { return true };
    count <= 4 && rest.chunks_exact(4).take(count as usize).all(|w| is_listed(w[0], w[1], w[2], w[3]))
}

/// A window that shares a tone, in whole groups: its period, its first millisecond from the first slot on, and how long it is.
#[derive(Clone, Copy, Default)]
struct Closed {
    period: u32,
    from: u32,
    lasts: u32,
}

/// Refusal 19, or the windows that share a tone.
#[inline(always)]
fn sharing(windows: &Windows, wide: u32, first: u64, tones: Range<u64>) -> Result<([Closed; 4], usize), u64> {
    let (mut closed, mut many) = ([Closed::default(); 4], 0);
    let count = windows[0];
    if count > 4 {
        return Err(19);
    }
    let begin = if wide == 1 { (first / 2 % 2560) as u32 } else { (first % 1280) as u32 * 2 };
    for w in windows[1..].chunks_exact(4).take(count as usize) {
        let &[period, start, length, tone] = w.first_chunk().expect("four numbers");
        if !is_listed(period, start, length, tone) {
            return Err(19);
        }
        if tone < tones.end && tones.start < tone + 12 {
            let (period, lasts) = (period as u32, (length as u32).div_ceil(30720));
            let lasts = if wide == 1 { lasts } else { lasts.next_multiple_of(2) };
            closed[many] = Closed { period, from: (start as u32 + 2560 - begin) % period, lasts };
            many += 1;
        }
    }
    Ok((closed, many))
}

/// The free milliseconds of a time after which they repeat, at least 320, as ones; how many lie before each word, and in it before each byte.
pub struct Pushed {
    words: [u64; WORDS],
    within: [u64; WORDS],
    before: [u32; WORDS + 1],
    units: u32,
    /// The rounds of a cycle, as a logarithm over 5, and the free milliseconds that are sent in.
    log: u32,
    cycle: u32,
}

/// Closes the milliseconds from a to e.
#[inline(always)]
fn close(words: &mut [u64], a: u32, e: u32) {
    let (first, last) = ((a / 64) as usize, ((e - 1) / 64) as usize);
    let (from, to) = (!0 << (a % 64), !0 >> (63 - (e - 1) % 64));
    if first == last {
        words[first] &= !(from & to);
        return;
    }
    words[first] &= !from;
    for word in &mut words[first + 1..last] {
        *word = 0;
    }
    words[last] &= !to;
}

/// Closes a window wherever it is, in words that repeat after a time.
#[inline(always)]
fn close_all(words: &mut [u64], time: u32, c: &Closed) {
    let mut a = c.from;
    while a + c.lasts <= time {
        close(words, a, a + c.lasts);
        a += c.period;
    }
    if a < time {
        close(words, a, time);
        close(words, 0, a + c.lasts - time);
    }
}

impl Pushed {
    const EMPTY: Pushed = Pushed { words: [!0; WORDS], within: [0; WORDS], before: [0; WORDS + 1], units: 40, log: 0, cycle: 0 };

    /// Lays windows in the order of their periods, so that what is laid repeats with the next. Is any millisecond free?
    #[inline(always)]
    fn lay(&mut self, closed: &[Closed]) -> bool {
        let longest = closed.iter().fold(40, |period, c| period.max(c.period));
        let mut time = 320;
        loop {
            for c in closed.iter().filter(|c| c.period.max(320) == time) {
                close_all(&mut self.words, time, c);
            }
            if time >= longest {
                break;
            }
            let many = time as usize / 64;
            self.words.copy_within(..many, many);
            time *= 2;
        }
        self.units = time / 8;
        self.log = longest.trailing_zeros() - 3;
        self.count()
    }

    /// Counts what is free. Is anything?
    #[inline(always)]
    fn count(&mut self) -> bool {
        let many = self.units as usize / 8;
        let mut free = 0;
        for i in 0..many + 5 {
            if i >= many {
                self.words[i] = self.words[i - many];
            }
            let sums = byte_counts(self.words[i]).wrapping_mul(ONES);
            self.within[i] = sums << 8;
            self.before[i] = free;
            free += (sums >> 56) as u32;
        }
        self.before[many + 5] = free;
        self.cycle = SENT * (self.before[many] >> 3u32.saturating_sub(self.log));
        self.cycle > 0
    }

    /// Free milliseconds before a unit, up to 32 past the time.
    #[inline(always)]
    fn rank(&self, unit: u32) -> u32 {
        let (w, b) = ((unit / 8) as usize, unit % 8);
        self.before[w] + (self.within[w] >> (8 * b) & 0xff) as u32
    }

    /// The free milliseconds that are sent in of a round, and where the next one begins.
    #[inline(always)]
    fn round(&self, unit: u32) -> (u32, u32) {
        let next = unit + ROUND;
        (self.rank(unit + SENT) - self.rank(unit), if next < self.units { next } else { next - self.units })
    }

    /// The millisecond before which so many are sent in.
    #[inline(always)]
    fn at(&self, k: u32) -> u32 {
        let (cycles, mut rest) = if k < self.cycle { (0, k) } else { (k / self.cycle, k % self.cycle) };
        let (mut rounds, mut unit) = (cycles * 5 << self.log, 0);
        let (mut here, mut next) = self.round(unit);
        while rest >= here {
            rest -= here;
            rounds += 1;
            unit = next;
            (here, next) = self.round(unit);
        }
        8 * ROUND * rounds + self.find(unit as usize / 8, self.rank(unit) + rest) - 8 * unit
    }

    /// The free millisecond before which so many lie, not before word w.
    #[inline(always)]
    fn find(&self, mut w: usize, wanted: u32) -> u32 {
        while self.before[w + 1] <= wanted {
            w += 1;
        }
        64 * w as u32 + select(self.words[w], wanted - self.before[w])
    }

    /// How many are sent in before a millisecond, if it may be sent in.
    #[inline(always)]
    fn index(&self, ms: u32) -> Option<u32> {
        let (round, at) = (ms / 8 / ROUND, ms / 8 % ROUND);
        let cycles = (round >> self.log) / 5;
        let rounds = round - (cycles * 5 << self.log);
        let begin = ROUND * rounds % self.units;
        let here = begin + at;
        let byte = if at < SENT { (self.words[here as usize / 8] >> (8 * (here % 8))) as u32 & 0xff } else { 0 };
        if byte >> (ms % 8) & 1 == 0 {
            return None;
        }
        let (mut passed, mut unit) = (cycles * self.cycle, 0);
        for _ in 0..rounds {
            let (n, next) = self.round(unit);
            passed += n;
            unit = next;
        }
        Some(passed + self.rank(here) - self.rank(begin) + (byte & ((1 << (ms % 8)) - 1)).count_ones())
    }
}

/// A grant's slots in time, from its first on.
pub struct Timeline<'a> {
    wide: u32,
    first: u64,
    pushed: Option<&'a Pushed>,
}

impl Timeline<'_> {
    /// Without windows.
    #[inline(always)]
    pub fn plain(wide: u32, first: u64) -> Timeline<'static> {
        Timeline { wide, first, pushed: None }
    }

    /// Transmitted slot i. Without windows 128 slots, then 20 left empty; at 15 kHz four times as many of both.
    #[inline(always)]
    pub fn slot(&self, i: u32) -> u64 {
        let x = match self.pushed {
            Some(p) if self.wide == 0 => p.at(2 * i) / 2,
            Some(p) => 2 * p.at(i / 2) + i % 2,
            None => i + 20 * (i >> 7 & !(3 * self.wide)),
        };
        self.first + x as u64
    }

    /// How many slots may be sent before a slot, if it may be.
    #[inline(always)]
    pub fn index(&self, slot: u64) -> Option<u64> {
        let x = slot.checked_sub(self.first)?;
        let Some(p) = self.pushed else {
            let (rounds, rest, block) = if self.wide == 0 { (x / 148, x % 148, 128) } else { (x / 592, x % 592, 512) };
            return (rest < block).then_some(rounds * block + rest);
        };
        if x >= FAR {
            return None;
        }
        let x = x as u32;
        let i = if self.wide == 0 { p.index(2 * x)? / 2 } else { 2 * p.index(x / 2)? + x % 2 };
        Some(i as u64)
    }
}

/// What is asked of a grant's slots beside windows, or refusals 19 and 20. The tones are at 3.75 kHz.
#[inline(always)]
pub fn beside<const N: usize>(
    windows: &[u64], wide: u32, first: u64, tones: Range<u64>, ask: impl FnOnce(&Timeline) -> [u64; N],
) -> [u64; N] {
    let (closed, many) = match sharing(windows.first_chunk().expect("17 numbers"), wide, first, tones) {
        Ok(shared) => shared,
        Err(no) => return refused(no),
    };
    let closed = &closed[..many];
    if closed.iter().any(|c| c.lasts >= c.period) {
        return refused(20);
    }
    let mut pushed = Pushed::EMPTY;
    if many > 0 && !pushed.lay(closed) {
        return refused(20);
    }
    ask(&Timeline { wide, first, pushed: (many > 0).then_some(&pushed) })
}
