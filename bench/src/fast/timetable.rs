//! Listed messages in units. All windows open at frames equal to the offset modulo 16 and last whole 16 frames. From frame `offset` on,
//! time is counted in units of the shortest distance of copies that is read: inside a unit no window opens or closes and no copy begins.
//! An entry that needs b subframes of a unit with f free takes the first of them: b less f are still wanted, f less b are left.

use super::cell::Frames;
use super::messages::{entries, Messages};

/// An entry. Its windows repeat after a power of two of units and its copies after another: `repeat` and `every` are these less one.
#[derive(Clone, Copy, Default)]
struct Entry {
    repeat: u32,
    start: u32,
    every: u32,
    size: u32,
}

impl Entry {
    /// How many units before unit n the last window opened.
    #[inline(always)]
    fn place(&self, n: u32) -> u32 {
        n.wrapping_sub(self.start) & self.repeat
    }

    /// What a copy needs that begins in the x-th unit of a window.
    #[inline(always)]
    fn begun(&self, x: u32) -> u32 {
        if x & self.every == 0 { self.size } else { 0 }
    }
}

/// Where unit n begins: how many subframes are free before it, and what each entry still wants of the copies begun before.
#[derive(Clone, Copy)]
pub struct Stand {
    pub n: u32,
    pub free: u32,
    wants: [u32; 4],
}

/// The k-th that is left from where a unit begins. Once the stretch is found in which it lies: how many are free before it, if that is known
/// without a look into the stretch.
pub struct Sight {
    pub at: Stand,
    pub k: u32,
    pub free: Option<u32>,
}

/// Units that are passed at once.
enum Stretch {
    /// So many in which no window is open.
    Quiet(u32),
    /// The whole window of an entry that opens here and meets no other.
    Alone(usize),
    /// So many in which the same windows are open, and of which entries.
    Busy(u32, Open),
}

/// Entries whose windows are open: how many, and which.
struct Open {
    many: usize,
    which: [u8; 4],
}

pub struct Timetable {
    free: Frames,
    entries: [Entry; 4],
    read: usize,
    /// In frames; the frames of a unit as a logarithm.
    offset: u32,
    log: u32,
    /// Units of a window.
    window: u32,
    /// All repeats after 640 subframes times a power of two, this is its logarithm.
    turns: u32,
    /// What a window that meets no other leaves, of each entry: all its windows leave the same.
    alone: [Option<u32>; 4],
}

impl Timetable {
    #[inline(always)]
    pub fn new(free: Frames, messages: &Messages) -> Timetable {
        let (mut every, mut period) = (16, 64);
        for &[repeat, distance, _] in entries(messages) {
            (every, period) = (distance.min(every), repeat.max(period));
        }
        let log = every.trailing_zeros();
        let window = messages[0] as u32 / 10 >> log;
        let mut made = [Entry::default(); 4];
        let mut start = 0;
        for (entry, &[period, every, size]) in made.iter_mut().zip(entries(messages)) {
            let repeat = (period as u32 >> log) - 1;
            *entry = Entry { repeat, start: start & repeat, every: (every as u32 >> log) - 1, size: size as u32 };
            start += window;
        }
        Timetable {
            free, entries: made, read: (messages[2] as usize).min(4), offset: messages[1] as u32, log, window,
            turns: period.trailing_zeros() - 6, alone: [None; 4],
        }
    }

    /// Subframes after which all repeats.
    #[inline(always)]
    pub fn period(&self) -> u32 {
        640 << self.turns
    }

    /// Units after which all repeats.
    #[inline(always)]
    pub fn units(&self) -> u32 {
        64 << self.turns >> self.log
    }

    /// How many whole periods of subframes there are in a number of them, and the rest.
    #[inline(always)]
    pub fn periods(&self, subframes: u64) -> (u64, u32) {
        let whole = subframes / 640 >> self.turns;
        (whole, (subframes - whole * self.period() as u64) as u32)
    }

    /// Whole periods that units are counted from before subframe 0: no window that reaches past 0 opens before.
    #[inline(always)]
    pub fn lead(&self) -> u32 {
        8 * self.period()
    }

    /// The unit in which a subframe lies that is counted with the lead, and how many of the unit's lie before it.
    #[inline(always)]
    pub fn unit_of(&self, t: u32) -> (u32, u32) {
        let n = (t / 10 - self.offset) >> self.log;
        (n, t - self.begin(n))
    }

    /// The frame in which unit n begins.
    #[inline(always)]
    fn frame(&self, n: u32) -> u32 {
        self.offset + (n << self.log)
    }

    /// The subframe in which unit n begins.
    #[inline(always)]
    pub fn begin(&self, n: u32) -> u32 {
        10 * self.frame(n)
    }

    #[inline(always)]
    fn free_before(&self, n: u32) -> u32 {
        self.free.before(self.frame(n))
    }

    #[inline(always)]
    fn stand(&self, n: u32) -> Stand {
        Stand { n, free: self.free_before(n), wants: [0; 4] }
    }

    /// What the entries need of the unit, with the copies that begin in it.
    #[inline(always)]
    pub fn need(&self, at: &Stand) -> u32 {
        let mut need = 0;
        for (entry, want) in self.entries[..self.read].iter().zip(at.wants) {
            let x = entry.place(at.n);
            need += if x < self.window { want + entry.begun(x) } else { 0 };
        }
        need
    }

    /// From which unit on each entry has to be followed so that all wants of unit n are known: the last one from where its open window
    /// opened, one before it from where its window opened that is open there.
    #[inline(always)]
    fn opened(&self, n: u32) -> [u32; 5] {
        let mut from = [n; 5];
        for j in (0..self.read).rev() {
            let x = self.entries[j].place(from[j + 1]);
            from[j] = from[j + 1] - if x < self.window { x } else { 0 };
        }
        from
    }

    /// What the entries want where unit n begins.
    #[inline(always)]
    pub fn stand_at(&self, n: u32) -> Stand {
        let from = self.opened(n);
        let mut at = self.stand(from[0]);
        if from[0] < n {
            self.follow(&mut at, &from);
        }
        at
    }

    /// Follows the first entry alone, then the first two, and so on, each to where the next has to be followed from.
    #[inline(never)]
    fn follow(&self, at: &mut Stand, from: &[u32; 5]) {
        let mut beyond = u32::MAX;
        for j in 0..self.read {
            while at.n < from[j + 1] {
                self.pass(at, from[j + 1], j + 1, &mut beyond);
            }
        }
    }

    /// What may be passed at once from unit n on, no further than to a limit, as the first entries see it.
    #[inline(always)]
    fn stretch(&self, n: u32, limit: u32, first: usize) -> Stretch {
        let (mut opens, mut closes) = (limit - n, u32::MAX);
        let mut open = Open { many: 0, which: [0; 4] };
        for (j, entry) in self.entries[..first].iter().enumerate() {
            let x = entry.place(n);
            if x < self.window {
                open.which[open.many & 3] = j as u8;
                open.many += 1;
                closes = closes.min(self.window - x);
            } else {
                opens = opens.min(entry.repeat + 1 - x);
            }
        }
        match open.many {
            0 => Stretch::Quiet(opens),
            1 if closes == self.window && opens >= closes => Stretch::Alone(open.which[0] as usize),
            _ => Stretch::Busy(opens.min(closes), open),
        }
    }

    /// Passes units to a limit or to where a window opens or closes, as the first entries see them; but no further than to the unit in which
    /// the k-th that is left lies: then how many are free before it. What is left of the passed ones is taken off k.
    #[inline(always)]
    fn pass(&self, at: &mut Stand, limit: u32, first: usize, k: &mut u32) -> Option<u32> {
        match self.stretch(at.n, limit, first) {
            Stretch::Quiet(units) => self.pass_quiet(at, units, k),
            Stretch::Alone(j) => self.pass_busy(at, self.window, &Open { many: 1, which: [j as u8; 4] }, k),
            Stretch::Busy(units, open) => self.pass_busy(at, units, &open, k),
        }
    }

    /// Passes units in which no window is open.
    #[inline(always)]
    fn pass_quiet(&self, at: &mut Stand, units: u32, k: &mut u32) -> Option<u32> {
        let next = self.free_before(at.n + units);
        let left = next - at.free;
        if *k < left {
            return Some(at.free + *k);
        }
        *k -= left;
        (at.n, at.free) = (at.n + units, next);
        None
    }

    /// Passes units in which the same windows are open.
    #[inline(always)]
    fn pass_busy(&self, at: &mut Stand, units: u32, open: &Open, k: &mut u32) -> Option<u32> {
        match open.many {
            1 => self.pass_open::<1>(at, units, &open.which, k),
            2 => self.pass_open::<2>(at, units, &open.which, k),
            3 => self.pass_open::<3>(at, units, &open.which, k),
            _ => self.pass_open::<4>(at, units, &open.which, k),
        }
    }

    /// The same for a number of windows that the compiler knows. What is taken of a unit goes before what is left.
    #[inline(never)]
    fn pass_open<const M: usize>(&self, at: &mut Stand, units: u32, which: &[u8; 4], k: &mut u32) -> Option<u32> {
        let entries: [Entry; M] = std::array::from_fn(|i| self.entries[which[i] as usize & 3]);
        let mut wants: [u32; M] = std::array::from_fn(|i| at.wants[which[i] as usize & 3]);
        let places: [u32; M] = std::array::from_fn(|i| entries[i].place(at.n));
        let (mut passed, mut free, mut rest) = (0, at.free, *k);
        let mut found = None;
        while passed < units {
            let next = self.free_before(at.n + passed + 1);
            let (was, mut left) = (wants, next - free);
            for i in 0..M {
                let need = wants[i] + entries[i].begun(places[i] + passed);
                wants[i] = need.saturating_sub(left);
                left = left.saturating_sub(need);
            }
            if rest < left {
                found = Some(next - left + rest);
                wants = was;
                break;
            }
            rest -= left;
            free = next;
            passed += 1;
        }
        for i in 0..M {
            at.wants[which[i] as usize & 3] = if places[i] + passed == self.window { 0 } else { wants[i] };
        }
        (at.n, at.free, *k) = (at.n + passed, free, rest);
        found
    }

    /// Goes on to the stretch in which the k-th lies, if it lies before a limit; and how many are left of it, if no window is open there.
    #[inline(always)]
    pub fn seek(&mut self, g: &mut Sight, limit: u32, quiet: &mut u32) -> bool {
        *quiet = 0;
        while g.at.n < limit {
            let found = match self.stretch(g.at.n, limit, self.read) {
                Stretch::Quiet(units) => {
                    let left = self.free_before(g.at.n + units) - g.at.free;
                    let found = self.pass_quiet(&mut g.at, units, &mut g.k);
                    *quiet = if found.is_some() { left } else { 0 };
                    found
                }
                Stretch::Busy(units, open) => self.pass_busy(&mut g.at, units, &open, &mut g.k),
                Stretch::Alone(j) => {
                    let left = self.alone[j].unwrap_or_else(|| self.left_alone(&g.at, j));
                    self.alone[j] = Some(left);
                    if g.k < left {
                        g.free = None;
                        return true;
                    }
                    g.k -= left;
                    g.at.n += self.window;
                    g.at.free = self.free_before(g.at.n);
                    None
                }
            };
            if found.is_some() {
                g.free = found;
                return true;
            }
        }
        false
    }

    /// What the window of an entry leaves that opens at unit n and meets no other.
    #[inline(never)]
    fn left_alone(&self, at: &Stand, j: usize) -> u32 {
        let Entry { every, size, .. } = self.entries[j];
        let (mut n, mut free, mut want, mut left) = (at.n, at.free, 0u32, 0);
        while n < at.n + self.window {
            n += every + 1;
            let next = self.free_before(n);
            let (need, here) = (want + size, next - free);
            want = need.saturating_sub(here);
            left += here.saturating_sub(need);
            free = next;
        }
        left
    }

    /// How many are free before the k-th subframe that is left of a window that opens here and meets no other.
    #[inline(never)]
    pub fn kth_alone(&self, at: &Stand, mut k: u32) -> u32 {
        let entry = self.entries[..self.read].iter().find(|entry| entry.place(at.n) == 0).expect("one that opens");
        let (mut n, mut free, mut want) = (at.n, at.free, 0u32);
        loop {
            n += entry.every + 1;
            let next = self.free_before(n);
            let (need, here) = (want + entry.size, next - free);
            let left = here.saturating_sub(need);
            if k < left {
                return next - left + k;
            }
            k -= left;
            want = need.saturating_sub(here);
            free = next;
        }
    }

    /// No subframe is left: looked for from where the last entry's window has closed.
    #[inline(always)]
    pub fn is_empty(&self) -> bool {
        let n = 8 * self.units() + self.read as u32 * self.window;
        let mut at = self.stand_at(n);
        let limit = n + self.units();
        while at.n < limit {
            if self.pass(&mut at, limit, self.read, &mut 0).is_some() {
                return false;
            }
        }
        true
    }
}
