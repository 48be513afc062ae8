//! System information messages: their numbers, and a cell's numbers with and without them.

use super::Cell;

/// The window's length in ms, the frame offset, the count, and period, distance of copies and size of each of four entries.
pub type Messages = [u64; 15];

/// The lengths of a window in parts of 160 ms: 1, 2, 3, 4, 6, 8 and 10.
const LENGTHS: u32 = 0b101_0101_1110;

/// A cell's eight numbers, and its messages if all of them are lent.
#[inline(always)]
pub fn parts<const N: usize>(cell: &Cell<N>) -> (&Cell, Option<&Messages>) {
    let (eight, rest) = cell.split_first_chunk().expect("8 numbers");
    (eight, rest.first_chunk())
}

/// The messages, if some are sent in this cell.
#[inline(always)]
pub fn sent<'a>(cell: &Cell, messages: Option<&'a Messages>) -> Option<&'a Messages> {
    messages.filter(|ms| cell[1] == 0 && ms[2] != 0)
}

#[inline(always)]
fn is_window(ms: u64) -> bool {
    ms <= 1600 && ms % 160 == 0 && LENGTHS >> (ms / 160) & 1 == 1
}

#[inline(always)]
fn is_entry(frames: u64, &[period, every, size]: &[u64; 3]) -> bool {
    (64..=4096).contains(&period)
        && period.is_power_of_two()
        && (2..=16).contains(&every)
        && every.is_power_of_two()
        && (size == 2 || size == 8)
        && frames <= period
}

/// The entries up to the count.
#[inline(always)]
pub fn entries(messages: &Messages) -> impl Iterator<Item = &[u64; 3]> {
    messages[3..].as_chunks::<3>().0.iter().take(messages[2] as usize)
}

/// Refusal 21 does not apply: window, offset and count are judged always, an entry if it is read.
#[inline(always)]
pub fn are_listed(messages: &Messages) -> bool {
    let &[window, offset, count, ..] = messages;
    is_window(window) && offset <= 15 && count <= 4 && entries(messages).all(|e| is_entry(window / 10, e))
}
