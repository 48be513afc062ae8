//! The words of the refusal numbers: docs/refusals.txt, a number and its words
//! a line.

use crate::model::refusal::Refusal;

const TEXT: &str = include_str!("../../../docs/refusals.txt");

/// The numbers that have words, in the order in which refusals are judged.
pub fn numbers() -> Vec<Refusal> {
    let numbers = TEXT.lines().filter_map(|line| line.split_once(' '));
    numbers.filter_map(|(no, _)| no.parse().ok()).collect()
}

/// The words of a number, `none` if it isn't listed.
pub fn words(no: Refusal) -> &'static str {
    let number = no.to_string();
    let mut lines = TEXT.lines().filter_map(|line| line.split_once(' '));
    let found = lines.find(|(first, _)| *first == number);
    found.map_or("none", |(_, words)| words)
}
