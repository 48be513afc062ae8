//! Sixty answers that a reader of document 01 wrote down before any program was asked: twenty for each kind of grant.
//! Since 02's L2 the backward answers of a subframe end with the cause, and 28 is refused with 18; since L7 the cells
//! of 23, 29 and 42, whose ports are not equal, are in mode 1, where the answers are the same.

use crate::common::ask;

const LINES: &str = include_str!("readers_answers.txt");

#[test]
fn answers_are_those_the_reader_wrote_down() {
    let (answers, questions): (Vec<_>, Vec<_>) =
        LINES.lines().partition(|line| line.starts_with("= "));
    let expected: Vec<&str> = answers.iter().map(|line| &line[2..]).collect();
    assert_eq!(expected.len(), 60);
    assert_eq!(ask(&(questions.join("\n") + "\n")), expected);
}
