//! Asks lines and gives the answer lines.

use reference::text::answer::answer_all;

pub fn ask_bytes(questions: &[u8]) -> Vec<String> {
    let mut out = Vec::new();
    let mut input = questions;
    answer_all(&mut input, &mut out).expect("memory takes all");
    let text = String::from_utf8(out).expect("answers are plain text");
    text.lines().map(str::to_string).collect()
}

#[allow(dead_code)]
pub fn ask(questions: &str) -> Vec<String> {
    ask_bytes(questions.as_bytes())
}

/// The number of a name in an answer line.
#[allow(dead_code)]
pub fn value(line: &str, name: &str) -> u64 {
    let mut words = line.split(' ').filter_map(|word| word.split_once('='));
    let found = words.find(|(n, _)| *n == name);
    found
        .expect("the name is there")
        .1
        .parse()
        .expect("a number")
}
