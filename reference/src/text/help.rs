//! What `help` answers: the lines of docs/help.txt.

const TEXT: &str = include_str!("../../../docs/help.txt");

/// The word that a line tells of; a heading begins with a capital letter and
/// tells of none.
fn word_of(line: &'static str) -> Option<&'static str> {
    let (word, _) = line.split_once(' ')?;
    word.starts_with(|c: char| c.is_ascii_lowercase())
        .then_some(word)
}

/// Every word that is told of, once for each of its lines.
pub fn words() -> Vec<&'static str> {
    TEXT.lines().filter_map(word_of).collect()
}

/// The word, if it is told of.
pub fn find_word(word: &[u8]) -> Option<&'static str> {
    words().into_iter().find(|w| w.as_bytes() == word)
}

/// The lines that tell of a word, or all lines.
pub fn lines(word: Option<&str>) -> Vec<&'static str> {
    let mut lines: Vec<&'static str> = TEXT.lines().collect();
    if word.is_some() {
        lines.retain(|line| word_of(line) == word);
    }
    lines
}
