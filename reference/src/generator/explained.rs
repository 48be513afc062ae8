//! Questions that explain, for a question file: timelines of short grants and
//! of the setup's own, refusal numbers, words of help.

use super::random::Random;
use super::setup::Setup;
use super::words::{number_word, Word};
use crate::model::grant::Grant;
use crate::text::help;

/// A grant of the setup's kind that is sent in a few frames where its cell or
/// windows leave enough; or the setup's own, at times past the last row.
pub fn timeline_words(random: &mut Random, setup: &Setup) -> Vec<Word> {
    if random.chance(20) {
        return Vec::new();
    }
    let few = random.below(4);
    match setup.grant {
        Grant::Down(_) => vec![
            number_word("copies", few),
            number_word("subframes", random.below(8)),
            number_word("delay", random.below(4)),
        ],
        Grant::Control(_) => vec![number_word("r", 1 << random.below(6))],
        Grant::Up(_) => vec![
            number_word("copies", few),
            number_word("units", random.below(8)),
        ],
        Grant::Ack(_) => vec![number_word("copies", random.pick(&[few, few, 5, 6, 7]))],
    }
}

/// A number that has words, most often; else one beside these.
pub fn meaning_words(random: &mut Random) -> Vec<Word> {
    let any = random.any() >> random.below(64);
    let no = match random.below(4) {
        0 => random.pick(&[26, 27, 28, 29, 30, 254, 256, 1 << 32, u64::MAX, any]),
        1 => random.pick(&[0, 255, 24, 25]),
        _ => random.below(26),
    };
    vec![number_word("no", no)]
}

/// A word of help; now and then none, which asks for all.
pub fn random_help_word(random: &mut Random) -> Option<&'static str> {
    let word = random.pick(&help::words());
    (!random.chance(3)).then_some(word)
}
