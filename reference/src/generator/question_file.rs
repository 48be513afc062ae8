//! Makes a question file from a seed.

use super::asked_places::{
    place_words, random_pictured_number, random_position, random_sent_number, random_subframe,
    words_before_longest_skip,
};
use super::broadcast::broadcast_words;
use super::cells::{cell_words, random_cell};
use super::explained::{meaning_words, random_help_word, timeline_words};
use super::faulty_lines::{longest_line, random_faulty_line};
use super::random::Random;
use super::refusals::{possible_refusals, words_refused_with};
use super::search_spaces::search_words;
use super::setup::Setup;
use super::system_information::subframe_near_window;
use super::words::{number_word, Word};
use crate::model::broadcast::Channel;
use crate::model::cell::Cell;
use crate::text::question::{Kind, Question};
use std::io::{self, Write};

/// A question file to be made.
#[derive(Clone, Copy, Debug)]
pub struct QuestionFile {
    pub seed: u64,
    pub count: u64,
    /// All of one question.
    pub only: Option<Question>,
}

impl QuestionFile {
    /// Of all questions.
    pub fn new(seed: u64, count: u64) -> QuestionFile {
        QuestionFile {
            seed,
            count,
            only: None,
        }
    }
}

/// Writes a question file.
struct FileWriter<'a, W: Write> {
    random: Random,
    out: &'a mut W,
    /// Questions still to be asked.
    left: u64,
    only: Option<Question>,
}

/// Writes the questions of a file.
pub fn write_question_file(file: QuestionFile, out: &mut impl Write) -> io::Result<()> {
    let mut writer = FileWriter {
        random: Random::new(file.seed),
        out,
        left: file.count,
        only: file.only,
    };
    while writer.left > 0 {
        writer.write_setup()?;
    }
    writer.out.flush()
}

/// A value that the same line gives anew.
fn overwritten_value(name: &str) -> &'static str {
    match name {
        "anchor" | "other" | "data" => "-",
        "level" => "00000000",
        "engine" => "1",
        "w1" | "w2" | "w3" | "w4" => "7,0,7,77",
        "m1" | "m2" | "m3" | "m4" => "7,0,77",
        _ => "77",
    }
}

/// A question of a setup's kind, each with its share of a thousand; beside
/// messages there are more pictures.
fn random_question(random: &mut Random, setup: &Setup) -> Question {
    let kind = setup.kind;
    let channel = random.pick(&Channel::ALL);
    let shares = match kind {
        Kind::Down if setup.has_messages() => [
            50, 95, 140, 55, 30, 20, 170, 15, 25, 70, 25, 105, 70, 105, 5, 12, 4, 4,
        ],
        Kind::Control if setup.has_messages() => [
            60, 120, 155, 80, 25, 20, 175, 20, 0, 0, 25, 120, 70, 105, 5, 12, 4, 4,
        ],
        Kind::Down => [
            50, 105, 140, 55, 30, 20, 175, 15, 25, 75, 5, 105, 70, 105, 5, 12, 4, 4,
        ],
        Kind::Control => [
            60, 130, 165, 80, 25, 20, 175, 20, 0, 0, 5, 120, 70, 105, 5, 12, 4, 4,
        ],
        Kind::Up | Kind::Ack => [
            120, 290, 380, 170, 0, 0, 0, 0, 0, 0, 14, 0, 0, 0, 0, 18, 4, 4,
        ],
    };
    let word = random_help_word(random);
    let questions = [
        Question::Plan(kind),
        Question::Forward(kind),
        Question::Backward(kind),
        Question::Step(kind),
        Question::Cell,
        Question::Bitmap,
        Question::Cause,
        Question::Count,
        Question::Fill,
        Question::Element,
        Question::Picture(kind),
        Question::Search,
        Question::ChannelForward(channel),
        Question::ChannelBackward(channel),
        Question::ChannelPicture(channel),
        Question::Timeline(kind),
        Question::Meaning,
        Question::Help(word),
    ];
    let mut at = random.below(1000);
    for (question, share) in questions.into_iter().zip(shares) {
        if at < share {
            return question;
        }
        at -= share;
    }
    Question::Plan(kind)
}

/// Another cell and its words.
fn random_other_cell(random: &mut Random) -> (Cell, Vec<Word>) {
    let cell = random_cell(random);
    let words = cell_words(random, &cell);
    (cell, words)
}

/// A subframe asked for its cause, now and then in another cell.
fn cause_words(random: &mut Random, setup: &Setup) -> Vec<Word> {
    let mut t = random_subframe(random, setup);
    let mut words = Vec::new();
    if random.chance(40) {
        let (cell, others) = random_other_cell(random);
        if random.chance(60) {
            t = subframe_near_window(random, &cell.messages).unwrap_or(t);
        }
        words = others;
    }
    words.insert(0, ("t", t.to_string()));
    words
}

/// A transmitted subframe to be filled, often with other bits.
fn fill_words(random: &mut Random, setup: &Setup) -> Vec<Word> {
    let mut words = vec![number_word("i", random_sent_number(random, setup))];
    if random.chance(30) {
        words.extend(setup.other_data_words(random));
    }
    words
}

/// An element of a transmitted subframe, now and then with other bits.
fn element_words(random: &mut Random, setup: &Setup) -> Vec<Word> {
    let mut words = place_words(random, setup);
    words.retain(|(name, _)| *name != "t");
    words.push(number_word("i", random_sent_number(random, setup)));
    if random.chance(10) {
        words.extend(setup.other_data_words(random));
    }
    words
}

impl<W: Write> FileWriter<'_, W> {
    /// One setup: a `set` line, then some tens of questions.
    fn write_setup(&mut self) -> io::Result<()> {
        let kind = match self.only {
            Some(question) => question.kind().unwrap_or(Kind::Down),
            None => match self.random.below(100) {
                0..=46 => Kind::Down,
                47..=73 => Kind::Control,
                74..=88 => Kind::Up,
                _ => Kind::Ack,
            },
        };
        let setup = Setup::random(&mut self.random, kind);
        let words = setup.set_words(&mut self.random);
        self.write_line(Question::Set, &words)?;
        let end = self.left.saturating_sub(self.random.between(10, 60));
        while self.left > end {
            self.write_question(&setup)?;
        }
        Ok(())
    }

    /// Writes a line, its words in any order.
    fn write_line(&mut self, question: Question, words: &[Word]) -> io::Result<()> {
        let mut words = words.to_vec();
        for at in (1..words.len()).rev() {
            words.swap(at, self.random.below(at as u64 + 1) as usize);
        }
        let mut line = question.text();
        for (name, text) in words {
            if self.random.below(400) == 0 {
                // A value given twice: the last one holds.
                line.push_str(&format!(" {name}={}", overwritten_value(name)));
            }
            line.push_str(&format!(" {name}={text}"));
        }
        self.end_line(line.as_bytes())
    }

    /// Writes a line and its end, now and then with a carriage return.
    fn end_line(&mut self, line: &[u8]) -> io::Result<()> {
        self.out.write_all(line)?;
        let end: &[u8] = match self.random.below(50) {
            0 => b"\r\n",
            _ => b"\n",
        };
        self.out.write_all(end)
    }

    /// Asks, then sets back what the line changed of the setup.
    fn ask(&mut self, setup: &Setup, question: Question, words: &[Word]) -> io::Result<()> {
        self.write_line(question, words)?;
        self.left -= 1;
        let back = setup.words_to_restore(words);
        if back.is_empty() {
            return Ok(());
        }
        self.write_line(Question::Set, &back)
    }

    /// One question of a setup, or a line that is no question.
    fn write_question(&mut self, setup: &Setup) -> io::Result<()> {
        if self.only.is_none() && self.random.below(250) == 0 {
            return self.write_unusual_line();
        }
        let question = match self.only {
            Some(question) => question,
            None => random_question(&mut self.random, setup),
        };
        let mut words = self.question_words(setup, question);
        let refused = self.random.chance(22);
        if refused && !possible_refusals(question).is_empty() {
            self.add_refusals(setup, question, &mut words);
        }
        self.ask(setup, question, &words)?;
        if let Question::Step(_) = question {
            let more = self.random.below(6);
            for _ in 0..more.min(self.left) {
                self.ask(setup, question, &[])?;
            }
        }
        Ok(())
    }

    /// Bad lines, empty lines and comments, a line of exactly 4,096 bytes.
    fn write_unusual_line(&mut self) -> io::Result<()> {
        match self.random.below(16) {
            0 => return self.end_line(b""),
            1 => return self.end_line(b"# plan down n=1"),
            2 => return self.out.write_all(b"\r\n"),
            3 => self.end_line(&longest_line())?,
            _ => {
                let faulty = random_faulty_line(&mut self.random);
                self.end_line(&faulty.line)?;
            }
        }
        self.left -= 1;
        Ok(())
    }

    /// Adds what brings one refusal, or several at once.
    fn add_refusals(&mut self, setup: &Setup, question: Question, words: &mut Vec<Word>) {
        let several = match self.random.below(10) {
            0..=6 => 1,
            7 | 8 => 2,
            _ => self.random.between(3, 5),
        };
        for _ in 0..several {
            let no = self.random.pick(possible_refusals(question));
            for word in words_refused_with(&mut self.random, setup, question, no) {
                words.retain(|(name, _)| *name != word.0);
                words.push(word);
            }
        }
    }

    /// The words of a question that is asked as it should be.
    fn question_words(&mut self, setup: &Setup, question: Question) -> Vec<Word> {
        let random = &mut self.random;
        match question {
            Question::Set | Question::Help(_) => Vec::new(),
            Question::Meaning => meaning_words(random),
            Question::Timeline(_) => timeline_words(random, setup),
            Question::Cell | Question::Bitmap | Question::Count if random.chance(60) => {
                random_other_cell(random).1
            }
            Question::Cell | Question::Bitmap | Question::Count => Vec::new(),
            Question::Cause => cause_words(random, setup),
            Question::Search => search_words(random, setup),
            Question::Plan(_) if random.chance(50) => {
                setup.other_grant_words(random).unwrap_or_default()
            }
            Question::Plan(_) => Vec::new(),
            Question::Forward(_) | Question::Step(_) => {
                let mut words = vec![number_word("p", random_position(random, setup, question))];
                if random.chance(10) {
                    words.push(number_word("engine", 1 - setup.engine));
                }
                words
            }
            Question::Backward(_) => place_words(random, setup),
            Question::Picture(_) if setup.has_skipped() && random.chance(40) => {
                words_before_longest_skip(random, setup)
            }
            Question::Picture(_) => vec![number_word("i", random_pictured_number(random, setup))],
            Question::Fill => fill_words(random, setup),
            Question::ChannelForward(_)
            | Question::ChannelBackward(_)
            | Question::ChannelPicture(_) => broadcast_words(random, setup, question),
            Question::Element => element_words(random, setup),
        }
    }
}
