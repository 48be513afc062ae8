//! Reads a line: its question, and the values that it sets.

use super::help;
use super::line_error::{LineError, LineErrorAt};
use super::question::{Kind, Question};
use super::read_lines::{without_return, LONGEST_LINE};
use super::values::{ValueMut, Values};
use crate::model::broadcast::Channel;
use crate::model::random_access_windows::Window;
use crate::model::system_information::Schedule;

/// A decimal digit string up to 2^64 - 1.
fn decimal(text: &[u8]) -> Result<u64, LineError> {
    if text.is_empty() {
        return Err(LineError::Number);
    }
    let mut number: u64 = 0;
    for &b in text {
        if !b.is_ascii_digit() {
            return Err(LineError::Number);
        }
        number = number
            .checked_mul(10)
            .and_then(|x| x.checked_add(u64::from(b - b'0')))
            .ok_or(LineError::Number)?;
    }
    Ok(number)
}

fn hex_digit(b: u8) -> Result<u8, LineError> {
    match b {
        b'0'..=b'9' => Ok(b - b'0'),
        b'a'..=b'f' => Ok(b - b'a' + 10),
        b'A'..=b'F' => Ok(b - b'A' + 10),
        _ => Err(LineError::Hex),
    }
}

/// Hex digits, two a byte, at least one byte.
fn hex(text: &[u8]) -> Result<Vec<u8>, LineError> {
    if text.is_empty() || text.len() % 2 == 1 {
        return Err(LineError::Hex);
    }
    text.chunks(2)
        .map(|pair| Ok(hex_digit(pair[0])? * 16 + hex_digit(pair[1])?))
        .collect()
}

/// A value read, before it is kept.
enum ReadValue {
    Number(u64),
    Buffer(Vec<u8>),
    Level(u32),
    Window(Window),
    Schedule(Schedule),
}

fn read_buffer(text: &[u8], longest: usize) -> Result<ReadValue, LineError> {
    let bytes = if text == b"-" { Vec::new() } else { hex(text)? };
    if bytes.len() > longest {
        return Err(LineError::Size);
    }
    Ok(ReadValue::Buffer(bytes))
}

fn read_level(text: &[u8]) -> Result<ReadValue, LineError> {
    let bytes = hex(text)?;
    let four: [u8; 4] = bytes.try_into().map_err(|_| LineError::Size)?;
    Ok(ReadValue::Level(u32::from_be_bytes(four)))
}

fn read_number(name: &[u8], text: &[u8]) -> Result<ReadValue, LineError> {
    let number = decimal(text)?;
    let largest = match name {
        b"room" => 1024,
        b"engine" => 1,
        _ => u64::MAX,
    };
    if number > largest {
        return Err(LineError::Size);
    }
    Ok(ReadValue::Number(number))
}

/// So many decimal numbers with commas between them.
fn numbers_with_commas<const COUNT: usize>(text: &[u8]) -> Result<[u64; COUNT], LineError> {
    let parts = text.split(|&b| b == b',');
    let numbers: Result<Vec<u64>, LineError> = parts.map(decimal).collect();
    numbers?.try_into().map_err(|_| LineError::Number)
}

fn read_window(text: &[u8]) -> Result<ReadValue, LineError> {
    let [period, start, length, tone] = numbers_with_commas(text)?;
    Ok(ReadValue::Window(Window {
        period,
        start,
        length,
        tone,
    }))
}

fn read_schedule(text: &[u8]) -> Result<ReadValue, LineError> {
    let [period, every, size] = numbers_with_commas(text)?;
    Ok(ReadValue::Schedule(Schedule {
        period,
        every,
        size,
    }))
}

/// One `name=value` word: `value`, `name`, `number`, `hex`, `size` in this order.
fn read_word<'a>(values: &mut Values, word: &'a [u8]) -> Result<(&'a [u8], ReadValue), LineError> {
    let odd = word.iter().any(|&b| b == b'\t' || b == b'\r');
    let equals = word.iter().position(|&b| b == b'=');
    let Some(at) = equals.filter(|_| !odd) else {
        return Err(LineError::Value);
    };
    let (name, text) = (&word[..at], &word[at + 1..]);
    let read = match values.value_mut(name).ok_or(LineError::Name)? {
        ValueMut::Number(_) => read_number(name, text)?,
        ValueMut::Buffer(_, longest) => read_buffer(text, longest)?,
        ValueMut::Level(_) => read_level(text)?,
        ValueMut::Window(_) => read_window(text)?,
        ValueMut::Schedule(_) => read_schedule(text)?,
    };
    Ok((name, read))
}

fn store(values: &mut Values, name: &[u8], read: ReadValue) {
    match (values.value_mut(name), read) {
        (Some(ValueMut::Number(kept)), ReadValue::Number(x)) => *kept = x,
        (Some(ValueMut::Buffer(kept, _)), ReadValue::Buffer(x)) => *kept = x,
        (Some(ValueMut::Level(kept)), ReadValue::Level(x)) => *kept = x,
        (Some(ValueMut::Window(kept)), ReadValue::Window(x)) => *kept = x,
        (Some(ValueMut::Schedule(kept)), ReadValue::Schedule(x)) => *kept = x,
        _ => unreachable!("a value is read as its name keeps it"),
    }
}

/// What the second word of a question may name.
enum SecondWord {
    Kind(Kind),
    Channel(Channel),
}

fn read_second_word(word: Option<&[u8]>) -> Option<SecondWord> {
    let word = word?;
    let kind = Kind::ALL.into_iter().find(|k| k.word().as_bytes() == word);
    let mut channels = Channel::ALL.into_iter();
    let channel = channels.find(|c| c.word().as_bytes() == word);
    kind.map(SecondWord::Kind)
        .or(channel.map(SecondWord::Channel))
}

/// A question that wants no kind.
fn without_kind(word: &[u8]) -> Option<Question> {
    match word {
        b"set" => Some(Question::Set),
        b"cell" => Some(Question::Cell),
        b"bitmap" => Some(Question::Bitmap),
        b"cause" => Some(Question::Cause),
        b"count" => Some(Question::Count),
        b"search" => Some(Question::Search),
        b"fill" => Some(Question::Fill),
        b"element" => Some(Question::Element),
        b"meaning" => Some(Question::Meaning),
        _ => None,
    }
}

fn wants_kind(word: &[u8]) -> bool {
    matches!(
        word,
        b"plan" | b"forward" | b"backward" | b"step" | b"picture" | b"timeline"
    )
}

/// The question with a kind of grant.
fn with_kind(word: &[u8], kind: Kind) -> Option<Question> {
    match word {
        b"plan" => Some(Question::Plan(kind)),
        b"forward" => Some(Question::Forward(kind)),
        b"backward" => Some(Question::Backward(kind)),
        b"step" => Some(Question::Step(kind)),
        b"picture" => Some(Question::Picture(kind)),
        b"timeline" => Some(Question::Timeline(kind)),
        _ => None,
    }
}

/// The question with a channel, which some have.
fn with_channel(word: &[u8], channel: Channel) -> Option<Question> {
    match word {
        b"forward" => Some(Question::ChannelForward(channel)),
        b"backward" => Some(Question::ChannelBackward(channel)),
        b"picture" => Some(Question::ChannelPicture(channel)),
        _ => None,
    }
}

/// The question of a line and how many words name it; `help` is read apart.
fn read_question(words: &[&[u8]]) -> Result<(Question, usize), LineErrorAt> {
    let named = read_second_word(words.get(1).copied());
    if let Some(question) = without_kind(words[0]) {
        return match named {
            Some(_) => Err(LineError::Kind.at(2)),
            None => Ok((question, 1)),
        };
    }
    if !wants_kind(words[0]) {
        return Err(LineError::Question.at(1));
    }
    let question = match named.ok_or(LineError::Kind.at(2))? {
        SecondWord::Kind(kind) => with_kind(words[0], kind),
        SecondWord::Channel(channel) => with_channel(words[0], channel),
    };
    Ok((question.ok_or(LineError::Kind.at(2))?, 2))
}

/// `help`, alone or with one known word.
fn read_help(words: &[&[u8]]) -> Result<Question, LineErrorAt> {
    let Some(&word) = words.get(1) else {
        return Ok(Question::Help(None));
    };
    let known = help::find_word(word).ok_or(LineError::Name.at(2))?;
    match words.len() {
        2 => Ok(Question::Help(Some(known))),
        _ => Err(LineError::Value.at(3)),
    }
}

/// Reads a line and keeps its values; None for a line that asks nothing and
/// sets nothing. A line with an error changes no value.
pub fn read_line(values: &mut Values, line: &[u8]) -> Result<Option<Question>, LineErrorAt> {
    let line = without_return(line);
    if line.is_empty() || line[0] == b'#' {
        return Ok(None);
    }
    if line.len() > LONGEST_LINE {
        return Err(LineError::Long.at(0));
    }
    let words: Vec<&[u8]> = line.split(|&b| b == b' ').collect();
    if words[0] == b"help" {
        return read_help(&words).map(Some);
    }
    let (question, named) = read_question(&words)?;
    let mut read = Vec::new();
    for (at, word) in words.iter().enumerate().skip(named) {
        let value = read_word(values, word);
        read.push(value.map_err(|error| error.at(at + 1))?);
    }
    for (name, value) in read {
        store(values, name, value);
    }
    Ok(Some(question))
}
