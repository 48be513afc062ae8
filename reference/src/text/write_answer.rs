//! The text of the answers, one line each (pictures, timelines and help have
//! several).

use super::answer::Answer;
use super::line_error::LineErrorAt;
use super::picture::Picture;
use super::question::{Kind, Question};
use super::timeline::Timeline;
use super::{help, meaning};
use crate::model::cell::Cause;
use crate::model::elements::Element;
use crate::model::fill::ElementContent;
use crate::model::grant::{BackwardAnswer, Plan, Step};
use crate::model::listing::Place;
use crate::model::refusal::Refusal;
use crate::model::search_space::{Candidate, StartAndCandidates};
use std::io::{self, Write};

/// The answer's number, 0 if accepted.
fn refusal_or_0<T>(answer: &Result<T, Refusal>) -> u64 {
    match answer {
        Ok(_) => 0,
        Err(no) => *no,
    }
}

/// The answer's values, zeros if refused.
fn value_or_zeros<T: Clone + Default>(answer: &Result<T, Refusal>) -> T {
    answer.clone().unwrap_or_default()
}

/// Two lower-case hex digits a byte, `-` for no byte.
pub fn hex_text(bytes: &[u8]) -> String {
    if bytes.is_empty() {
        return "-".to_string();
    }
    bytes.iter().map(|b| format!("{b:02x}")).collect()
}

impl Answer {
    /// The question that is answered, `help` without its word; none for a line
    /// that is no question.
    pub fn question(&self) -> Option<Question> {
        Some(match self {
            Answer::LineError(..) => return None,
            Answer::Cell(_) => Question::Cell,
            Answer::Bitmap(_) => Question::Bitmap,
            Answer::Cause(_) => Question::Cause,
            Answer::Count(_) => Question::Count,
            Answer::Search(_) => Question::Search,
            Answer::Plan(kind, _) => Question::Plan(*kind),
            Answer::Forward(kind, _) => Question::Forward(*kind),
            Answer::Backward(kind, _) => Question::Backward(*kind),
            Answer::Step(kind, _, _) => Question::Step(*kind),
            Answer::Fill(_, _) => Question::Fill,
            Answer::Element(_) => Question::Element,
            Answer::Picture(kind, _) => Question::Picture(*kind),
            Answer::ChannelForward(channel, _) => Question::ChannelForward(*channel),
            Answer::ChannelBackward(channel, _) => Question::ChannelBackward(*channel),
            Answer::ChannelPicture(channel, _) => Question::ChannelPicture(*channel),
            Answer::Timeline(kind, _) => Question::Timeline(*kind),
            Answer::Meaning(_) => Question::Meaning,
            Answer::Help(_) => Question::Help(None),
        })
    }

    /// The refusal's number, 0 if accepted; none for a line that is no question.
    pub fn number(&self) -> Option<u64> {
        match self {
            Answer::LineError(..) => None,
            Answer::Cell(a) => Some(refusal_or_0(a)),
            Answer::Bitmap(a) => Some(refusal_or_0(a)),
            Answer::Cause(a) => Some(refusal_or_0(a)),
            Answer::Count(a) => Some(refusal_or_0(a)),
            Answer::Search(a) => Some(refusal_or_0(a)),
            Answer::Plan(_, a) => Some(refusal_or_0(a)),
            Answer::Forward(_, a) => Some(refusal_or_0(a)),
            Answer::Backward(_, a) => Some(refusal_or_0(a)),
            Answer::Step(_, a, _) => Some(refusal_or_0(a)),
            Answer::Fill(a, _) => Some(refusal_or_0(a)),
            Answer::Element(a) => Some(refusal_or_0(a)),
            Answer::Picture(_, a) => Some(refusal_or_0(a)),
            Answer::ChannelForward(_, a) => Some(refusal_or_0(a)),
            Answer::ChannelBackward(_, a) => Some(refusal_or_0(a)),
            Answer::ChannelPicture(_, a) => Some(refusal_or_0(a)),
            Answer::Timeline(_, a) => Some(refusal_or_0(a)),
            Answer::Meaning(_) | Answer::Help(_) => Some(0),
        }
    }

    /// Writes the answer's line or lines.
    pub fn write(&self, out: &mut impl Write) -> io::Result<()> {
        let no = self.number().unwrap_or(0);
        match self {
            Answer::LineError(LineErrorAt { error, word }, line) => {
                writeln!(out, "error={} line={line} word={word}", error.word())
            }
            Answer::Cell(_) => writeln!(out, "no={no}"),
            Answer::Bitmap(a) => writeln!(out, "no={no} part={}", hex_text(&value_or_zeros(a))),
            Answer::Cause(a) => {
                writeln!(out, "no={no} cause={}", cause_word(value_or_zeros(a)))
            }
            Answer::Count(a) => writeln!(out, "no={no} e={}", value_or_zeros(a)),
            Answer::Search(a) => write_start_and_candidates(out, no, &value_or_zeros(a)),
            Answer::Plan(kind, a) => write_plan(out, *kind, no, value_or_zeros(a)),
            Answer::Forward(kind, a) => write_forward(out, *kind, no, value_or_zeros(a)),
            Answer::ChannelForward(_, a) => write_forward(out, Kind::Down, no, value_or_zeros(a)),
            Answer::Backward(kind, a) => write_backward(out, *kind, no, value_or_zeros(a)),
            Answer::ChannelBackward(_, a) => {
                write_backward_numbers(out, no, value_or_zeros(a))?;
                writeln!(out)
            }
            Answer::Step(kind, a, p) => write_step(out, *kind, no, a, *p),
            Answer::Fill(_, numbers) => write_fill(out, no, numbers),
            Answer::Element(a) => write_element(out, no, a),
            Answer::Picture(_, Ok(picture)) | Answer::ChannelPicture(_, Ok(picture)) => {
                write_picture(out, picture)
            }
            Answer::Timeline(_, Ok(timeline)) => write_timeline(out, timeline),
            Answer::Picture(_, Err(_))
            | Answer::ChannelPicture(_, Err(_))
            | Answer::Timeline(_, Err(_)) => writeln!(out, "no={no}"),
            Answer::Meaning(of) => writeln!(out, "no={of} meaning={}", meaning::words(*of)),
            Answer::Help(word) => write_help(out, *word),
        }
    }
}

fn write_plan(out: &mut impl Write, kind: Kind, no: u64, plan: Plan) -> io::Result<()> {
    write!(out, "no={no} first={} last={}", plan.first, plan.last)?;
    write!(out, " copies={} places={}", plan.copies, plan.places)?;
    if kind.is_uplink() {
        write!(out, " size={} order={}", plan.size, plan.order)?;
    }
    writeln!(out)
}

/// The start, the number of candidates, then a word for each.
fn write_start_and_candidates(
    out: &mut impl Write,
    no: u64,
    space: &StartAndCandidates,
) -> io::Result<()> {
    let count = space.candidates.len();
    write!(out, "no={no} start={} count={count}", space.start)?;
    for Candidate { first, r, last } in &space.candidates {
        write!(out, " {first},{r},{last}")?;
    }
    writeln!(out)
}

fn write_place(out: &mut impl Write, kind: Kind, place: Place) -> io::Result<()> {
    let Element { slot, l, k } = place.element;
    if kind.is_uplink() {
        write!(out, " slot={}", place.unit)?;
    } else {
        write!(out, " t={} slot={slot}", place.unit)?;
    }
    write!(out, " l={l} k={k} symbol={}", place.symbol)
}

fn write_forward(out: &mut impl Write, kind: Kind, no: u64, place: Place) -> io::Result<()> {
    write!(out, "no={no}")?;
    write_place(out, kind, place)?;
    writeln!(out)
}

fn cause_word(cause: Option<Cause>) -> &'static str {
    cause.map_or("none", Cause::word)
}

/// Backward's answer without the cause.
fn write_backward_numbers(out: &mut impl Write, no: u64, found: BackwardAnswer) -> io::Result<()> {
    let ours = u64::from(found.ours);
    write!(out, "no={no} ours={ours} symbol={}", found.symbol)?;
    write!(out, " p={} kind={}", found.p, found.kind)
}

fn write_backward(
    out: &mut impl Write,
    kind: Kind,
    no: u64,
    found: BackwardAnswer,
) -> io::Result<()> {
    write_backward_numbers(out, no, found)?;
    if !kind.is_uplink() {
        write!(out, " cause={}", cause_word(found.cause))?;
    }
    writeln!(out)
}

fn write_step(
    out: &mut impl Write,
    kind: Kind,
    no: u64,
    step: &Result<Step, Refusal>,
    p: u64,
) -> io::Result<()> {
    let (finished, place) = match step {
        Ok(Step::At(place)) => (0, *place),
        Ok(Step::Finished) => (1, Place::default()),
        Err(_) => (0, Place::default()),
    };
    write!(out, "no={no} finished={finished}")?;
    write_place(out, kind, place)?;
    writeln!(out, " p={p}")
}

fn write_fill(out: &mut impl Write, no: u64, numbers: &[f32]) -> io::Result<()> {
    const DIGITS: &[u8; 16] = b"0123456789abcdef";
    write!(out, "no={no}")?;
    for number in numbers {
        let mut word = *b" 00000000";
        for (at, digit) in word[1..].iter_mut().enumerate() {
            let four_bits = (number.to_bits() >> (28 - 4 * at)) & 15;
            *digit = DIGITS[four_bits as usize];
        }
        out.write_all(&word)?;
    }
    writeln!(out)
}

fn write_element(
    out: &mut impl Write,
    no: u64,
    shown: &Result<ElementContent, Refusal>,
) -> io::Result<()> {
    let (case, re, im) = match shown {
        Ok(ElementContent::Silent) | Err(_) => (0, 0, 0),
        Ok(ElementContent::Reference(kind)) => (*kind, 0, 0),
        Ok(ElementContent::Symbol(s)) => (4, s.re.to_bits(), s.im.to_bits()),
    };
    writeln!(out, "no={no} case={case} re={re:08x} im={im:08x}")
}

fn write_picture(out: &mut impl Write, picture: &Picture) -> io::Result<()> {
    writeln!(out, "no=0")?;
    writeln!(out, "{}", picture.title)?;
    writeln!(out, "{}", picture.legend)?;
    for line in picture.columns.iter().chain(&picture.rows) {
        writeln!(out, "{line}")?;
    }
    match &picture.skipped {
        Some(skipped) => writeln!(out, "skipped: {}", skipped_text(skipped)),
        None => Ok(()),
    }
}

fn write_timeline(out: &mut impl Write, timeline: &Timeline) -> io::Result<()> {
    writeln!(out, "no=0")?;
    writeln!(out, "{}", timeline.columns)?;
    for row in &timeline.rows {
        writeln!(out, "{:>10} {:>5} {}", row.first, row.frame, row.signs)?;
    }
    if timeline.more > 0 {
        writeln!(out, "more frames: {}", timeline.more)?;
    }
    for line in timeline.legend {
        writeln!(out, "{line}")?;
    }
    Ok(())
}

fn write_help(out: &mut impl Write, word: Option<&str>) -> io::Result<()> {
    writeln!(out, "no=0")?;
    for line in help::lines(word) {
        writeln!(out, "{line}")?;
    }
    Ok(())
}

/// How many skipped subframes a picture lists: with ten digits each the line
/// stays under 4,096 bytes.
pub const LISTED_SKIPPED: usize = 200;

/// `24 sib1, 25 npss`, or `none`; past the 200th ` and N more`.
fn skipped_text(skipped: &[(u64, Cause)]) -> String {
    if skipped.is_empty() {
        return "none".to_string();
    }
    let listed = skipped.iter().take(LISTED_SKIPPED);
    let each = listed.map(|(t, cause)| format!("{t} {}", cause.word()));
    let text = each.collect::<Vec<String>>().join(", ");
    match skipped.len() {
        0..=LISTED_SKIPPED => text,
        all => format!("{text} and {} more", all - LISTED_SKIPPED),
    }
}
