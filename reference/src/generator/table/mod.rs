//! The table of what a question file asks.

pub mod broadcast;
pub mod explained;
pub mod search_spaces;
pub mod system_information;

use crate::model::cell::Cause;
use crate::model::fill::ElementContent;
use crate::model::grant::Step;
use crate::text::answer::{Answer, Answerer};
use crate::text::line_error::LineError;
use crate::text::question::{Kind, Question};
use crate::text::read_lines::next_line;
use crate::text::values::Values;
use broadcast::BroadcastCounts;
use explained::ExplainedCounts;
use search_spaces::SearchCounts;
use std::io::{self, BufRead, Write};
use system_information::MessageCounts;

/// One more than the largest number of a refusal.
pub const REFUSAL_END: usize = 26;

/// What one row counts.
#[derive(Clone, Copy, Debug, Default, PartialEq, Eq)]
pub struct Row {
    pub asked: u64,
    pub accepted: u64,
    pub ours: u64,
    /// Not ours, by kind 0 to 2.
    pub not_ours: [u64; 3],
    pub finished: u64,
    /// Causes named, in their order.
    pub causes: [u64; 6],
    /// By number; place 0 isn't used.
    pub refused: [u64; REFUSAL_END],
}

/// The whole table: a row for each question and kind.
#[derive(Clone, Debug)]
pub struct Table {
    pub rows: Vec<(Question, Row)>,
    pub line_errors: [u64; 8],
    /// Uplink questions asked with a window or more.
    pub uplink_with_windows: u64,
    /// Forward and step asked of the plain engine, by kind.
    pub plain_engine: [u64; 4],
    pub messages: MessageCounts,
    pub searches: SearchCounts,
    pub broadcasts: BroadcastCounts,
    pub explained: ExplainedCounts,
}

impl Row {
    fn count(&mut self, answer: &Answer) {
        self.asked += 1;
        match answer.number() {
            Some(0) => self.accepted += 1,
            Some(no) => self.refused[no as usize] += 1,
            None => {}
        }
        let cause = match answer {
            Answer::Cause(Ok(cause)) => *cause,
            Answer::Backward(_, Ok(found)) => found.cause,
            _ => None,
        };
        if let Some(cause) = cause {
            self.causes[cause as usize] += 1;
        }
        match answer {
            Answer::Backward(_, Ok(found)) | Answer::ChannelBackward(_, Ok(found)) => {
                match found.ours {
                    true => self.ours += 1,
                    false => self.not_ours[found.kind as usize] += 1,
                }
            }
            Answer::Element(Ok(ElementContent::Symbol(_))) => self.ours += 1,
            Answer::Element(Ok(ElementContent::Silent)) => self.not_ours[0] += 1,
            Answer::Element(Ok(ElementContent::Reference(kind))) => {
                self.not_ours[*kind as usize] += 1
            }
            Answer::Step(_, Ok(Step::Finished), _) => self.finished += 1,
            _ => {}
        }
    }

    fn add(&mut self, other: &Row) {
        self.asked += other.asked;
        self.accepted += other.accepted;
        self.ours += other.ours;
        self.finished += other.finished;
        for (sum, x) in self.not_ours.iter_mut().zip(other.not_ours) {
            *sum += x;
        }
        for (sum, x) in self.causes.iter_mut().zip(other.causes) {
            *sum += x;
        }
        for (sum, x) in self.refused.iter_mut().zip(other.refused) {
            *sum += x;
        }
    }

    fn write(&self, out: &mut impl Write, name: &str) -> io::Result<()> {
        write!(out, "{name:<16} {:>8} {:>8}", self.asked, self.accepted)?;
        write!(out, " {:>7}", self.ours)?;
        for x in self.not_ours {
            write!(out, " {x:>6}")?;
        }
        write!(out, " {:>7}", self.finished)?;
        for x in self.causes {
            write!(out, " {x:>7}")?;
        }
        for x in &self.refused[1..] {
            write!(out, " {x:>6}")?;
        }
        writeln!(out)
    }
}

impl Default for Table {
    fn default() -> Table {
        let questions = Question::all().into_iter();
        Table {
            rows: questions.map(|q| (q, Row::default())).collect(),
            line_errors: [0; 8],
            uplink_with_windows: 0,
            plain_engine: [0; 4],
            messages: MessageCounts::default(),
            searches: SearchCounts::default(),
            broadcasts: BroadcastCounts::default(),
            explained: ExplainedCounts::default(),
        }
    }
}

impl Table {
    /// Counts an answer, given with the values in force.
    pub fn count(&mut self, answer: &Answer, values: &Values) {
        if let Answer::LineError(at, _) = answer {
            self.line_errors[at.error as usize] += 1;
        }
        let kind = answer.question().and_then(Question::kind);
        if kind.is_some_and(Kind::is_uplink) && values.windows.count > 0 {
            self.uplink_with_windows += 1;
        }
        let reads_engine = answer.question().is_some_and(Question::reads_engine);
        if let Some(kind) = kind.filter(|_| reads_engine && values.engine == 1) {
            self.plain_engine[kind as usize] += 1;
        }
        self.messages.count(answer, values);
        self.searches.count(answer, values);
        self.broadcasts.count(answer, values);
        self.explained.count(answer);
        for (question, row) in &mut self.rows {
            if answer.question() == Some(*question) {
                row.count(answer);
            }
        }
    }

    /// The row of a question.
    pub fn row(&self, question: Question) -> Row {
        let found = self.rows.iter().find(|(q, _)| *q == question);
        found.map_or(Row::default(), |(_, row)| *row)
    }

    /// All rows in one.
    pub fn total(&self) -> Row {
        let mut total = Row::default();
        for (_, row) in &self.rows {
            total.add(row);
        }
        total
    }

    pub fn write(&self, out: &mut impl Write) -> io::Result<()> {
        write!(out, "{:<16} {:>8} {:>8}", "question", "asked", "accepted")?;
        write!(out, " {:>7}", "ours")?;
        for kind in 0..3 {
            write!(out, " {:>6}", format!("not{kind}"))?;
        }
        write!(out, " {:>7}", "finish")?;
        for cause in Cause::ALL {
            write!(out, " {:>7}", cause.word())?;
        }
        for no in 1..REFUSAL_END {
            write!(out, " {:>6}", format!("no{no}"))?;
        }
        writeln!(out)?;
        for (question, row) in &self.rows {
            row.write(out, &question.text())?;
        }
        self.total().write(out, "all")?;
        writeln!(
            out,
            "uplink questions with windows: {}",
            self.uplink_with_windows
        )?;
        write!(out, "forward and step of the plain engine:")?;
        for kind in Kind::ALL {
            write!(out, " {} {}", kind.word(), self.plain_engine[kind as usize])?;
        }
        writeln!(out)?;
        self.messages.write(out)?;
        self.searches.write(out)?;
        self.broadcasts.write(out)?;
        self.explained.write(out)?;
        self.write_line_errors(out)
    }

    fn write_line_errors(&self, out: &mut impl Write) -> io::Result<()> {
        write!(out, "error lines:")?;
        for error in LineError::ALL {
            write!(
                out,
                " {}={}",
                error.word(),
                self.line_errors[error as usize]
            )?;
        }
        let line_errors: u64 = self.line_errors.iter().sum();
        let asked = self.total().asked;
        writeln!(out, " all={line_errors}")?;
        writeln!(out, "lines with an answer: {}", asked + line_errors)
    }
}

/// Answers every line of the input and counts.
pub fn table_of_questions(input: &mut impl BufRead) -> io::Result<Table> {
    let mut table = Table::default();
    let mut answerer = Answerer::default();
    let mut line = Vec::new();
    while next_line(input, &mut line)? {
        table.explained.returns += u64::from(line.ends_with(b"\r"));
        if let Some(answer) = answerer.answer_line(&line) {
            table.count(&answer, &answerer.values);
        }
    }
    Ok(table)
}
