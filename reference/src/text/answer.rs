//! Answers: each question asked of the values in force.

use super::line_error::LineErrorAt;
use super::picture::{self, Picture};
use super::question::{Kind, Question};
use super::read_lines::next_line;
use super::read_question::read_line;
use super::timeline::{timeline, Timeline};
use super::values::Values;
use crate::model::accepted_cell::{AcceptedCell, CellCache};
use crate::model::broadcast::{Broadcast, Channel};
use crate::model::cell::{Cause, Cell};
use crate::model::elements;
use crate::model::fill::{self, ElementContent, FillInput};
use crate::model::grant::{self, BackwardAnswer, Grant, Plan, Step};
use crate::model::listing::{Listing, Place};
use crate::model::refusal::{refuse, Refusal};
use crate::model::search_space::StartAndCandidates;
use std::io::{self, BufRead, Write};
use std::rc::Rc;

/// What each number of the output is before a fill.
const OUTPUT_BEFORE_FILL: u32 = 0x4228_0000;

/// The answer to one line.
#[derive(Clone, Debug)]
pub enum Answer {
    /// With the line's number, from 1.
    LineError(LineErrorAt, u64),
    Cell(Result<(), Refusal>),
    Bitmap(Result<Vec<u8>, Refusal>),
    /// None for a usable subframe.
    Cause(Result<Option<Cause>, Refusal>),
    /// E.
    Count(Result<u64, Refusal>),
    Search(Result<StartAndCandidates, Refusal>),
    Plan(Kind, Result<Plan, Refusal>),
    Forward(Kind, Result<Place, Refusal>),
    Backward(Kind, Result<BackwardAnswer, Refusal>),
    /// With the record's p afterwards.
    Step(Kind, Result<Step, Refusal>, u64),
    /// With the output as it stands afterwards.
    Fill(Result<(), Refusal>, Vec<f32>),
    Element(Result<ElementContent, Refusal>),
    Picture(Kind, Result<Picture, Refusal>),
    ChannelForward(Channel, Result<Place, Refusal>),
    ChannelBackward(Channel, Result<BackwardAnswer, Refusal>),
    ChannelPicture(Channel, Result<Picture, Refusal>),
    Timeline(Kind, Result<Timeline, Refusal>),
    /// Of a refusal number.
    Meaning(Refusal),
    /// Of one word, or of all.
    Help(Option<&'static str>),
}

/// The last cell and grant of a kind that were accepted, listed.
#[derive(Debug)]
struct LastListing {
    cell: Cell,
    grant: Grant,
    listing: Listing,
}

/// Reads lines, keeps values and answers.
#[derive(Debug, Default)]
pub struct Answerer {
    pub values: Values,
    /// Lines read.
    lines: u64,
    cells: CellCache,
    last: [Option<LastListing>; 4],
}

impl LastListing {
    fn is_of(&self, cell: &Cell, grant: &Grant) -> bool {
        self.grant == *grant && (grant.is_uplink() || self.cell == *cell)
    }
}

impl Answerer {
    /// The answer to a line, or none for an empty line, a comment or a `set`.
    pub fn answer_line(&mut self, line: &[u8]) -> Option<Answer> {
        self.lines += 1;
        match read_line(&mut self.values, line) {
            Err(error) => Some(Answer::LineError(error, self.lines)),
            Ok(None) | Ok(Some(Question::Set)) => None,
            Ok(Some(question)) => Some(self.ask(question)),
        }
    }

    fn ask(&mut self, question: Question) -> Answer {
        match question {
            Question::Set => unreachable!("set asks nothing"),
            Question::Cell => Answer::Cell(self.cell().map(|_| ())),
            Question::Bitmap => Answer::Bitmap(self.bitmap()),
            Question::Cause => Answer::Cause(self.cause()),
            Question::Count => Answer::Count(self.count()),
            Question::Search => Answer::Search(self.search()),
            Question::Plan(kind) => Answer::Plan(kind, self.plan(kind)),
            Question::Forward(kind) => Answer::Forward(kind, self.forward(kind)),
            Question::Backward(kind) => Answer::Backward(kind, self.backward(kind)),
            Question::Step(kind) => {
                let stepped = self.step(kind);
                Answer::Step(kind, stepped, self.values.p)
            }
            Question::Fill => self.fill(),
            Question::Element => Answer::Element(self.element()),
            Question::Picture(kind) => Answer::Picture(kind, self.picture(kind)),
            Question::ChannelForward(channel) => {
                Answer::ChannelForward(channel, self.channel_forward(channel))
            }
            Question::ChannelBackward(channel) => {
                Answer::ChannelBackward(channel, self.channel_backward(channel))
            }
            Question::ChannelPicture(channel) => {
                Answer::ChannelPicture(channel, self.channel_picture(channel))
            }
            Question::Timeline(kind) => Answer::Timeline(kind, self.timeline(kind)),
            Question::Meaning => Answer::Meaning(self.values.no),
            Question::Help(word) => Answer::Help(word),
        }
    }

    /// The grant in force and its listing, made anew only if the numbers changed.
    pub fn listing(&mut self, kind: Kind) -> Result<(Grant, &Values, &Listing), Refusal> {
        let grant = self.values.grant(kind);
        let cell = &self.values.cell;
        let last = &mut self.last[kind as usize];
        if !last.as_ref().is_some_and(|l| l.is_of(cell, &grant)) {
            let listing = grant.list(cell, &mut self.cells)?;
            *last = Some(LastListing {
                cell: cell.clone(),
                grant,
                listing,
            });
        }
        match last {
            Some(last) => Ok((grant, &self.values, &last.listing)),
            None => unreachable!("listed above"),
        }
    }

    /// The cell in force, judged anew only if its values changed.
    pub fn cell(&mut self) -> Result<Rc<AcceptedCell>, Refusal> {
        self.cells.accept(&self.values.cell)
    }

    fn bitmap(&mut self) -> Result<Vec<u8>, Refusal> {
        Ok(self.cell()?.bitmap_in_force().to_vec())
    }

    fn cause(&mut self) -> Result<Option<Cause>, Refusal> {
        Ok(self.cell()?.cause(self.values.t))
    }

    fn count(&mut self) -> Result<u64, Refusal> {
        Ok(elements::eligible_count(&self.cell()?.cell.layout()))
    }

    fn search(&mut self) -> Result<StartAndCandidates, Refusal> {
        let cell = self.cell()?;
        self.values.search().list(&cell)
    }

    fn plan(&mut self, kind: Kind) -> Result<Plan, Refusal> {
        let (grant, _, listing) = self.listing(kind)?;
        Ok(grant.plan(listing))
    }

    fn forward(&mut self, kind: Kind) -> Result<Place, Refusal> {
        let (_, values, listing) = self.listing(kind)?;
        listing.forward(values.p)
    }

    fn backward(&mut self, kind: Kind) -> Result<BackwardAnswer, Refusal> {
        let (grant, values, listing) = self.listing(kind)?;
        let (unit, element) = values.place(kind);
        grant.backward(&values.cell, listing, unit, element)
    }

    /// The record's p moves on only when a place was answered.
    fn step(&mut self, kind: Kind) -> Result<Step, Refusal> {
        let (_, values, listing) = self.listing(kind)?;
        let step = grant::step(listing, values.p)?;
        if let Step::At(_) = step {
            self.values.p += 1;
        }
        Ok(step)
    }

    fn fill(&mut self) -> Answer {
        let mut output = vec![f32::from_bits(OUTPUT_BEFORE_FILL); self.values.room as usize];
        let filled = match self.listing(Kind::Down) {
            Ok((_, values, listing)) => {
                fill::fill(&values.cell, listing, &fill_input(values), &mut output)
            }
            Err(no) => Err(no),
        };
        Answer::Fill(filled, output)
    }

    fn element(&mut self) -> Result<ElementContent, Refusal> {
        let (_, values, listing) = self.listing(Kind::Down)?;
        let (_, element) = values.place(Kind::Down);
        fill::element(&values.cell, listing, &fill_input(values), element)
    }

    fn picture(&mut self, kind: Kind) -> Result<Picture, Refusal> {
        let (grant, values, listing) = self.listing(kind)?;
        refuse(14, values.i >= listing.sent.len() as u64)?;
        let i = values.i as usize;
        Ok(match grant.slot_use() {
            Some(slot_use) => picture::slot(&slot_use, listing, grant.slots_in_unit(), i),
            None => picture::subframe(&values.cell.layout(), listing, i),
        })
    }

    fn timeline(&mut self, kind: Kind) -> Result<Timeline, Refusal> {
        let (grant, _, listing) = self.listing(kind)?;
        Ok(timeline(&grant, listing))
    }

    /// One period of a channel in the cell in force.
    fn broadcast(&mut self, channel: Channel) -> Result<Broadcast, Refusal> {
        let cell = self.cell()?;
        Broadcast::of(channel, &cell)
    }

    fn channel_forward(&mut self, channel: Channel) -> Result<Place, Refusal> {
        self.broadcast(channel)?.forward(self.values.p)
    }

    fn channel_backward(&mut self, channel: Channel) -> Result<BackwardAnswer, Refusal> {
        let broadcast = self.broadcast(channel)?;
        let (t, element) = self.values.place(Kind::Down);
        broadcast.backward(t, element)
    }

    fn channel_picture(&mut self, channel: Channel) -> Result<Picture, Refusal> {
        let Broadcast {
            layout, listing, ..
        } = self.broadcast(channel)?;
        refuse(14, self.values.i >= listing.sent.len() as u64)?;
        Ok(picture::subframe(&layout, &listing, self.values.i as usize))
    }
}

fn fill_input(values: &Values) -> FillInput<'_> {
    FillInput {
        i: values.i,
        data: &values.data,
        level: f32::from_bits(values.level),
    }
}

/// Answers every line of the input.
pub fn answer_all(input: &mut impl BufRead, out: &mut impl Write) -> io::Result<()> {
    let mut answerer = Answerer::default();
    let mut line = Vec::new();
    while next_line(input, &mut line)? {
        if let Some(answer) = answerer.answer_line(&line) {
            answer.write(out)?;
        }
    }
    out.flush()
}
