//! The questions that a line may ask.

use crate::model::broadcast::Channel;

/// The kind of grant that a question names.
#[derive(Clone, Copy, Debug, PartialEq, Eq)]
pub enum Kind {
    Down,
    Control,
    Up,
    /// An acknowledgement, in the uplink too.
    Ack,
}

impl Kind {
    pub const ALL: [Kind; 4] = [Kind::Down, Kind::Control, Kind::Up, Kind::Ack];

    pub fn word(self) -> &'static str {
        match self {
            Kind::Down => "down",
            Kind::Control => "control",
            Kind::Up => "up",
            Kind::Ack => "ack",
        }
    }

    /// An uplink grant has no cell, and its places are in slots.
    pub fn is_uplink(self) -> bool {
        matches!(self, Kind::Up | Kind::Ack)
    }
}

/// A question word with its kind.
#[derive(Clone, Copy, Debug, PartialEq, Eq)]
pub enum Question {
    Set,
    Cell,
    Bitmap,
    Cause,
    Count,
    Search,
    Plan(Kind),
    Forward(Kind),
    Backward(Kind),
    Step(Kind),
    Fill,
    Element,
    Picture(Kind),
    ChannelForward(Channel),
    ChannelBackward(Channel),
    ChannelPicture(Channel),
    Timeline(Kind),
    Meaning,
    /// Of one word, or of all.
    Help(Option<&'static str>),
}

impl Question {
    /// Every question but `set`; help once.
    pub fn all() -> Vec<Question> {
        let mut list = vec![
            Question::Cell,
            Question::Bitmap,
            Question::Cause,
            Question::Count,
            Question::Search,
        ];
        for make in [
            Question::Plan,
            Question::Forward,
            Question::Backward,
            Question::Step,
        ] {
            list.extend(Kind::ALL.map(make));
        }
        list.extend([Question::Fill, Question::Element]);
        list.extend(Kind::ALL.map(Question::Picture));
        for make in [
            Question::ChannelForward,
            Question::ChannelBackward,
            Question::ChannelPicture,
        ] {
            list.extend(Channel::ALL.map(make));
        }
        list.extend(Kind::ALL.map(Question::Timeline));
        list.extend([Question::Meaning, Question::Help(None)]);
        list
    }

    /// Is it a question that both engines answer?
    pub fn reads_engine(self) -> bool {
        matches!(self, Question::Forward(_) | Question::Step(_))
    }

    /// The kind that the question names.
    pub fn kind(self) -> Option<Kind> {
        match self {
            Question::Plan(kind)
            | Question::Forward(kind)
            | Question::Backward(kind)
            | Question::Step(kind)
            | Question::Picture(kind)
            | Question::Timeline(kind) => Some(kind),
            _ => None,
        }
    }

    /// The channel that the question names.
    pub fn channel(self) -> Option<Channel> {
        match self {
            Question::ChannelForward(channel)
            | Question::ChannelBackward(channel)
            | Question::ChannelPicture(channel) => Some(channel),
            _ => None,
        }
    }

    /// The words with which the question's line begins.
    pub fn text(self) -> String {
        let word = match self {
            Question::Set => "set",
            Question::Cell => "cell",
            Question::Bitmap => "bitmap",
            Question::Cause => "cause",
            Question::Count => "count",
            Question::Search => "search",
            Question::Plan(_) => "plan",
            Question::Forward(_) | Question::ChannelForward(_) => "forward",
            Question::Backward(_) | Question::ChannelBackward(_) => "backward",
            Question::Step(_) => "step",
            Question::Fill => "fill",
            Question::Element => "element",
            Question::Picture(_) | Question::ChannelPicture(_) => "picture",
            Question::Timeline(_) => "timeline",
            Question::Meaning => "meaning",
            Question::Help(Some(of)) => return format!("help {of}"),
            Question::Help(None) => "help",
        };
        match (self.kind(), self.channel()) {
            (Some(kind), _) => format!("{word} {}", kind.word()),
            (_, Some(channel)) => format!("{word} {}", channel.word()),
            _ => word.to_string(),
        }
    }
}
