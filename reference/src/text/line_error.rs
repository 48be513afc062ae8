//! Why a line is no question.

/// Why a line is no question.
#[derive(Clone, Copy, Debug, PartialEq, Eq)]
pub enum LineError {
    Long,
    Question,
    Kind,
    Value,
    Name,
    Number,
    Hex,
    Size,
}

/// The same with the number of the word at fault, from 1; 0 for the whole line.
#[derive(Clone, Copy, Debug, PartialEq, Eq)]
pub struct LineErrorAt {
    pub error: LineError,
    pub word: usize,
}

impl LineError {
    pub fn at(self, word: usize) -> LineErrorAt {
        LineErrorAt { error: self, word }
    }

    pub const ALL: [LineError; 8] = [
        LineError::Long,
        LineError::Question,
        LineError::Kind,
        LineError::Value,
        LineError::Name,
        LineError::Number,
        LineError::Hex,
        LineError::Size,
    ];

    pub fn word(self) -> &'static str {
        match self {
            LineError::Long => "long",
            LineError::Question => "question",
            LineError::Kind => "kind",
            LineError::Value => "value",
            LineError::Name => "name",
            LineError::Number => "number",
            LineError::Hex => "hex",
            LineError::Size => "size",
        }
    }
}
