//! The line language of docs/QUESTIONS.md: questions are read, asked of the
//! model and answered.

// From a line to a question and its values.
pub mod line_error;
pub mod question;
pub mod read_lines;
pub mod read_question;
pub mod values;

// From the answer to its lines.
pub mod answer;
pub mod help;
pub mod meaning;
pub mod picture;
pub mod timeline;
pub mod write_answer;
