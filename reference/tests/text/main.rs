//! Tests of the text: reading questions and writing answers.

#[path = "../common/mod.rs"]
mod common;

mod document;
mod explained;
mod failures;
mod line_language;
