//! Tests of the generator.

#[path = "../common/mod.rs"]
mod common;

mod generated_questions;
