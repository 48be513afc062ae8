//! An independent program that answers the mapping's questions by plain
//! scanning and listing. It is slow and simple on purpose: it is what the
//! proved library is compared with.
//!
//! It has three parts:
//! - `model`: what the rules say of cells, grants and channels; uses neither of
//!   the others;
//! - `text`: the line language, which reads questions and writes answers; uses
//!   the model;
//! - `generator`: question files for the comparison, and the table that counts
//!   what they ask; uses both.

pub mod generator;
pub mod model;
pub mod text;
