//! What accepted search spaces have that is worth a question: a T that doesn't
//! fit the hyperframe, or that is longer.

use crate::model::search_space::{SearchSpace, HYPERFRAME};

pub fn has_factor_3(search: &SearchSpace) -> bool {
    search.period().is_multiple_of(3)
}

/// Is there one start a hyperframe?
pub fn starts_once_a_hyperframe(search: &SearchSpace) -> bool {
    search.period() > HYPERFRAME
}

/// Is the step over a turn of the hyperframe another than T? So it is with a
/// factor 3, and with 4,096 and 8,192.
pub fn steps_unevenly(search: &SearchSpace) -> bool {
    !starts_once_a_hyperframe(search) && !HYPERFRAME.is_multiple_of(search.period())
}
