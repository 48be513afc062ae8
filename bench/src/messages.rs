//! Cells in which system information messages are sent: their inputs, the lines of the first table and how the times grow.

mod cell_lengths;
mod growth;
mod inputs;
mod table;
#[cfg(test)]
mod test_by_scanning;

pub use cell_lengths::compare;
pub use growth::{search_table as search_grown, table as grown};
pub use inputs::{space, InputWithMessages, Schedules};
pub use table::table;
