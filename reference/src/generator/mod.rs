//! Question files for the comparison with the proved program, and the table that
//! counts what they ask. A function whose name begins with `random` draws from
//! the numbers of a seed, so the same seed gives the same file.

// A file of generated questions: setups, and the words of each question.
pub mod question_file;
pub mod random;
pub mod setup;
pub mod words;

// What the words set.
pub mod asked_places;
pub mod broadcast;
pub mod cells;
pub mod explained;
pub mod grants;
pub mod random_access_windows;
pub mod search_spaces;
pub mod special_messages;
pub mod special_search_spaces;
pub mod system_information;

// Questions that are refused, and lines that are no questions.
pub mod faulty_lines;
pub mod refusals;

// Files that ask for every case.
pub mod every_broadcast_place;
pub mod every_count;
pub mod every_search_space;
pub mod every_subframe;

pub mod table;
