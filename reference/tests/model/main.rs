//! Tests of the model: what the rules say.

#[path = "../common/mod.rs"]
mod common;

mod acknowledgement;
mod all_grants;
mod broadcast;
mod cases_p1_to_p11;
mod cause;
mod eligible_count;
mod fill;
mod random_access_windows;
mod readers_answers;
mod reference_kinds;
mod refusals;
mod search_space;
mod system_information;
