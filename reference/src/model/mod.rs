//! What the rules say (documents 01 and 02), by scanning and listing.

// The cell and its subframes.
pub mod accepted_cell;
pub mod cell;
pub mod elements;
pub mod system_information;

// The grants.
pub mod acknowledgement;
pub mod downlink;
pub mod grant;
pub mod listing;
pub mod random_access_windows;
pub mod uplink;
pub mod uplink_slots;

// What else is asked.
pub mod broadcast;
pub mod fill;
pub mod search_space;

pub mod refusal;
