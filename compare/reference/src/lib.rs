//! Blocks, commands and answers of the cabinet: an independent implementation,
//! written from the documents alone, to hold the proved code against.
//!
//! Where the documents leave a point open, the comment beside the code says what
//! was chosen.

mod answer;
mod command;
mod format;
mod guard;
mod listing;
mod scrub;
mod segment;
mod stripe;
mod transfer;

pub use answer::{Outcome, sense};
pub use format::format_choice;
pub use guard::{GUARD_TABLE, guard, guard_by_division};
pub use listing::listing;
pub use scrub::{Scrubbed, scrub};
pub use segment::{Description, fill};
pub use stripe::{correct, parity, rebuild};
pub use transfer::execute;
