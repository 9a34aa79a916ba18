//! Holds a library against the reference: both get the same calls, and what they
//! hand back and leave, every lent byte and the bytes around them, must be equal.
//! Series of scrubs are also held against the library's own one call and listing.

pub mod call;
mod command;
pub mod compare;
pub mod executes;
pub mod fence;
pub mod formats;
pub mod guards;
pub mod listings;
pub mod numbers;
pub mod options;
mod pages;
pub mod report;
pub mod runs;
mod scene;
pub mod scrubs;
mod segment;
mod series;
pub mod stripes;
pub mod told;
pub mod trial;
pub mod watch;
