//! Calls for READ, WRITE and VERIFY.

mod any;
pub mod differences;
mod each;
pub mod large;
pub mod order;

pub use any::any;
pub use each::{each, every_mark};
