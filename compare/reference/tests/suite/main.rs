//! The reference held to the documents.

mod cases;
mod commands;
mod compares;
mod descriptions;
mod fields;
mod formats;
mod guards;
mod listings;
mod model;
mod scrubs;
mod stripes;
mod support;
