//! The comparison itself: an honest library passes, and each planted difference is
//! found.

mod classes;
mod codes;
mod compares;
mod library;
mod outside;
mod planted;
mod reached;
mod scrubs;
