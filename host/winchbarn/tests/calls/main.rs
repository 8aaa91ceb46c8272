//! The calls of the wrapper against the archive.

mod lines;
mod marked;
mod refusals;
mod support;
