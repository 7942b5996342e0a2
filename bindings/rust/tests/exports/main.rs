//! The crate's tests: the texts of document 01, the refusals, spans, and random images.

mod agreement;
mod export;
mod image;
mod properties;
mod refusals;
mod rng;
mod spans;
mod table;
