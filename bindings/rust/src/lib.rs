//! Riceshoal's image exporters for Rust: safe functions over its static library, each function of
//! which is proved to meet its contract.
//!
//! [`BitVec`] has methods of customasm's type of that name; the README says which are left out. An
//! export returns the text, or a [`Refusal`] where the original would panic, not end, or give a file
//! that is wrong, and where a limit is passed:
//!
//! ```
//! use riceshoal::{BitVec, Refusal, Span};
//!
//! let mut bitvec = BitVec::from_bytes(&[0xab, 0xc0], 12)?;
//! bitvec.mark_span(Some(0), 12, 0, Span::new_dummy());
//! assert_eq!(bitvec.format_intelhex(8)?, ":02000000ABC093\n:00000001FF");
//!
//! // An address unit is 1 to 64 bits.
//! assert_eq!(bitvec.format_intelhex(0), Err(Refusal::OptionRange));
//! # Ok::<(), Refusal>(())
//! ```
//!
//! The functions of [`slices`] write into a buffer of the caller's and allocate nothing.
//!
//! Every call ends, keeps no state and may be made from any thread. The library is for x86-64
//! Linux.

#![deny(missing_docs, unsafe_code)]

mod bitvec;
mod bitvec_format;
#[allow(unsafe_code)]
mod capi;
mod refusal;
pub mod slices;
mod span;

pub use bitvec::{BitVec, BitVecSpan};
pub use bitvec_format::{
    FormatAnnotatedOptions, FormatListOptions, FormatReadMemOptions, SourceTexts,
};
pub use refusal::Refusal;
pub use span::Span;

/// The most bits that an image may have, and the most that an offset and its size may add to.
pub const MAX_BITS: usize = 16_777_216;
/// The most spans that a list may have.
pub const MAX_SPANS: usize = 4096;

/// The examples of the README, which are run as tests.
#[cfg(doctest)]
#[doc = include_str!("../README.md")]
struct Readme;
