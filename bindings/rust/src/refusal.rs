//! Why an export gave no text.

use crate::{MAX_BITS, MAX_SPANS};
use std::error::Error;
use std::fmt;

/// Why an export gave no text. The causes are checked in the order of their numbers, and the first
/// that applies is returned. Places of spans are counted from 0.
///
/// ```
/// use riceshoal::{BitVec, Refusal};
///
/// let refusal = BitVec::new().format_str(6).unwrap_err();
/// assert_eq!(refusal, Refusal::OptionRange);
/// assert_eq!((refusal.number(), refusal.value()), (2, 0));
/// assert_eq!(refusal.to_string(), "refusal 2: an option is outside its range");
/// ```
#[derive(Clone, Copy, Debug, Eq, Hash, PartialEq)]
pub enum Refusal {
    /// 1: the bit length is above 16,777,216 or above 8 times the image's bytes.
    ImageSize,
    /// 2: an option is outside its range.
    OptionRange,
    /// 3, HEX and listing: there are more than 4,096 spans, or the lists of their numbers differ in
    /// length, and the value is 4,096; or else a present offset plus its size is above 16,777,216,
    /// and the value is the place of the first such span.
    SpanRange(usize),
    /// 4, MIF and C array: the image has no bits.
    EmptyImage,
    /// 5, HEX: the address of a record is above 65,535.
    AddressRange,
    /// 6, listing: a source text has more than 1,048,576 bytes or is not ASCII.
    SourceText,
    /// 7, listing: a span that is shown has a file above 1, no location, a start after its end, an
    /// end past its text, or a size but no offset. The value is the place of the first such span.
    SpanFault(usize),
    /// 8: the text is longer than the output buffer. The value is the length needed. A method of
    /// [`BitVec`](crate::BitVec) returns it only where no memory of that length can be had.
    NoRoom(usize),
}

impl Refusal {
    /// The refusal with a number from 1 to 8, as the library answers it.
    pub(crate) fn new(number: u32, value: usize) -> Refusal {
        match number {
            1 => Refusal::ImageSize,
            2 => Refusal::OptionRange,
            3 => Refusal::SpanRange(value),
            4 => Refusal::EmptyImage,
            5 => Refusal::AddressRange,
            6 => Refusal::SourceText,
            7 => Refusal::SpanFault(value),
            8 => Refusal::NoRoom(value),
            _ => panic!("libcapi.a is not the one that belongs to this crate: answer {number}"),
        }
    }

    /// The number of the cause, 1 to 8.
    pub fn number(self) -> u32 {
        match self {
            Refusal::ImageSize => 1,
            Refusal::OptionRange => 2,
            Refusal::SpanRange(_) => 3,
            Refusal::EmptyImage => 4,
            Refusal::AddressRange => 5,
            Refusal::SourceText => 6,
            Refusal::SpanFault(_) => 7,
            Refusal::NoRoom(_) => 8,
        }
    }

    /// The value that goes with the cause: a place, a length, or 0.
    pub fn value(self) -> usize {
        match self {
            Refusal::SpanRange(value) | Refusal::SpanFault(value) | Refusal::NoRoom(value) => value,
            _ => 0,
        }
    }
}

impl fmt::Display for Refusal {
    fn fmt(&self, f: &mut fmt::Formatter) -> fmt::Result {
        write!(f, "refusal {}: ", self.number())?;
        match self {
            Refusal::ImageSize => {
                write!(f, "the bit length is above {MAX_BITS} or above 8 times the image's bytes")
            }
            Refusal::OptionRange => write!(f, "an option is outside its range"),
            Refusal::SpanRange(MAX_SPANS) => {
                write!(f, "there are more than {MAX_SPANS} spans, or their lists differ in length")
            }
            Refusal::SpanRange(place) => {
                write!(f, "the offset and the size of span {place} add to more than {MAX_BITS}")
            }
            Refusal::EmptyImage => write!(f, "the image has no bits"),
            Refusal::AddressRange => write!(f, "the address of a record is above 65535"),
            Refusal::SourceText => {
                write!(f, "a source text has more than 1048576 bytes or is not ASCII")
            }
            Refusal::SpanFault(place) => {
                write!(f, "span {place} has no place in a source text, or a size but no offset")
            }
            Refusal::NoRoom(needed) => {
                write!(f, "the text needs {needed} bytes, more than the output buffer has")
            }
        }
    }
}

impl Error for Refusal {}
