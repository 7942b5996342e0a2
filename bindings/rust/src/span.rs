//! A part of a source text.

/// A part of a source text: the file that it is in, and its first byte and the one behind its last.
/// Customasm's `diagn::Span`.
#[derive(Clone, Copy, Debug, Eq, Hash, PartialEq)]
pub struct Span {
    /// The source text: 0 is the firmware's, 1 the protocol's.
    pub file_handle: usize,
    location: (usize, usize),
}

impl Span {
    /// The bytes `start` to `end - 1` of a source text.
    pub fn new(file_handle: usize, start: usize, end: usize) -> Span {
        Span { file_handle, location: (start, end) }
    }

    /// A span with no location, for an export that shows no source text.
    pub fn new_dummy() -> Span {
        Span::new(0, usize::MAX, usize::MAX)
    }

    /// The start and the end, or nothing where the start is `usize::MAX`.
    pub fn location(&self) -> Option<(usize, usize)> {
        (self.location.0 != usize::MAX).then_some(self.location)
    }
}
