//! The image: its bits, and the spans that say where they come from.

use crate::slices::{self, ABSENT};
use crate::{Refusal, Span, MAX_BITS};

/// An image of bits with its spans. It stands for customasm's `util::BitVec`; the README says what
/// of that is left out.
///
/// An image may grow past [`MAX_BITS`], where every export refuses it ([`Refusal::ImageSize`]). Its
/// length is then still counted, but bits from there on are not kept and read as zero, so that no
/// write takes more than 2 MiB.
///
/// ```
/// use riceshoal::BitVec;
///
/// let mut bitvec = BitVec::new();
/// for (index, bit) in [true, false, true, true, false].into_iter().enumerate() {
///     bitvec.write_bit(index, bit);
/// }
/// assert_eq!(bitvec.format_binstr()?, "10110");
/// assert_eq!(bitvec.format_hexstr()?, "b0");
/// # Ok::<(), riceshoal::Refusal>(())
/// ```
#[derive(Clone, Debug, Default)]
pub struct BitVec {
    /// The bits below `MAX_BITS`, bit 0 the top bit of byte 0. Those at or past `len` are zero.
    data: Vec<u8>,
    len: usize,
    /// The spans, in the order in which they were marked.
    pub spans: Vec<BitVecSpan>,
}

/// Some bits of an image, and where they come from.
#[derive(Clone, Copy, Debug, Eq, PartialEq)]
pub struct BitVecSpan {
    /// The logical address, which the listing shows. A `BigInt` in customasm.
    pub addr: u64,
    /// The first bit, or none: HEX then skips the span.
    pub offset: Option<usize>,
    /// The number of bits.
    pub size: usize,
    /// The part of a source text, which the listing shows.
    pub span: Span,
}

impl BitVec {
    /// An image of no bits.
    pub fn new() -> BitVec {
        BitVec::default()
    }

    /// The image of the first `bits` bits of some bytes, with no spans. Refusal 1 where these are
    /// more than [`MAX_BITS`] or than the bytes have. Customasm has no such function.
    pub fn from_bytes(image: &[u8], bits: usize) -> Result<BitVec, Refusal> {
        let mut data = vec![0; bits.div_ceil(8).min(image.len())];
        slices::format_binary(image, bits, &mut data)?;
        Ok(BitVec { data, len: bits, spans: Vec::new() })
    }

    /// Whether a bit is before the image's end.
    pub fn is_in_bounds(&self, index: usize) -> bool {
        index < self.len
    }

    /// Writes a bit. Where it is past the end, the image grows to it, with zeros between.
    pub fn write_bit(&mut self, index: usize, value: bool) {
        self.len = self.len.max(index.saturating_add(1));
        self.data.resize(self.len.min(MAX_BITS).div_ceil(8), 0);
        if let Some(byte) = self.data.get_mut(index / 8) {
            let mask = 0x80 >> (index % 8);
            *byte = if value { *byte | mask } else { *byte & !mask };
        }
    }

    /// A bit of the image. Past the end all are zero.
    pub fn read_bit(&self, index: usize) -> bool {
        self.data.get(index / 8).is_some_and(|byte| byte & (0x80 >> (index % 8)) != 0)
    }

    /// The number of bits.
    pub fn len(&self) -> usize {
        self.len
    }

    /// Whether there are no bits.
    pub fn is_empty(&self) -> bool {
        self.len == 0
    }

    /// Adds a span at the end of the list. Any numbers are taken here: those that are outside their
    /// range are refused by the exports that use them.
    pub fn mark_span(&mut self, offset: Option<usize>, size: usize, addr: u64, span: Span) {
        self.spans.push(BitVecSpan { addr, offset, size, span });
    }

    /// The bytes as the library takes them.
    pub(crate) fn data(&self) -> &[u8] {
        &self.data
    }

    /// One number of each span.
    pub(crate) fn column<T>(&self, number: fn(&BitVecSpan) -> T) -> Vec<T> {
        self.spans.iter().map(number).collect()
    }
}

/// The numbers of a span as the library takes them. A number that has no place in the smaller type
/// becomes one that is refused like it.
impl BitVecSpan {
    /// A present offset is never the number of an absent one: 4294967294 is too large as well.
    pub(crate) fn offset_number(&self) -> u32 {
        self.offset.map_or(ABSENT, |offset| offset.min(ABSENT as usize - 1) as u32)
    }

    pub(crate) fn size_number(&self) -> u32 {
        self.size.min(u32::MAX as usize) as u32
    }

    /// All files above 1 are refused alike.
    pub(crate) fn file_number(&self) -> u8 {
        self.span.file_handle.min(u8::MAX as usize) as u8
    }

    /// No location has the largest number as its start, in customasm and in the library.
    pub(crate) fn start_number(&self) -> u64 {
        self.span.location().map_or(u64::MAX, |(start, _)| start as u64)
    }

    pub(crate) fn end_number(&self) -> u64 {
        self.span.location().map_or(u64::MAX, |(_, end)| end as u64)
    }
}
