//! Images, as both ways of calling take them.

use crate::rng::Rng;
use riceshoal::{BitVec, BitVecSpan, Span};

/// An image with its spans: bytes and a bit length for the slices, from which a `BitVec` is made.
#[derive(Clone, Debug)]
pub struct Image {
    pub bytes: Vec<u8>,
    pub bits: usize,
    pub spans: Vec<BitVecSpan>,
}

impl Image {
    pub fn new(bytes: &[u8], bits: usize) -> Image {
        Image { bytes: bytes.to_vec(), bits, spans: Vec::new() }
    }

    pub fn empty() -> Image {
        Image::new(&[], 0)
    }

    /// A random image. What its last byte holds past the last bit is random too.
    pub fn random(rng: &mut Rng, bits: usize) -> Image {
        let bytes = rng.bytes(bits.div_ceil(8));
        Image::new(&bytes, bits)
    }

    /// The same with one more span, which has no location.
    pub fn span(self, offset: impl Into<Option<usize>>, size: usize) -> Image {
        self.located(offset, size, 0, Span::new_dummy())
    }

    /// The same with one more span.
    pub fn located(
        mut self,
        offset: impl Into<Option<usize>>,
        size: usize,
        addr: u64,
        span: Span,
    ) -> Image {
        self.spans.push(BitVecSpan { addr, offset: offset.into(), size, span });
        self
    }

    pub fn bit(&self, index: usize) -> bool {
        index < self.bits && self.bytes[index / 8] << (index % 8) & 0x80 != 0
    }

    /// The image written bit by bit, as a user of customasm does it.
    pub fn bitvec(&self) -> BitVec {
        let mut bitvec = BitVec::new();
        for index in 0..self.bits {
            bitvec.write_bit(index, self.bit(index));
        }
        for &BitVecSpan { addr, offset, size, span } in &self.spans {
            bitvec.mark_span(offset, size, addr, span);
        }
        bitvec
    }
}
