//! format_mif and format_logisim.

use crate::capi::{self, Answer};
use crate::check::{Exporter, Exporters, Family, Text};
use crate::options::far;
use reference::util::BitVec;

struct Mif;

impl Exporter for Mif {
    fn name(&self) -> String {
        "format_mif".to_string()
    }

    fn line(&self) -> usize {
        8
    }

    fn options_fit(&self) -> bool {
        true
    }

    fn needs_bits(&self) -> bool {
        true
    }

    fn ours(&self, image: &[u8], bits: usize, out: &mut [u8]) -> Answer {
        capi::format_mif(image, bits, out)
    }

    fn rust(&self, image: &BitVec) -> Text {
        image.format_mif().into()
    }
}

struct Logisim {
    bits_per_chunk: usize,
}

impl Exporter for Logisim {
    fn name(&self) -> String {
        format!("format_logisim with {} bits per chunk", self.bits_per_chunk)
    }

    fn line(&self) -> usize {
        self.bits_per_chunk
    }

    fn options_fit(&self) -> bool {
        (1..=4096).contains(&self.bits_per_chunk)
    }

    fn ours(&self, image: &[u8], bits: usize, out: &mut [u8]) -> Answer {
        capi::format_logisim(image, bits, self.bits_per_chunk, out)
    }

    fn rust(&self, image: &BitVec) -> Text {
        image.format_logisim(self.bits_per_chunk).into()
    }
}

fn logisim(bits_per_chunk: usize) -> Box<dyn Exporter> {
    Box::new(Logisim { bits_per_chunk })
}

/// Logisim at each of the chunks, and MIF.
fn with_mif(chunks: impl IntoIterator<Item = usize>) -> Exporters {
    let mut all: Exporters = vec![Box::new(Mif)];
    all.extend(chunks.into_iter().map(logisim));
    all
}

pub fn family() -> Family {
    let wide = [24, 31, 32, 33, 63, 64, 65, 120, 127, 128, 129, 136, 256, 1000, 4095, 4096];
    let near = [0, 4097, 4098, 4100, 4104, 8192, 65_535];
    Family {
        small: with_mif((1..=9).chain([12, 13, 4096])),
        middle: with_mif((1..=17).chain(wide)),
        sparse: (18..=272).chain([511, 512, 513, 1024, 2048, 3000]).map(logisim).collect(),
        large: with_mif([1, 4095]),
        unfit: near.into_iter().chain(far(8)).map(logisim).collect(),
    }
}
