//! format_readmemb and format_readmemh.

use crate::capi::{self, Answer};
use crate::check::{Exporter, Exporters, Family, Text};
use crate::options::far;
use reference::util::{BitVec, FormatReadMemOptions};

/// One of the two formats, in our library and in the Rust.
struct ReadMem {
    name: &'static str,
    width: usize,
    ours: fn(&[u8], usize, usize, &mut [u8]) -> Answer,
    rust: fn(&BitVec, &FormatReadMemOptions) -> String,
}

impl Exporter for ReadMem {
    fn name(&self) -> String {
        format!("{} with width {}", self.name, self.width)
    }

    fn line(&self) -> usize {
        self.width
    }

    fn options_fit(&self) -> bool {
        (1..=4096).contains(&self.width)
    }

    fn ours(&self, image: &[u8], bits: usize, out: &mut [u8]) -> Answer {
        (self.ours)(image, bits, self.width, out)
    }

    fn rust(&self, image: &BitVec) -> Text {
        (self.rust)(image, &FormatReadMemOptions { width: self.width }).into()
    }
}

fn readmemb(width: usize) -> Box<dyn Exporter> {
    let (ours, rust) = (capi::format_readmemb, BitVec::format_readmemb);
    Box::new(ReadMem { name: "format_readmemb", width, ours, rust })
}

fn readmemh(width: usize) -> Box<dyn Exporter> {
    let (ours, rust) = (capi::format_readmemh, BitVec::format_readmemh);
    Box::new(ReadMem { name: "format_readmemh", width, ours, rust })
}

/// Both formats at each of the widths.
fn both(widths: impl IntoIterator<Item = usize>) -> Exporters {
    widths.into_iter().flat_map(|width| [readmemb(width), readmemh(width)]).collect()
}

pub fn family() -> Family {
    let wide = [127, 128, 129, 255, 256, 257, 1000, 4095, 4096];
    let near = [0, 4097, 4098, 8192, 65_535, 65_537];
    Family {
        small: both((1..=13).chain([64, 4096])),
        middle: both((1..=64).chain(wide)),
        sparse: vec![],
        large: both([1, 3, 8, 32, 4095, 4096]),
        unfit: both(near.into_iter().chain(far(8))),
    }
}
