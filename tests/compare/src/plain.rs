//! format_binary and format_str.

use crate::capi::{self, Answer};
use crate::check::{Exporter, Exporters, Family, Text};
use crate::options::far;
use reference::diagn::Report;
use reference::util::BitVec;

struct Binary;

impl Exporter for Binary {
    fn name(&self) -> String {
        "format_binary".to_string()
    }

    fn line(&self) -> usize {
        8
    }

    fn options_fit(&self) -> bool {
        true
    }

    fn ours(&self, image: &[u8], bits: usize, out: &mut [u8]) -> Answer {
        capi::format_binary(image, bits, out)
    }

    fn rust(&self, image: &BitVec) -> Text {
        let mut report = Report::new();
        let bytes = image.format_binary(&mut report);
        Text { bytes, padded: report.has_messages() as u8 }
    }
}

/// Our format_str beside one of three functions of the Rust.
struct Str {
    bits_per_digit: usize,
    rust_name: &'static str,
    rust: fn(&BitVec, usize) -> String,
}

impl Exporter for Str {
    fn name(&self) -> String {
        format!("format_str with {} bits per digit ({})", self.bits_per_digit, self.rust_name)
    }

    fn line(&self) -> usize {
        self.bits_per_digit
    }

    fn options_fit(&self) -> bool {
        (1..=5).contains(&self.bits_per_digit)
    }

    fn ours(&self, image: &[u8], bits: usize, out: &mut [u8]) -> Answer {
        capi::format_str(image, bits, self.bits_per_digit, out)
    }

    fn rust(&self, image: &BitVec) -> Text {
        (self.rust)(image, self.bits_per_digit).into()
    }
}

fn format_str(bits_per_digit: usize) -> Box<dyn Exporter> {
    Box::new(Str { bits_per_digit, rust_name: "the Rust's format_str", rust: BitVec::format_str })
}

fn binstr() -> Box<dyn Exporter> {
    let rust = |image: &BitVec, _| image.format_binstr();
    Box::new(Str { bits_per_digit: 1, rust_name: "the Rust's format_binstr", rust })
}

fn hexstr() -> Box<dyn Exporter> {
    let rust = |image: &BitVec, _| image.format_hexstr();
    Box::new(Str { bits_per_digit: 4, rust_name: "the Rust's format_hexstr", rust })
}

fn every() -> Exporters {
    let mut all: Exporters = vec![Box::new(Binary), binstr(), hexstr()];
    all.extend((1..=5).map(format_str));
    all
}

pub fn family() -> Family {
    let near = [0, 6, 7, 8, 9, 64, 255, 256, 257, 260];
    let unfit = near.into_iter().chain(far(4)).map(format_str).collect();
    Family { small: every(), middle: every(), sparse: vec![], large: every(), unfit }
}
