//! format_dump.

use crate::capi::{self, Answer};
use crate::check::{Exporter, Exporters, Family, Text};
use crate::options::far;
use reference::util::BitVec;

/// Our format_dump beside one of three functions of the Rust.
struct Dump {
    /// The bits of a digit, the bits of a byte, the bytes on a line.
    numbers: [usize; 3],
    rust_name: &'static str,
    rust: fn(&BitVec, [usize; 3]) -> String,
}

impl Exporter for Dump {
    fn name(&self) -> String {
        format!("format_dump with {:?} ({})", self.numbers, self.rust_name)
    }

    fn line(&self) -> usize {
        self.numbers[1] * self.numbers[2]
    }

    fn options_fit(&self) -> bool {
        let [digit, byte, bytes] = self.numbers;
        [1, 4].contains(&digit) && byte == 8 && (1..=64).contains(&bytes)
    }

    fn ours(&self, image: &[u8], bits: usize, out: &mut [u8]) -> Answer {
        capi::format_dump(image, bits, self.numbers, out)
    }

    fn rust(&self, image: &BitVec) -> Text {
        (self.rust)(image, self.numbers).into()
    }
}

fn dump(numbers: [usize; 3]) -> Box<dyn Exporter> {
    let rust =
        |image: &BitVec, [digit, byte, bytes]: [usize; 3]| image.format_dump(digit, byte, bytes);
    Box::new(Dump { numbers, rust_name: "the Rust's format_dump", rust })
}

fn bindump() -> Box<dyn Exporter> {
    let rust = |image: &BitVec, _| image.format_bindump();
    Box::new(Dump { numbers: [1, 8, 8], rust_name: "the Rust's format_bindump", rust })
}

fn hexdump() -> Box<dyn Exporter> {
    let rust = |image: &BitVec, _| image.format_hexdump();
    Box::new(Dump { numbers: [4, 8, 16], rust_name: "the Rust's format_hexdump", rust })
}

/// Both digits with each of the bytes per line.
fn both(bytes_per_line: impl IntoIterator<Item = usize>) -> Exporters {
    bytes_per_line
        .into_iter()
        .flat_map(|bytes| [1, 4].map(|digit| dump([digit, 8, bytes])))
        .collect()
}

/// The two presets and some more.
fn with_presets(others: impl IntoIterator<Item = [usize; 3]>) -> Exporters {
    let mut all = vec![bindump(), hexdump()];
    all.extend(others.into_iter().map(dump));
    all
}

pub fn family() -> Family {
    let digits = [0, 2, 3, 5, 6, 7, 8, 16, 255, 256, 257, 260].into_iter().chain(far(4));
    let bytes = [0, 1, 4, 7, 9, 10, 16, 32, 64, 256, 264].into_iter().chain(far(8));
    let lines = [0, 65, 66, 127, 128, 255, 256, 257, 272].into_iter().chain(far(16));
    let unfit = digits
        .map(|digit| [digit, 8, 16])
        .chain(bytes.map(|byte| [4, byte, 16]))
        .chain(lines.map(|line| [1, 8, line]))
        .chain([[0, 0, 0]]);
    Family {
        small: with_presets([[1, 8, 1], [4, 8, 1], [4, 8, 2], [1, 8, 5], [4, 8, 64]]),
        middle: with_presets((1..=64).map(|bytes| [[1, 4][bytes % 2], 8, bytes])),
        sparse: both(1..=64),
        large: with_presets([]),
        unfit: unfit.map(dump).collect(),
    }
}
