//! The exporters that are measured, with their options, in the library and in the Rust.

use crate::listing::Listing;
use crate::options;
use crate::spans::Spans;
use reference::diagn::Report;
use reference::util::{self, BitVec, FileServerMock, FormatReadMemOptions};
use riceshoal::slices::{self, ListOptions, ListingColumns};
use riceshoal::{FormatAnnotatedOptions, Refusal, SourceTexts};

/// The length of the library's text, or why there is none.
pub type Answer = Result<usize, Refusal>;
/// Is lent the image, its bits and the output buffer.
type Ours = Box<dyn Fn(&[u8], usize, &mut [u8]) -> Answer>;
/// Is lent the image with its spans.
type Rust = Box<dyn Fn(&BitVec) -> Vec<u8>>;

/// An exporter with its options.
pub struct Exporter {
    pub name: String,
    /// How many times as fast as the Rust it should be.
    pub target: Option<f64>,
    pub ours: Ours,
    pub rust: Rust,
}

impl Exporter {
    fn new(
        name: impl Into<String>,
        target: impl Into<Option<f64>>,
        ours: impl Fn(&[u8], usize, &mut [u8]) -> Answer + 'static,
        rust: impl Fn(&BitVec) -> Vec<u8> + 'static,
    ) -> Exporter {
        let (name, target) = (name.into(), target.into());
        Exporter { name, target, ours: Box::new(ours), rust: Box::new(rust) }
    }
}

/// The floor of Intel HEX of spans in order.
pub const HEX: f64 = 30.0;
/// The floor of Intel HEX of spans in any other order.
pub const UNORDERED: f64 = 2.0;
/// The floor of what is exported every day: the binary file, hexadecimal digits, MIF, the memory files of 8,
/// 16 and 32 bits, the array of C, the separator list, the list in base 16, the hexdump and the listing.
pub const DAILY: f64 = 6.0;
/// The floor of every other row.
const OTHERS: f64 = 1.2;

/// The exporters that take no spans.
pub fn without_spans() -> Vec<Exporter> {
    let mut all = vec![binary()];
    all.extend([1, 4, 3, 5].map(str));
    all.extend([8, 32].map(readmemb));
    all.extend([8, 16, 32].map(readmemh));
    all.extend([10, 16].map(separator));
    all.extend([10, 16].map(c_array));
    all.extend([[16, 2, 16], [2, 8, 16]].map(list));
    all.push(mif());
    all.extend([8, 16, 1].map(logisim));
    all.extend([dump("bindump", [1, 8, 8]), dump("hexdump", [4, 8, 16])]);
    all
}

/// Exporters with options that make short lines, chunks or groups, or of no whole bytes.
pub fn with_short_parts() -> Vec<Exporter> {
    let mut all = vec![str(2)];
    all.extend([1, 3, 12].map(readmemb));
    all.extend([1, 4, 5, 12].map(readmemh));
    all.extend([[16, 1, 16], [2, 1, 16], [8, 3, 8], [32, 2, 8]].map(list));
    all.extend([2, 4, 12].map(logisim));
    all.push(dump("dump, 4 bits a digit, 1 byte a line", [4, 8, 1]));
    all.into_iter().map(|exporter| Exporter { target: Some(OTHERS), ..exporter }).collect()
}

fn binary() -> Exporter {
    Exporter::new(
        "binary",
        DAILY,
        |image, bits, out| slices::format_binary(image, bits, out).map(|binary| binary.len),
        |image| image.format_binary(&mut Report::new()),
    )
}

fn str(digit: usize) -> Exporter {
    let name = match digit {
        1 => "binstr".to_string(),
        4 => "hexstr".to_string(),
        _ => format!("str, {digit} bits a digit"),
    };
    Exporter::new(
        name,
        if digit == 4 { DAILY } else { OTHERS },
        move |image, bits, out| slices::format_str(image, bits, digit, out),
        move |image| image.format_str(digit).into_bytes(),
    )
}

fn readmemb(width: usize) -> Exporter {
    Exporter::new(
        format!("readmemb, width {width}"),
        DAILY,
        move |image, bits, out| slices::format_readmemb(image, bits, width, out),
        move |image| image.format_readmemb(&FormatReadMemOptions { width }).into_bytes(),
    )
}

fn readmemh(width: usize) -> Exporter {
    Exporter::new(
        format!("readmemh, width {width}"),
        DAILY,
        move |image, bits, out| slices::format_readmemh(image, bits, width, out),
        move |image| image.format_readmemh(&FormatReadMemOptions { width }).into_bytes(),
    )
}

fn separator(radix: usize) -> Exporter {
    Exporter::new(
        format!("separator, radix {radix}"),
        DAILY,
        move |image, bits, out| slices::format_separator(image, bits, radix, b", ", out),
        move |image| image.format_separator(radix, ", ").into_bytes(),
    )
}

fn c_array(radix: usize) -> Exporter {
    Exporter::new(
        format!("c_array, radix {radix}"),
        DAILY,
        move |image, bits, out| slices::format_c_array(image, bits, radix, out),
        move |image| image.format_c_array(radix).into_bytes(),
    )
}

/// The numbers are the base, the digits per group and the groups per second group.
fn list([base, digits, groups]: [usize; 3]) -> Exporter {
    let strings = ["[", "]", ", ", ",\n"];
    let rust_options = options::list([base, digits, groups], &strings.map(String::from));
    let [before, after, between, between2] = strings.map(str::as_bytes);
    let options = ListOptions {
        base,
        digits_per_group: digits,
        groups_per_group2: groups,
        before,
        after,
        between,
        between2,
    };
    Exporter::new(
        format!("list, base {base}, {digits} digits, {groups} groups"),
        if base == 16 { DAILY } else { OTHERS },
        move |image, bits, out| slices::format_list(image, bits, &options, out),
        move |image| image.format_list(&rust_options).into_bytes(),
    )
}

fn mif() -> Exporter {
    Exporter::new("mif", DAILY, slices::format_mif, |image| image.format_mif().into_bytes())
}

fn logisim(chunk: usize) -> Exporter {
    Exporter::new(
        format!("logisim, chunk {chunk}"),
        OTHERS,
        move |image, bits, out| slices::format_logisim(image, bits, chunk, out),
        move |image| image.format_logisim(chunk).into_bytes(),
    )
}

/// The numbers are the bits of a digit, the bits of a byte and the bytes on a line.
fn dump(name: &str, [digit, byte, bytes]: [usize; 3]) -> Exporter {
    Exporter::new(
        name,
        if digit == 4 { DAILY } else { OTHERS },
        move |image, bits, out| slices::format_dump(image, bits, digit, byte, bytes, out),
        move |image| image.format_dump(digit, byte, bytes).into_bytes(),
    )
}

/// Intel HEX of spans that the Rust's image has too.
pub fn intelhex(name: String, target: Option<f64>, spans: Spans, unit: usize) -> Exporter {
    Exporter::new(
        name,
        target,
        move |image, bits, out| {
            slices::format_intelhex(image, bits, &spans.offsets, &spans.sizes, unit, out)
        },
        move |image| image.format_intelhex(unit).into_bytes(),
    )
}

/// The listing of spans that the Rust's image has too.
pub fn annotated(name: String, target: Option<f64>, listing: Listing) -> Exporter {
    let [base, addr_base, digits_per_group] = listing.numbers;
    let display_labels = listing.labels == 1;
    let options = FormatAnnotatedOptions { base, addr_base, digits_per_group, display_labels };
    let rust_options =
        util::FormatAnnotatedOptions { base, addr_base, digits_per_group, display_labels };
    // The handles are 0 and 1, in the order of the calls.
    let mut files = FileServerMock::new();
    files.add("firmware", listing.texts[0].clone());
    files.add("protocol", listing.texts[1].clone());
    Exporter::new(
        name,
        target,
        move |image, bits, out| {
            let (spans, texts) = lent(&listing);
            slices::format_annotated(image, bits, &spans, &texts, &options, out)
        },
        move |image| image.format_annotated(&files, &rust_options).into_bytes(),
    )
}

/// The spans and the texts of a listing as they are lent.
fn lent(listing: &Listing) -> (ListingColumns<'_>, SourceTexts<'_>) {
    let Listing { columns, texts, .. } = listing;
    let spans = ListingColumns {
        offsets: &columns.spans.offsets,
        sizes: &columns.spans.sizes,
        addrs: &columns.addrs,
        files: &columns.files,
        starts: &columns.starts,
        ends: &columns.ends,
    };
    (spans, SourceTexts { firmware: &texts[0], protocol: &texts[1] })
}
