//! A sample of the Rust's answers as rows of text, for a test that cannot run the Rust.

use crate::input::{hex, Image, Rng, RANDOM, SEED};
use crate::listing::{self, Listing};
use crate::options::{
    self, group_bits, list_numbers, list_strings, string, BASES, LINE, LONGEST, RADIXES,
};
use crate::spans::{self, too_high, Spans, ABSENT};
use reference::diagn::Report;
use reference::util::{BitVec, FormatReadMemOptions};
use std::io::{self, Write};

const HEAD: &str = "\
# Answers of the Rust of customasm (util/bitvec_format.rs), made by tests/compare/run --vectors.
# examples.txt says what a row holds. An image has at most 64 bytes, and what stands past its last bit
# is random; a text has at most 4,000 bytes.
";

/// The most bytes of an image and of a text; the program that runs the rows has room for no longer one.
const IMAGE: usize = 64;
const TEXT: usize = 4000;
/// The most spans of HEX and of a listing.
const SPANS: usize = 32;
const LISTED: usize = 9;

const WIDTHS: [usize; 30] = [
    1, 2, 3, 4, 5, 6, 7, 8, 9, 10, 11, 12, 13, 15, 16, 17, 20, 24, 31, 32, 33, 48, 63, 64, 65, 100,
    127, 128, 257, 4096,
];

/// The options, strings and spans of a call, and the bits of one line or digit. A listing has all but
/// the last in itself.
#[derive(Default)]
struct Call {
    numbers: [usize; 3],
    strings: [String; 4],
    spans: Spans,
    listing: Listing,
    line: usize,
}

/// Lengths of images that are tried, the least one first; the others are random.
const LENGTHS: &[usize] =
    &[0, 1, 7, 8, 9, 127, 128, 129, 135, 136, 137, 255, 256, 257, 500, 510, 511, 512];
/// The same without 0.
const NOT_EMPTY: &[usize] = LENGTHS.split_at(1).1;
/// The least one alone.
const LEAST: &[usize] = &[0];

/// A kind of rows.
struct Kind {
    name: &'static str,
    lengths: &'static [usize],
    rust: fn(&BitVec, &Call) -> Vec<u8>,
}

struct Record {
    rng: Rng,
    text: String,
}

pub fn print() -> io::Result<()> {
    let mut record = Record { rng: Rng::new(SEED), text: HEAD.to_string() };
    plain(&mut record);
    readmem(&mut record);
    list(&mut record);
    memory(&mut record);
    dump(&mut record);
    intelhex(&mut record);
    annotated(&mut record);
    io::stdout().lock().write_all(record.text.as_bytes())
}

fn plain(record: &mut Record) {
    let rust = |image: &BitVec, _: &Call| image.format_binary(&mut Report::new());
    record.rows(Kind { name: "binary", lengths: LEAST, rust }, &numbers(&[0]), 200);
    let rust = |image: &BitVec, call: &Call| image.format_str(call.numbers[0]).into();
    record.rows(Kind { name: "str", lengths: LEAST, rust }, &numbers(&[1, 2, 3, 4, 5]), 50);
}

fn readmem(record: &mut Record) {
    fn width(call: &Call) -> FormatReadMemOptions {
        FormatReadMemOptions { width: call.numbers[0] }
    }
    let rust = |image: &BitVec, call: &Call| image.format_readmemb(&width(call)).into();
    record.rows(Kind { name: "readmemb", lengths: LEAST, rust }, &numbers(&WIDTHS), 6);
    let rust = |image: &BitVec, call: &Call| image.format_readmemh(&width(call)).into();
    record.rows(Kind { name: "readmemh", lengths: LEAST, rust }, &numbers(&WIDTHS), 8);
}

fn list(record: &mut Record) {
    let rust = |image: &BitVec, call: &Call| {
        image.format_separator(call.numbers[0], &call.strings[0]).into()
    };
    let calls = separators(&mut record.rng);
    record.rows(Kind { name: "separator", lengths: LENGTHS, rust }, &calls, 1);

    let rust = |image: &BitVec, call: &Call| image.format_c_array(call.numbers[0]).into();
    let calls = RADIXES.map(|radix| Call { line: LINE, ..number(radix) });
    record.rows(Kind { name: "c_array", lengths: NOT_EMPTY, rust }, &calls, 80);

    let rust = |image: &BitVec, call: &Call| {
        image.format_list(&options::list(call.numbers, &call.strings)).into()
    };
    let calls = lists(&mut record.rng);
    record.rows(Kind { name: "list", lengths: LENGTHS, rust }, &calls, 1);
}

fn memory(record: &mut Record) {
    let rust = |image: &BitVec, _: &Call| image.format_mif().into();
    record.rows(Kind { name: "mif", lengths: NOT_EMPTY, rust }, &numbers(&[0]), 150);
    let rust = |image: &BitVec, call: &Call| image.format_logisim(call.numbers[0]).into();
    record.rows(Kind { name: "logisim", lengths: LENGTHS, rust }, &numbers(&WIDTHS), 6);
}

fn dump(record: &mut Record) {
    let rust = |image: &BitVec, call: &Call| {
        let [digit, byte, bytes] = call.numbers;
        image.format_dump(digit, byte, bytes).into()
    };
    let calls: Vec<Call> = (0..160).map(dump_call).collect();
    record.rows(Kind { name: "dump", lengths: LENGTHS, rust }, &calls, 1);
}

fn intelhex(record: &mut Record) {
    let rust = |image: &BitVec, call: &Call| {
        call.spans.rust(image).format_intelhex(call.numbers[0]).into()
    };
    let calls = span_lists(&mut record.rng);
    record.rows(Kind { name: "intelhex", lengths: LENGTHS, rust }, &calls, 1);
}

fn annotated(record: &mut Record) {
    let rust = |image: &BitVec, call: &Call| call.listing.rust(image).into();
    // A seed of its own: the lines do not depend on those before them.
    record.rng = Rng::new(SEED + 2);
    let calls = listings(&mut record.rng);
    record.rows(Kind { name: "annotated", lengths: LENGTHS, rust }, &calls, 1);
}

/// All bytes per line with one of the digits, then few with both.
fn dump_call(k: usize) -> Call {
    let bytes = if k < 64 { 1 + k } else { 1 + k / 2 % 16 };
    Call { numbers: [[1, 4][k % 2], 8, bytes], line: 8 * bytes, ..Call::default() }
}

fn number(option: usize) -> Call {
    Call { numbers: [option, 0, 0], line: option, ..Call::default() }
}

fn numbers(options: &[usize]) -> Vec<Call> {
    options.iter().map(|&option| number(option)).collect()
}

fn separators(rng: &mut Rng) -> Vec<Call> {
    let short = (0..170).map(|k| [0, 1, 1, 2, 2, 3, 9][k % 7]);
    let lens = short.chain([100, LONGEST - 1, LONGEST, LONGEST]);
    let calls = lens.enumerate().map(|(k, len)| {
        let mut call = Call { line: LINE, ..number(RADIXES[k % 2]) };
        call.strings[0] = string(rng, len);
        call
    });
    calls.collect()
}

/// Lists with every number of digits in a group, then with few, then with long strings.
fn lists(rng: &mut Rng) -> Vec<Call> {
    let mut calls = Vec::new();
    for k in 0..190 {
        let digits = if k < 64 { 1 + k } else { 1 + k % 6 };
        let numbers = list_numbers(k, digits);
        let strings = list_strings(rng, numbers);
        calls.push(Call { numbers, strings, line: group_bits(numbers), ..Call::default() });
    }
    for k in 0..5 {
        let mut call = Call { numbers: [16, 2, 2], line: 8, ..Call::default() };
        for (place, text) in call.strings.iter_mut().enumerate() {
            *text = string(rng, if k == place || k == 4 { LONGEST } else { 1 });
        }
        calls.push(call);
    }
    calls
}

/// Lists of spans with every unit, mostly short ones; some have the most spans, and in some a span is
/// far from the others. None is refused.
fn span_lists(rng: &mut Rng) -> Vec<Call> {
    let mut calls = Vec::new();
    while calls.len() < 250 {
        let k = calls.len();
        let unit = 1 + k % 64;
        let (count, most) = match k {
            0 | 1 => (0, 400),
            _ if k % 25 == 24 => (SPANS, 1200),
            _ => (1 + k % 6, 400),
        };
        let mut spans = spans::random(rng, count);
        if k % 8 == 5 && spans.offsets[0] != ABSENT {
            spans.offsets[0] += rng.below(too_high(unit) as usize) as u32;
        }
        if spans.refusal(unit).is_none() && spans.text_len() <= most {
            calls.push(Call { line: spans.extent(), spans, ..number(unit) });
        }
    }
    calls
}

/// Lists of spans with every address base, mostly of few spans; some have the most. None is refused,
/// and no place in a text is longer than ten digits.
fn listings(rng: &mut Rng) -> Vec<Call> {
    let mut calls = Vec::new();
    while calls.len() < 100 {
        let k = calls.len();
        let (count, most) = match k {
            0 | 1 => (0, 60),
            _ if k % 40 == 39 => (LISTED, 600),
            _ => (1 + k % 3, 90 + 40 * (k % 3) as u64),
        };
        let group = [1, 2, 3, 4, 8, 64][rng.below(6)];
        let numbers = [BASES[k % 5], [16, 2 + k % 35][k % 2], group];
        let listing = listing::random(rng, count, numbers, (k / 2 % 2) as u8);
        let texts = listing.texts.iter().map(|text| text.len()).sum::<usize>();
        let places = listing.columns.starts.iter().chain(&listing.columns.ends);
        let held = places.into_iter().all(|&place| place <= u32::MAX.into());
        let short = listing.text_len() <= most && texts <= 40;
        if held && short {
            let line = listing.columns.spans.extent().min(299);
            calls.push(Call { numbers, listing, line, ..Call::default() });
        }
    }
    calls
}

/// Bytes in quotes.
fn quoted(bytes: &[u8]) -> String {
    let chars = bytes.iter().map(|&byte| match byte {
        b'\n' => "\\n".to_string(),
        b'\t' => "\\t".to_string(),
        b'\\' => "\\\\".to_string(),
        b'"' | ..=0x1f | 0x7f.. => format!("\\x{byte:02x}"),
        _ => char::from(byte).to_string(),
    });
    format!("\"{}\"", chars.collect::<String>())
}

/// The offset and the size of a span.
fn span(offset: u32, size: u32) -> String {
    if offset == ABSENT {
        format!("-,{size}")
    } else {
        format!("{offset},{size}")
    }
}

/// The words of a row that come first: its numbers.
fn number_words(name: &str, call: &Call) -> String {
    let keys: &[&str] = match name {
        "str" => &["bits_per_digit"],
        "readmemb" | "readmemh" => &["width"],
        "separator" | "c_array" => &["radix"],
        "list" => &["base", "digits_per_group", "groups_per_group2"],
        "logisim" => &["bits_per_chunk"],
        "dump" => &["digit_bits", "byte_bits", "bytes_per_line"],
        "intelhex" => &["address_unit"],
        "annotated" => &["base", "addr_base", "digits_per_group", "display_labels"],
        _ => &[],
    };
    let numbers = call.numbers.into_iter().chain([call.listing.labels.into()]);
    keys.iter().zip(numbers).map(|(key, number)| format!(" {key}={number}")).collect()
}

/// The words of a row between its numbers and its image.
fn string_words(name: &str, call: &Call) -> String {
    let keys: &[&str] = match name {
        "separator" => &["separator"],
        "list" => &["before", "after", "between", "between2"],
        _ => &[],
    };
    let words = keys.iter().zip(&call.strings);
    words.map(|(key, text)| format!(" {key}={}", quoted(text.as_bytes()))).collect()
}

/// The words of a row between its image and its text.
fn span_words(name: &str, call: &Call) -> String {
    let rows: String = match name {
        "intelhex" => {
            call.spans.rows().map(|(offset, size)| format!("({})", span(offset, size))).collect()
        }
        "annotated" => {
            let rows = call.listing.columns.rows();
            rows.map(|row| {
                let span = span(row.offset, row.size);
                format!("({span},{},{},{},{})", row.addr, row.file, row.start, row.end)
            })
            .collect()
        }
        _ => return String::new(),
    };
    let rows = if rows.is_empty() { "-" } else { &rows };
    if name == "intelhex" {
        return format!(" spans={rows}");
    }
    let [firmware, protocol] = call.listing.texts.each_ref().map(|text| quoted(text));
    format!(" spans={rows} firmware={firmware} protocol={protocol}")
}

impl Record {
    /// `count` rows of a kind for each of the calls.
    fn rows(&mut self, kind: Kind, calls: &[Call], count: usize) {
        let name = kind.name;
        for (place, call) in calls.iter().enumerate() {
            for n in place * count..(place + 1) * count {
                let bits = length(&mut self.rng, n, call, kind.lengths);
                let image = Image::random(&mut self.rng, bits);
                let lent = image.lend(&mut self.rng, RANDOM, 0);
                let text = (kind.rust)(&image.rust, call);
                assert!(lent.len() <= IMAGE && text.len() <= TEXT);
                let options = number_words(name, call) + &string_words(name, call);
                let (image, spans) = (hex(&lent), span_words(name, call));
                let text = if name == "binary" { hex(&text) } else { quoted(&text) };
                self.text +=
                    &format!("{name}{options} bits={bits} image={image}{spans} text={text}\n");
            }
        }
    }
}

/// The length of the n-th image of a kind: the least first, now and then another of `lengths`, short
/// and long ones mixed, else around the ends of bytes and lines, or any.
fn length(rng: &mut Rng, n: usize, call: &Call, lengths: &[usize]) -> usize {
    let most = match n {
        0 => return lengths[0],
        _ if call.strings.iter().any(|text| text.len() > 16) => return 33 + rng.below(24),
        _ if n % 5 == 4 && lengths.len() > 1 => return lengths[(5 * n + 8) % lengths.len()],
        _ if n % 10 == 9 => 299,
        _ => 120,
    };
    let unit = [8, call.line.clamp(1, 299), 1][n % 3];
    let end = unit * (1 + rng.below((most / unit).max(1)));
    (end - 1 + rng.below(3)).max(lengths[0])
}
