//! Listings: the spans, the texts and the options of one, for the comparison and for the record.

use crate::input::Rng;
use crate::options::BASES;
use crate::spans::{self, any, copy, Spans, ABSENT, END};
use reference::diagn::Span;
use reference::util::{BigInt, BitVec, FileServerMock, FormatAnnotatedOptions};
use std::rc::Rc;

/// The start that stands for no location.
pub const NOWHERE: u64 = u64::MAX;
/// The most bytes of a source text.
pub const LONGEST: usize = 1_048_576;

/// A span of a listing: bits with an address, and their place in a source text.
#[derive(Clone, Copy, Debug, Default)]
pub struct Row {
    pub offset: u32,
    pub size: u32,
    pub addr: u64,
    pub file: u8,
    pub start: u64,
    pub end: u64,
}

/// The spans as they are lent. Only a list that is to be refused has more than one length.
#[derive(Clone, Default)]
pub struct Columns {
    pub spans: Spans,
    pub addrs: Vec<u64>,
    pub files: Vec<u8>,
    pub starts: Vec<u64>,
    pub ends: Vec<u64>,
}

impl Columns {
    pub fn new(rows: &[Row]) -> Columns {
        let mut columns = Columns::default();
        rows.iter().for_each(|row| columns.push(row));
        columns
    }

    pub fn push(&mut self, row: &Row) {
        self.spans.offsets.push(row.offset);
        self.spans.sizes.push(row.size);
        self.addrs.push(row.addr);
        self.files.push(row.file);
        self.starts.push(row.start);
        self.ends.push(row.end);
    }

    pub fn set(&mut self, place: usize, row: &Row) {
        self.spans.offsets[place] = row.offset;
        self.spans.sizes[place] = row.size;
        self.addrs[place] = row.addr;
        self.files[place] = row.file;
        self.starts[place] = row.start;
        self.ends[place] = row.end;
    }

    /// Cuts or fills one of the six to another length.
    pub fn resize(&mut self, column: usize, len: usize) {
        match column {
            0 => self.spans.offsets.resize(len, 0),
            1 => self.spans.sizes.resize(len, 0),
            2 => self.addrs.resize(len, 0),
            3 => self.files.resize(len, 0),
            4 => self.starts.resize(len, 0),
            _ => self.ends.resize(len, 0),
        }
    }

    pub fn lens(&self) -> [usize; 6] {
        let [offsets, sizes] = [self.spans.offsets.len(), self.spans.sizes.len()];
        [offsets, sizes, self.addrs.len(), self.files.len(), self.starts.len(), self.ends.len()]
    }

    /// The span at a place that all six have.
    pub fn row(&self, place: usize) -> Row {
        Row {
            offset: self.spans.offsets[place],
            size: self.spans.sizes[place],
            addr: self.addrs[place],
            file: self.files[place],
            start: self.starts[place],
            end: self.ends[place],
        }
    }

    pub fn rows(&self) -> impl Iterator<Item = Row> + '_ {
        (0..self.lens().into_iter().min().unwrap()).map(|place| self.row(place))
    }

    /// The number and the value of refusal 3.
    fn unfit(&self) -> Option<(u32, u64)> {
        let lens = self.lens();
        if lens.iter().any(|&len| len != lens[0]) {
            return Some((3, spans::MOST as u64));
        }
        self.spans.unfit()
    }
}

/// All that a listing is made of besides the image.
#[derive(Clone, Default)]
pub struct Listing {
    pub columns: Columns,
    /// The firmware's text and the protocol's.
    pub texts: Rc<[Vec<u8>; 2]>,
    /// The base, the address base, the digits per group.
    pub numbers: [usize; 3],
    /// Whether spans of size 0 are shown.
    pub labels: u8,
}

impl Listing {
    pub fn options_fit(&self) -> bool {
        let [base, addr_base, digits] = self.numbers;
        BASES.contains(&base)
            && (2..=36).contains(&addr_base)
            && (1..=64).contains(&digits)
            && self.labels <= 1
    }

    fn shown(&self, row: &Row) -> bool {
        self.labels == 1 || row.size != 0
    }

    /// Whether a span has a fault that is none where the span is hidden.
    fn faulty(&self, row: &Row) -> bool {
        let Some(text) = self.texts.get(row.file as usize) else { return true };
        let located = row.start != NOWHERE && row.start <= row.end && row.end <= text.len() as u64;
        !located || row.offset == ABSENT && row.size != 0
    }

    /// The number and the value of refusal 3, 6 or 7.
    pub fn refusal(&self) -> Option<(u32, u64)> {
        if let Some(unfit) = self.columns.unfit() {
            return Some(unfit);
        }
        if self.texts.iter().any(|text| text.len() > LONGEST || !text.is_ascii()) {
            return Some((6, 0));
        }
        let bad = self.columns.rows().position(|row| self.shown(&row) && self.faulty(&row));
        bad.map(|place| (7, place as u64))
    }

    /// The Rust's text.
    pub fn rust(&self, image: &BitVec) -> String {
        let mut rust = copy(image);
        for row in self.columns.rows() {
            let offset = (row.offset != ABSENT).then_some(row.offset as usize);
            let span = Span::new(row.file.into(), row.start as usize, row.end as usize);
            rust.mark_span(offset, row.size as usize, BigInt::from(row.addr), span);
        }
        // The handles are 0 and 1, in the order of the calls.
        let mut files = FileServerMock::new();
        files.add("firmware", self.texts[0].clone());
        files.add("protocol", self.texts[1].clone());
        let [base, addr_base, digits_per_group] = self.numbers;
        let display_labels = self.labels == 1;
        let options = FormatAnnotatedOptions { base, addr_base, digits_per_group, display_labels };
        rust.format_annotated(&files, &options)
    }

    /// The digits of a span.
    fn digits(&self, row: &Row) -> u64 {
        u64::from(row.size).div_ceil(self.numbers[0].ilog2().into())
    }

    /// The length of the text where nothing is refused.
    pub fn text_len(&self) -> u64 {
        let [base, radix, group] = self.numbers.map(|number| number as u64);
        let name = if radix == 16 { 4 } else { "addr (base )".len() as u64 + figures(radix, 10) };
        let (mut byte, mut bit, mut addr, mut content) = (2, 1, name, group);
        for row in self.columns.rows().filter(|row| row.offset != ABSENT) {
            byte = byte.max(figures(u64::from(row.offset) / 8, radix));
            bit = bit.max(figures(u64::from(row.offset) % 8, radix));
            addr = addr.max(figures(row.addr, radix));
            // More than five groups do not count.
            let digits = self.digits(&row);
            if (1..=5 * group).contains(&digits) {
                content = content.max(digits + digits / group - 1);
            }
        }
        let head = " : |  |".len() as u64 + byte + bit + addr;
        let title = " data (base )\n\n".len() as u64 + figures(base, 10);
        let line = |row: Row| {
            let digits = self.digits(&row);
            let shown = digits + digits.saturating_sub(1) / group;
            let addr = addr.max(figures(row.addr, radix));
            " : |  |  ; \n".len() as u64 + byte + bit + addr + content.max(shown) + row.end
                - row.start
        };
        let rows = self.columns.rows().filter(|row| self.shown(row));
        head + title + rows.map(line).sum::<u64>()
    }
}

/// The digits of a number in a radix.
fn figures(mut number: u64, radix: u64) -> u64 {
    let mut count = 1;
    while number >= radix {
        number /= radix;
        count += 1;
    }
    count
}

/// A text of `len` bytes: any in ASCII, and often one that stands between the columns.
pub fn text(rng: &mut Rng, len: usize) -> Vec<u8> {
    let byte = |_| match rng.below(3) {
        0 => any(rng, b"\n\t\r |:;.0\0\x7f"),
        _ => rng.byte() & 0x7f,
    };
    (0..len).map(byte).collect()
}

/// An address: a small one, any, one at an end, or one around the first of its width.
pub fn address(rng: &mut Rng, radix: usize) -> u64 {
    let radix = radix as u64;
    match rng.below(6) {
        0 => rng.below(300) as u64,
        1 => rng.next(),
        2 => rng.next() >> rng.below(64),
        3 => u64::MAX - rng.below(3) as u64,
        4 => (1 << 63) - 1 + rng.below(3) as u64,
        _ => radix.pow(rng.below(u64::MAX.ilog(radix) as usize + 1) as u32) - rng.below(2) as u64,
    }
}

/// A place in a text of `len` bytes: now and then all of it, one of its ends, or nothing.
fn location(rng: &mut Rng, len: usize) -> (u64, u64) {
    let (a, b) = (rng.below(len + 1), rng.below(len + 1));
    let (start, end) = match rng.below(10) {
        0 => (0, len),
        1 => (a, a),
        2 => (0, a),
        3 => (a, len),
        _ => (a.min(b), a.max(b).min(a.min(b) + 12)),
    };
    (start as u64, end as u64)
}

/// A span, whose text has `len` bytes, with each fault of refusal 7. Some are none where only 32 bits
/// are kept.
pub fn faults(row: Row, len: usize) -> Vec<Row> {
    let (word, len) = (1 << 32, len as u64);
    let mut all: Vec<Row> = [2, 3, 127, 128, 254, 255].map(|file| Row { file, ..row }).into();
    let places = [
        (NOWHERE, row.end),
        (NOWHERE, 0),
        (NOWHERE, NOWHERE),
        (NOWHERE - 1, NOWHERE - 1),
        (NOWHERE - 1, NOWHERE),
        (row.end + 1, row.end),
        (len + 1, len),
        (1, 0),
        (row.start, len + 1),
        (len + 1, len + 1),
        (row.start, NOWHERE),
        (0, 1 << 63),
        (row.start, word + row.end),
        (word + row.start, row.end),
        (word, word),
        (word + row.start, word + row.end),
    ];
    all.extend(places.map(|(start, end)| Row { start, end, ..row }));
    all.extend([1, 7, 8, END as u32 + 1, 1 << 31, u32::MAX].map(|size| Row {
        offset: ABSENT,
        size,
        ..row
    }));
    all
}

/// A random fault of a span.
pub fn fault(rng: &mut Rng, row: Row, len: usize) -> Row {
    any(rng, &faults(row, len))
}

/// A size in bits around the ends of the first six groups.
fn edge(rng: &mut Rng, [base, _, group]: [usize; 3]) -> u32 {
    let bits = base.ilog2() as usize;
    let digits = group * (1 + rng.below(6)) + rng.below(4);
    (digits.saturating_sub(2) * bits + rng.below(bits)) as u32
}

/// A random list of `count` spans over two texts, which nothing refuses. Hidden spans have faults.
pub fn random(rng: &mut Rng, count: usize, numbers: [usize; 3], labels: u8) -> Listing {
    let texts = [(); 2].map(|_| {
        let len = any(rng, &[0, 1, 7, 30, 60, 300]);
        text(rng, len)
    });
    let mut rows: Vec<(u32, u32)> = spans::random(rng, count).rows().collect();
    for row in rows.iter_mut() {
        match rng.below(12) {
            _ if row.0 == ABSENT => row.1 = 0,
            0 => *row = (ABSENT, 0),
            1 | 2 => row.1 = edge(rng, numbers),
            // Far from the others.
            3 if row.1 < 1000 => {
                let shift = rng.below(16);
                row.0 = rng.below((END - 1000) as usize >> shift) as u32;
            }
            _ => {}
        }
    }
    let rows: Vec<Row> =
        rows.into_iter().map(|row| placed(rng, row, &texts, numbers[1], labels)).collect();
    Listing { columns: Columns::new(&rows), texts: Rc::new(texts), numbers, labels }
}

/// A span with a random address and a random place in one of the texts.
fn placed(
    rng: &mut Rng,
    (offset, size): (u32, u32),
    texts: &[Vec<u8>; 2],
    radix: usize,
    labels: u8,
) -> Row {
    let file = rng.below(2);
    let len = texts[file].len();
    let (start, end) = location(rng, len);
    let row = Row { offset, size, addr: address(rng, radix), file: file as u8, start, end };
    if labels == 0 && size == 0 && rng.below(2) == 0 {
        let hidden = fault(rng, row, len);
        return if hidden.size == 0 { hidden } else { row };
    }
    row
}
