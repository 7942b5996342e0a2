//! format_annotated.

use crate::capi::{self, Answer};
use crate::check::{cut, Checker, Exporter, Exporters, Family, Text, LIMIT};
use crate::hex::{length, orders, unfit_rows};
use crate::input::{Image, Rng, RANDOM, SEED};
use crate::listing::{self, address, fault, faults, text, Columns, Listing, Row, LONGEST, NOWHERE};
use crate::options::{far, group_bits, BASES};
use crate::spans::{any, ABSENT, END, MOST};
use reference::util::BitVec;
use std::rc::Rc;

struct Annotated {
    listing: Listing,
}

impl Exporter for Annotated {
    fn name(&self) -> String {
        let Listing { columns, texts, numbers, labels } = &self.listing;
        let (lens, rows) = (columns.lens(), columns.rows().take(6).collect::<Vec<Row>>());
        let texts = texts.each_ref().map(|text| format!("{} bytes {}", text.len(), cut(text)));
        let texts = texts.join(" and ");
        format!(
            "format_annotated with {numbers:?}, labels {labels}, {texts}, {lens:?} spans {rows:?}"
        )
    }

    fn line(&self) -> usize {
        group_bits([self.listing.numbers[0], self.listing.numbers[2], 0])
    }

    fn options_fit(&self) -> bool {
        self.listing.options_fit()
    }

    fn ours(&self, image: &[u8], bits: usize, out: &mut [u8]) -> Answer {
        let Listing { columns, texts, numbers, labels } = &self.listing;
        capi::format_annotated(image, bits, columns, texts, *numbers, *labels, out)
    }

    fn rust(&self, image: &BitVec) -> Text {
        let text = self.listing.rust(image);
        assert_eq!(text.len() as u64, self.listing.text_len());
        text.into()
    }

    fn refusal(&self, image_len: usize, bits: usize) -> Option<(u32, u64)> {
        if bits > LIMIT || bits.div_ceil(8) > image_len {
            Some((1, 0))
        } else if !self.options_fit() {
            Some((2, 0))
        } else {
            self.listing.refusal()
        }
    }
}

/// The texts of the lists that are not random.
const FIRMWARE: &[u8] = b"start:\n\tld a, 1\n\tnop\n\tjmp start\n";
const PROTOCOL: &[u8] = b"; frames\nack = 0x06\n";

fn texts() -> Rc<[Vec<u8>; 2]> {
    Rc::new([FIRMWARE.to_vec(), PROTOCOL.to_vec()])
}

/// A list of these offsets and sizes. Addresses, files and places in them differ.
fn listing(numbers: [usize; 3], labels: u8, rows: &[(u32, u32)]) -> Listing {
    let row = |(k, &(offset, size)): (usize, &(u32, u32))| {
        let (place, start) = (k as u64, k as u64 % 17);
        Row { offset, size, addr: place * place, file: (k % 2) as u8, start, end: start + 3 }
    };
    let rows: Vec<Row> = rows.iter().enumerate().map(row).collect();
    Listing { columns: Columns::new(&rows), texts: texts(), numbers, labels }
}

fn exporter(listing: Listing) -> Box<dyn Exporter> {
    Box::new(Annotated { listing })
}

fn annotated(numbers: [usize; 3], labels: u8, rows: &[(u32, u32)]) -> Box<dyn Exporter> {
    exporter(listing(numbers, labels, rows))
}

/// Random lists of some spans, one for each of the address bases.
fn random(rng: &mut Rng, radixes: impl IntoIterator<Item = usize>) -> Exporters {
    let one = |radix| {
        let numbers = [BASES[radix % 5], radix, 1 + radix * 7 % 64];
        exporter(listing::random(rng, 1 + radix % 8, numbers, (radix % 3 / 2) as u8))
    };
    radixes.into_iter().map(one).collect()
}

fn small() -> Exporters {
    vec![
        annotated([16, 16, 2], 0, &[(0, 12)]),
        annotated([2, 10, 3], 1, &[(5, 3), (0, 5), (5, 0), (ABSENT, 0), (8, 9)]),
        annotated([32, 2, 1], 0, &[(1, 11), (0, 0), (1, 4)]),
    ]
}

fn middle(rng: &mut Rng) -> Exporters {
    let mut all = vec![
        annotated([16, 16, 2], 0, &[]),
        annotated([8, 16, 4], 1, &[(0, 610), (0, 24), (300, 0)]),
    ];
    all.extend(random(rng, [2, 10, 16, 36]));
    all
}

fn large() -> Exporters {
    let end = LIMIT as u32;
    vec![
        annotated(
            [2, 16, 8],
            0,
            &[(end - 100, 100), (0, 16), (end, 0), (end - 1, 1), (end / 2, 99)],
        ),
        annotated([32, 10, 64], 1, &[(end, 0), (0, end), (ABSENT, 0)]),
    ]
}

const UNFIT_BASES: [usize; 22] =
    [0, 1, 3, 5, 6, 7, 9, 10, 12, 14, 15, 17, 24, 30, 31, 33, 36, 64, 128, 256, 258, 272];
const UNFIT_RADIXES: [usize; 14] = [0, 1, 37, 38, 40, 64, 127, 128, 255, 256, 257, 258, 266, 272];
const UNFIT_DIGITS: [usize; 9] = [0, 65, 66, 127, 128, 255, 256, 257, 264];

fn unfit() -> Exporters {
    let bases = UNFIT_BASES.into_iter().chain(far(16)).map(|base| ([base, 16, 2], 1));
    let radixes = UNFIT_RADIXES.into_iter().chain(far(10)).map(|radix| ([16, radix, 2], 1));
    let digits = UNFIT_DIGITS.into_iter().chain(far(8)).map(|digits| ([16, 16, digits], 1));
    let labels = [2, 3, 127, 128, 254, 255].map(|labels| ([16, 16, 2], labels));
    let options = bases.chain(radixes).chain(digits).chain(labels);
    let mut all: Exporters =
        options.map(|(numbers, labels)| annotated(numbers, labels, &[(0, 8), (8, 0)])).collect();
    all.extend(unfit_rows().into_iter().map(|row| annotated([16, 16, 2], 0, &[(0, 8), row])));
    all.push(annotated([16, 16, 2], 1, &[(0, 8); MOST + 1]));
    all.push(annotated([16, 16, 2], 1, &[(0, 8), (ABSENT, 1)]));
    for file in 0..2 {
        all.push(exporter(with_text(file, vec![b'a'; LONGEST + 1])));
        all.push(exporter(with_text(file, vec![128])));
    }
    all
}

/// A list of one span, which takes no byte of the texts; one of these is lent, the other is empty.
fn with_text(file: usize, text: Vec<u8>) -> Listing {
    let mut texts = [vec![], vec![]];
    texts[file] = text;
    let rows = [Row { size: 8, ..Row::default() }];
    let columns = Columns::new(&rows);
    Listing { columns, texts: Rc::new(texts), numbers: [16, 16, 2], labels: 0 }
}

pub fn family() -> Family {
    let rng = &mut Rng::new(SEED + 1);
    Family {
        small: small(),
        middle: middle(rng),
        sparse: random(rng, 2..=36),
        large: large(),
        unfit: unfit(),
    }
}

/// Tries a list on an image of so many bits, in every way.
fn try_list(checker: &mut Checker, listing: Listing, bits: usize) {
    checker.random(&Annotated { listing }, bits);
}

/// Tries a list on an image of so many bits, in few ways.
fn try_once(checker: &mut Checker, listing: Listing, bits: usize) {
    if checker.skips() {
        return;
    }
    let image = Image::random(&mut checker.rng, bits);
    let lent = image.lend(&mut checker.rng, RANDOM, bits % 3);
    let annotated = Annotated { listing };
    if annotated.refusal(lent.len(), bits).is_some() {
        checker.refused(&annotated, &lent, bits);
        return;
    }
    let text = annotated.rust(&image.rust);
    let len = text.bytes.len();
    for room in [len, len - 1, len + 100] {
        checker.text(&annotated, &lent, bits, room, &text);
    }
}

/// Every list of up to three spans whose offsets are absent, 0, 3 or 8 and whose sizes 0, 4 or 9,
/// without labels and with them.
pub fn grid(checker: &mut Checker, _: &[Family]) {
    for count in 0..=3 {
        for list in 0..12usize.pow(count) {
            let row = |place| {
                let k = list / 12usize.pow(place) % 12;
                ([ABSENT, 0, 3, 8][k / 3], [0, 4, 9][k % 3])
            };
            let rows: Vec<(u32, u32)> = (0..count).map(row).collect();
            for labels in 0..=1 {
                let numbers = [BASES[list % 5], 2 + list % 35, 1 + list % 4];
                try_once(checker, listing(numbers, labels, &rows), list % 19);
            }
        }
    }
}

/// Every base, address base, number of digits per group and label switch with a random list.
pub fn options(checker: &mut Checker, _: &[Family]) {
    for k in 0..5 * 35 * 64 * 2 {
        let numbers = [BASES[k / 2 % 5], 2 + k / 10 % 35, 1 + k / 350];
        let rng = &mut checker.rng;
        let count = 1 + rng.below(4);
        let listing = listing::random(rng, count, numbers, (k % 2) as u8);
        let bits = image_len(rng, &listing);
        try_once(checker, listing, bits);
    }
}

/// Random lists, mostly short ones. Some have spans with faults.
pub fn lists(checker: &mut Checker, _: &[Family]) {
    for k in 0..12_000 {
        let rng = &mut checker.rng;
        let numbers = [any(rng, &BASES), 2 + rng.below(35), 1 + rng.below(64) / (1 + k % 20)];
        let count = if k % 16 == 0 { rng.below(60) } else { rng.below(8) };
        let mut listing = listing::random(rng, count, numbers, (k % 2) as u8);
        if count > 0 && rng.below(6) == 0 {
            for _ in 0..1 + rng.below(3) {
                spoil(rng, &mut listing);
            }
        }
        let bits = image_len(rng, &listing);
        try_list(checker, listing, bits);
    }
}

/// Gives a span of the list a fault of refusal 7, or now and then one of refusal 3.
fn spoil(rng: &mut Rng, listing: &mut Listing) {
    let place = rng.below(listing.columns.files.len());
    let mut row = listing.columns.row(place);
    if rng.below(8) == 0 {
        (row.offset, row.size) = any(rng, &unfit_rows());
    } else if let Some(text) = listing.texts.get(row.file as usize) {
        // A span that is hidden may have a fault already.
        row.end = row.end.min(text.len() as u64);
        row.start = row.start.min(row.end);
        row = fault(rng, row, text.len());
    }
    listing.columns.set(place, &row);
}

/// The length of an image for a list: around the end of the spans that are not far, or inside one.
fn image_len(rng: &mut Rng, listing: &Listing) -> usize {
    const NEAR: u32 = 6000;
    let rows = listing.columns.spans.rows();
    let near: Vec<(u32, u32)> =
        rows.filter(|&(offset, size)| offset < NEAR && size < NEAR).collect();
    let extent = near.iter().map(|&(offset, size)| (offset + size) as usize).max().unwrap_or(0);
    if near.is_empty() || rng.below(3) == 0 {
        return length(rng, extent);
    }
    let (offset, size) = any(rng, &near);
    offset as usize + rng.below(size as usize + 1)
}

/// A span of every offset and size up to some bits on images of every length up to some more, so that
/// digits lie before the image's end, across it and past it.
pub fn ends(checker: &mut Checker, _: &[Family]) {
    for base in BASES {
        for bits in 0..=24 {
            for offset in 0..=10 {
                for size in 0..=20 {
                    let numbers = [base, 16, 1 + (offset + size) as usize % 4];
                    try_once(checker, listing(numbers, 1, &[(offset, size)]), bits);
                }
            }
        }
    }
}

/// Lists whose widest span sets a column's width or does not: for the data, sizes around the ends of
/// the groups; for the other columns, the first numbers of each width.
pub fn widths(checker: &mut Checker, _: &[Family]) {
    for (base, group) in BASES.into_iter().flat_map(|base| (1..=64).map(move |group| (base, group)))
    {
        let bits = base.ilog2();
        for digits in around_groups(group) {
            for size in [digits * bits - (bits - 1), digits * bits] {
                let radix = 2 + (base + group as usize) % 35;
                let numbers = [base, radix, group as usize];
                let rows = [(0, size), (size, 3), (8, digits % bits)];
                try_once(checker, listing(numbers, 0, &rows), size as usize / 2);
            }
        }
    }
    for radix in 2..=36 {
        for wide in powers(radix).into_iter().flat_map(|power| [power - 1, power]) {
            for row in wide_rows(wide) {
                for labels in 0..=1 {
                    let numbers = [BASES[radix % 5], radix, 2];
                    let mut list = listing(numbers, labels, &[(8, 8), (16, 0), (ABSENT, 0)]);
                    list.columns.push(&row);
                    try_once(checker, list, 20);
                }
            }
        }
    }
    // The highest addresses, of which one is that of a label and one that of an absent offset.
    for (radix, high) in (2..=36).flat_map(|radix| HIGH.map(|high| (radix, high))) {
        for (place, labels) in (0..3).flat_map(|place| [(place, 0), (place, 1)]) {
            let mut list = listing([16, radix, 2], labels, &[(0, 8), (8, 0), (ABSENT, 0)]);
            list.columns.addrs[place] = high;
            try_once(checker, list, 8);
        }
    }
}

/// High addresses. Some become low or negative where fewer bits or a sign are kept.
const HIGH: [u64; 6] = [u64::MAX, u64::MAX - 1, (1 << 63) + 1, 1 << 63, (1 << 63) - 1, 1 << 32];

/// Numbers of digits around the ends of a group, of two, and of five, from where on they do not set
/// the width.
fn around_groups(group: u32) -> Vec<u32> {
    let mut all: Vec<u32> =
        [1, 2, 5, 6].into_iter().flat_map(|n| [n * group - 1, n * group, n * group + 1]).collect();
    all.extend([5 * group + 2, 10 * group]);
    all.retain(|&digits| digits > 0);
    all
}

/// The powers of a number that are not 1 and below 2 to the power 64.
fn powers(number: usize) -> Vec<u64> {
    (1..=u64::MAX.ilog(number as u64)).map(|k| (number as u64).pow(k)).collect()
}

/// Spans that have a wide address or a wide offset: with bits, without, and without an offset.
fn wide_rows(wide: u64) -> Vec<Row> {
    let row = Row { offset: 24, size: 8, addr: wide, file: 0, start: 0, end: 5 };
    let mut all = vec![row, Row { size: 0, ..row }, Row { offset: ABSENT, size: 0, ..row }];
    // The offset in bytes, and in bits past a byte.
    for offset in [8 * wide.min(END), wide] {
        if offset <= END - 8 {
            let row = Row { offset: offset as u32, addr: 0, ..row };
            all.extend([row, Row { size: 0, ..row }]);
        }
    }
    all
}

/// Long lists: random ones, and at the most spans also those that an ordering may stumble over.
pub fn long(checker: &mut Checker, _: &[Family]) {
    for count in [100, 127, 128, 129, 255, 256, 257, 1000, 2047, 2048, 2049, MOST - 1, MOST] {
        for k in 0..2 {
            let numbers = [BASES[(count + k) % 5], 2 + (count + 17 * k) % 35, 1 + count % 9];
            let listing = listing::random(&mut checker.rng, count, numbers, k as u8);
            let bits = image_len(&mut checker.rng, &listing);
            try_once(checker, listing, bits);
        }
    }
    for (k, mut rows) in orders(&mut checker.rng, MOST).into_iter().enumerate() {
        rows.iter_mut().filter(|row| row.0 == ABSENT).for_each(|row| row.1 = 0);
        let list = listing([16, 2 + k, 2], 1, &rows);
        let bits = image_len(&mut checker.rng, &list);
        try_once(checker, list.clone(), bits);
        // The last span alone has a fault, then also the first.
        for place in [MOST - 1, 0] {
            let mut faulty = list.clone();
            faulty.columns.files[place] = 2;
            try_once(checker, faulty, bits);
        }
    }
}

/// Texts that are not made, since no room is lent for them; some are longer than 2 to the power 37.
pub fn huge(checker: &mut Checker, _: &[Family]) {
    let end = END as u32;
    let long = Rc::new([vec![b'\n'; LONGEST], vec![b'a'; LONGEST - 1]]);
    for base in BASES {
        for group in [1, 2, 3, 7, 63, 64] {
            for count in [1, 2, 127, 128, 129, MOST] {
                let rows = vec![(0, end); count];
                let mut list = listing([base, 2 + group % 35, group], 0, &rows);
                too_long(checker, list.clone());
                list.columns.addrs.fill(u64::MAX);
                list.columns.ends.iter_mut().zip(0..).for_each(|(end, k)| *end += k % 1000);
                list.texts = long.clone();
                too_long(checker, list);
            }
        }
    }
    // The longest text of all.
    let mut list = listing([2, 2, 1], 1, &[(0, end); MOST]);
    list.columns.addrs.fill(u64::MAX);
    list.columns.files.fill(0);
    list.columns.starts.fill(0);
    list.columns.ends.fill(LONGEST as u64);
    list.texts = long;
    assert!(list.text_len() > 1 << 37);
    too_long(checker, list);
}

fn too_long(checker: &mut Checker, listing: Listing) {
    if checker.skips() {
        return;
    }
    let annotated = Annotated { listing };
    assert!(annotated.refusal(1, 5).is_none());
    checker.too_long(&annotated, &[0xff], 5, annotated.listing.text_len());
}

/// Every byte in either text, texts of the most bytes, and every part of short texts.
pub fn sources(checker: &mut Checker, _: &[Family]) {
    for byte in 0..=255 {
        for (file, texts) in
            [[vec![byte], vec![]], [b"ok".to_vec(), vec![b'a', byte]]].into_iter().enumerate()
        {
            let (file, end) = (file as u8, texts[file].len() as u64);
            let rows = [Row { size: 8, file, end, ..Row::default() }];
            let columns = Columns::new(&rows);
            let texts = Rc::new(texts);
            try_once(checker, Listing { columns, texts, numbers: [16, 16, 2], labels: 0 }, 8);
        }
    }
    for file in 0..2 {
        let len = FIRMWARE.len().min(PROTOCOL.len() + 2);
        for (start, end) in (0..=len).flat_map(|start| (0..=len).map(move |end| (start, end))) {
            let mut list = listing([16, 16, 2], 0, &[(0, 8), (0, 8)]);
            list.columns.files[1] = file;
            (list.columns.starts[1], list.columns.ends[1]) = (start as u64, end as u64);
            try_once(checker, list, 8);
        }
    }
    most(checker);
}

/// Texts of the most bytes, of one less and of one more, and with a byte that is not ASCII.
fn most(checker: &mut Checker) {
    let [one, two] = [(); 2].map(|_| text(&mut checker.rng, LONGEST));
    for [len, len2] in [[LONGEST, LONGEST], [LONGEST, 0], [3, LONGEST], [LONGEST - 1, 9]] {
        let texts = Rc::new([one[..len].to_vec(), two[..len2].to_vec()]);
        let mut list = listing([16, 16, 2], 1, &[(0, 8), (8, 0), (8, 16)]);
        list.texts = texts.clone();
        for (start, cut) in [(0, 0), (1, 0), (0, 1), (0, 5000)] {
            for (file, text) in texts.iter().enumerate() {
                let len = text.len() as u64;
                let row = Row { offset: 8, size: 9, addr: 1, file: file as u8, start, end: len };
                let row = Row { start: start.min(len), end: len.saturating_sub(cut), ..row };
                list.columns = Columns::new(&[row]);
                try_once(checker, list.clone(), 16);
                list.columns = Columns::new(&[Row { end: len + 1, ..row }]);
                try_once(checker, list.clone(), 16);
            }
        }
    }
    for (file, place) in
        (0..2).flat_map(|file| [0, 1, LONGEST / 2, LONGEST - 1].map(|at| (file, at)))
    {
        for byte in [128, 255] {
            let mut text = one.clone();
            text[place] = byte;
            try_once(checker, with_text(file, text), 8);
        }
    }
    for (file, more) in (0..2).flat_map(|file| [0, 1, 2, 77, LONGEST].map(|more| (file, more))) {
        try_once(checker, with_text(file, vec![b'\t'; LONGEST + more]), 8);
    }
}

/// A change that makes a list refused, or changes nothing.
type Change = fn(&mut Listing);

/// The causes of refusals 2, 3, 6 and 7; each list starts with no cause.
const OPTIONS: &[Change] = &[
    |_| (),
    |list| list.numbers[0] = 0,
    |list| list.numbers[0] = 10,
    |list| list.numbers[1] = 1,
    |list| list.numbers[1] = 37,
    |list| list.numbers[2] = 0,
    |list| list.numbers[2] = 65,
    |list| list.labels = 2,
    |list| list.labels = 255,
];
const SPANS: &[Change] = &[
    |_| (),
    |list| list.columns.spans.sizes[3] = END as u32,
    |list| list.columns.spans.offsets[0] = END as u32 + 1,
    |list| list.columns.resize(0, 3),
    |list| list.columns.resize(2, 5),
    |list| list.columns.resize(5, 0),
    |list| (0..6).for_each(|column| list.columns.resize(column, MOST + 1)),
    // Lists that cannot be read come before spans that end too late.
    |list| {
        list.columns.spans.sizes[0] = u32::MAX;
        list.columns.resize(4, 2);
    },
    |list| {
        list.columns.spans.sizes[0] = u32::MAX;
        (0..6).for_each(|column| list.columns.resize(column, MOST + 1));
    },
];
const SOURCES: &[Change] = &[
    |_| (),
    |list| list.texts = Rc::new([vec![0; LONGEST + 1], PROTOCOL.to_vec()]),
    |list| list.texts = Rc::new([FIRMWARE.to_vec(), vec![0; LONGEST + 1]]),
    |list| list.texts = Rc::new([[FIRMWARE, b"\x80"].concat(), PROTOCOL.to_vec()]),
    |list| list.texts = Rc::new([FIRMWARE.to_vec(), [b"\xff", PROTOCOL].concat()]),
];
const PLACES: &[Change] = &[
    |_| (),
    |list| list.columns.files[1] = 2,
    |list| list.columns.starts[2] = NOWHERE,
    |list| list.columns.starts[2] = 7,
    |list| list.columns.ends[1] = 5_000_000,
    |list| list.columns.spans.offsets[2] = ABSENT,
];

/// Refusals 1, 2, 3, 6 and 7, alone and in every choice of several causes.
pub fn refusals(checker: &mut Checker, _: &[Family]) {
    let list = listing([16, 16, 2], 0, &[(16, 8), (8, 8), (0, 8), (8, 9)]);
    for (option, spans) in OPTIONS.iter().flat_map(|o| SPANS.iter().map(move |s| (o, s))) {
        for (source, place) in SOURCES.iter().flat_map(|s| PLACES.iter().map(move |p| (s, p))) {
            let mut list = list.clone();
            // The spans last: they may then be too few for the places.
            [place, source, option, spans].into_iter().for_each(|change| change(&mut list));
            too_many_bits(checker, &list);
            try_once(checker, list, 19);
        }
    }
    each_option(checker, &list);
    lens(checker, &list);
    each_fault(checker);
}

/// Every number up to some hundreds as an option, and every label switch.
fn each_option(checker: &mut Checker, list: &Listing) {
    for (place, number) in (0..3).flat_map(|place| (0..300).map(move |number| (place, number))) {
        let mut list = list.clone();
        list.numbers[place] = number;
        try_once(checker, list, 20);
    }
    for labels in 0..=255 {
        try_once(checker, Listing { labels, ..list.clone() }, 20);
    }
}

/// Refusal 1 with whatever else is refused.
fn too_many_bits(checker: &mut Checker, listing: &Listing) {
    if checker.skips() {
        return;
    }
    let annotated = Annotated { listing: listing.clone() };
    for (lent, bits) in [(&[][..], 1), (&[0xff; 3][..], 25), (&[0xff; 3][..], usize::MAX)] {
        checker.refused(&annotated, lent, bits);
    }
}

/// Lists whose six lengths are not one, or are more than the most.
fn lens(checker: &mut Checker, list: &Listing) {
    for len in [0, 1, 4, MOST - 1, MOST, MOST + 1, 2 * MOST, 65_536] {
        let mut all = list.clone();
        (0..6).for_each(|column| all.columns.resize(column, len));
        try_once(checker, all.clone(), 24);
        for (column, other) in (0..6).flat_map(|column| (0..6).map(move |other| (column, other))) {
            for new in [0, len.saturating_sub(1), len + 1, 65_536 + len] {
                let mut some = all.clone();
                some.columns.resize(column, new);
                some.columns.resize(other, new);
                try_once(checker, some, 24);
            }
        }
    }
}

/// Every fault of refusal 7 at each place of a list: in spans with bits and without, with labels and
/// without them, and before and behind another one.
fn each_fault(checker: &mut Checker) {
    for (place, labels) in (0..4).flat_map(|place| [(place, 0), (place, 1)]) {
        let list = listing([8, 10, 3], labels, &[(16, 8), (8, 0), (ABSENT, 0), (8, 9)]);
        let row = list.columns.row(place);
        for bad in faults(row, list.texts[row.file as usize].len()) {
            let mut bad_list = list.clone();
            bad_list.columns.set(place, &bad);
            try_once(checker, bad_list.clone(), 20);
            for other in 0..4 {
                let mut both = bad_list.clone();
                both.columns.files[other] = 255;
                try_once(checker, both, 20);
                // An end that only the other text has.
                let mut both = bad_list.clone();
                both.columns.ends[other] = FIRMWARE.len() as u64;
                try_once(checker, both, 20);
            }
        }
    }
    let end = END as u32;
    try_once(checker, listing([8, 10, 3], 1, &[(end, 0), (end - 1, 1), (end - 99, 99)]), 20);
    for row in unfit_rows() {
        let mut list = listing([8, 10, 3], 0, &[(16, 8), row, (ABSENT, 0), (8, 9), row]);
        try_once(checker, list.clone(), 20);
        list.columns.addrs[0] = address(&mut checker.rng, 10);
        list.columns.files[0] = 2;
        try_once(checker, list, 20);
    }
}
