//! format_intelhex.

use crate::capi::{self, Answer};
use crate::check::{Checker, Exporter, Exporters, Family, Text, LIMIT};
use crate::input::{Image, Rng, RANDOM, SEED};
use crate::options::far;
use crate::spans::{self, shuffle, too_high, Spans, ABSENT, END, MOST, RECORD};
use reference::util::BitVec;

struct Hex {
    spans: Spans,
    unit: usize,
}

impl Exporter for Hex {
    fn name(&self) -> String {
        let (unit, lens) = (self.unit, [self.spans.offsets.len(), self.spans.sizes.len()]);
        let rows: Vec<(u32, u32)> = self.spans.rows().take(12).collect();
        format!("format_intelhex with unit {unit} and {lens:?} offsets and sizes {rows:?}")
    }

    fn line(&self) -> usize {
        RECORD as usize
    }

    fn options_fit(&self) -> bool {
        (1..=64).contains(&self.unit)
    }

    fn ours(&self, image: &[u8], bits: usize, out: &mut [u8]) -> Answer {
        capi::format_intelhex(image, bits, &self.spans.offsets, &self.spans.sizes, self.unit, out)
    }

    fn rust(&self, image: &BitVec) -> Text {
        let text = self.spans.rust(image).format_intelhex(self.unit);
        assert_eq!(text.len() as u64, self.spans.text_len());
        text.into()
    }

    fn refusal(&self, image_len: usize, bits: usize) -> Option<(u32, u64)> {
        if bits > LIMIT || bits.div_ceil(8) > image_len {
            Some((1, 0))
        } else if !self.options_fit() {
            Some((2, 0))
        } else {
            self.spans.refusal(self.unit)
        }
    }
}

fn hex(unit: usize, rows: &[(u32, u32)]) -> Box<dyn Exporter> {
    list(unit, Spans::new(rows))
}

fn list(unit: usize, spans: Spans) -> Box<dyn Exporter> {
    Box::new(Hex { spans, unit })
}

/// Random lists of some spans, one for each of the units.
fn random(rng: &mut Rng, units: impl IntoIterator<Item = usize>) -> Exporters {
    units.into_iter().map(|unit| list(unit, spans::random(rng, 2 + unit % 11))).collect()
}

fn small() -> Exporters {
    vec![
        hex(8, &[(0, 12)]),
        hex(8, &[(0, 8), (0, 0), (8, 8)]),
        hex(1, &[(0, 4), (4, 0), (4, 8)]),
        hex(3, &[(9, 9), (5, 3), (0, 5), (11, 1)]),
    ]
}

fn middle(rng: &mut Rng) -> Exporters {
    let mut all = vec![
        hex(8, &[]),
        hex(8, &[(0, 610)]),
        hex(1, &[(249, 264), (1, 248), (513, 3), (520, 80)]),
    ];
    all.extend(random(rng, [2, 5, 7, 16, 64]));
    all
}

fn large() -> Exporters {
    let end = LIMIT as u32;
    vec![
        hex(8, &[(524_280, 256), (0, 8), (8, 12), (524_000, 100), (ABSENT, end), (end, 0)]),
        hex(64, &[(0, too_high(64)), (too_high(64) - 1, RECORD as u32)]),
    ]
}

const UNFIT_UNITS: [usize; 12] = [0, 65, 66, 72, 127, 128, 129, 255, 256, 257, 264, 4096];

fn unfit() -> Exporters {
    let mut all: Exporters =
        UNFIT_UNITS.into_iter().chain(far(8)).map(|unit| hex(unit, &[(0, 8)])).collect();
    // Refusal 2 comes before 3 and 5, and 3 before 5.
    let high = (too_high(64), 8);
    for unit in [0, 65, usize::MAX] {
        all.push(hex(unit, &[(0, END as u32 + 1)]));
        all.push(hex(unit, &[(0, 8); MOST + 1]));
        all.push(hex(unit, &[high]));
    }
    all.extend(unfit_rows().into_iter().flat_map(|row| [hex(64, &[row]), hex(64, &[high, row])]));
    all.extend(unfit_lists().into_iter().map(|spans| list(8, spans)));
    all.extend([1, 8, 64].map(|unit| hex(unit, &[(0, 8), high])));
    all
}

/// Spans that end too late. Some do not where only 32 bits of the sum are kept.
pub fn unfit_rows() -> Vec<(u32, u32)> {
    let end = END as u32;
    let mut rows = vec![(0, end + 1), (1, end), (8, end - 7), (end - 7, 8), (end, 1), (end + 1, 0)];
    rows.extend([(0, u32::MAX), (1, u32::MAX), (8, u32::MAX), (u32::MAX - 1, u32::MAX)]);
    rows.extend([0, 1, 2, 3, 10].map(|size| (u32::MAX - 1, size)));
    rows.extend([(1 << 31, 1 << 31), (end, u32::MAX - end + 1), (end, u32::MAX - end + 9)]);
    rows
}

/// Lists that are too long, have two lengths, or have bad spans at some places.
fn unfit_lists() -> Vec<Spans> {
    let (good, bad, late) = ((0, 8), (8, END as u32), (END as u32 + 8, 0));
    let with = |len: usize, places: &[(usize, (u32, u32))]| {
        let mut rows = vec![good; len];
        places.iter().for_each(|&(place, row)| rows[place] = row);
        Spans::new(&rows)
    };
    let mut all: Vec<Spans> =
        [MOST + 1, MOST + 2, 5000, 65_536, 65_537].map(|len| with(len, &[])).into();
    all.push(with(MOST + 1, &[(0, bad)]));
    all.push(with(MOST + 1, &[(MOST, bad)]));
    all.push(Spans::new(&[(ABSENT, 0); MOST + 1]));
    for (len, place) in [(1, 0), (2, 0), (2, 1), (10, 4), (999, 998), (MOST, 0), (MOST, MOST - 1)] {
        all.push(with(len, &[(place, bad)]));
        all.push(with(len, &[(place, late)]));
    }
    all.push(with(10, &[(3, late), (7, bad)]));
    all.push(with(10, &[(3, bad), (7, late)]));
    all.push(with(10, &[(2, (ABSENT, u32::MAX)), (5, bad), (9, bad)]));
    for (short, long) in [(0, 1), (1, 2), (1, 5000), (MOST - 1, MOST), (MOST, MOST + 1)] {
        for (offsets, sizes) in [(short, long), (long, short)] {
            all.push(Spans { offsets: vec![0; offsets], sizes: vec![8; sizes] });
            all.push(Spans { offsets: vec![8; offsets], sizes: vec![u32::MAX; sizes] });
        }
    }
    all
}

pub fn family() -> Family {
    let rng = &mut Rng::new(SEED);
    Family {
        small: small(),
        middle: middle(rng),
        sparse: random(rng, 1..=64),
        large: large(),
        unfit: unfit(),
    }
}

/// Tries a list on an image of so many bits, in every way.
fn try_list(checker: &mut Checker, unit: usize, spans: Spans, bits: usize) {
    checker.random(&Hex { spans, unit }, bits);
}

/// Tries a list that is not refused, on an image of so many bits, in few ways.
fn try_once(checker: &mut Checker, unit: usize, spans: Spans, bits: usize) {
    if checker.skips() {
        return;
    }
    let image = Image::random(&mut checker.rng, bits);
    let lent = image.lend(&mut checker.rng, RANDOM, unit % 3);
    let hex = Hex { spans, unit };
    assert!(hex.refusal(lent.len(), bits).is_none());
    let text = hex.rust(&image.rust);
    let len = text.bytes.len();
    for room in [len, len - 1, len + 100] {
        checker.text(&hex, &lent, bits, room, &text);
    }
}

/// Every list of up to four spans whose offsets are absent, 0, 8 or 16 and whose sizes 0, 8 or 16.
pub fn grid(checker: &mut Checker, _: &[Family]) {
    for count in 0..=4 {
        for list in 0..12usize.pow(count) {
            let row = |place| {
                let k = list / 12usize.pow(place) % 12;
                ([ABSENT, 0, 8, 16][k / 3], [0, 8, 16][k % 3])
            };
            let rows: Vec<(u32, u32)> = (0..count).map(row).collect();
            try_once(checker, 1 + list % 64, Spans::new(&rows), 20 + list % 13);
        }
    }
}

/// Random lists, mostly short ones, with every unit. Some are refused.
pub fn lists(checker: &mut Checker, _: &[Family]) {
    for k in 0..25_600 {
        let rng = &mut checker.rng;
        let unit = 1 + k % 64;
        let count = if k % 4 == 0 { rng.below(60) } else { rng.below(9) };
        let mut spans = spans::random(rng, count);
        let extent = spans.extent();
        let bits = length(rng, extent);
        if rng.below(8) == 0 {
            // Around the first address that is too high.
            let first = too_high(unit) as usize - (extent + 300).min(too_high(unit) as usize);
            shift(&mut spans, first + rng.below(600));
        }
        if rng.below(16) == 0 {
            let (place, rows) = (rng.below(count + 1), unfit_rows());
            let (offset, size) = rows[rng.below(rows.len())];
            spans.offsets.insert(place, offset);
            spans.sizes.insert(place, size);
        }
        try_list(checker, unit, spans, bits);
    }
}

/// The length of an image for spans that end at `extent`.
pub fn length(rng: &mut Rng, extent: usize) -> usize {
    match rng.below(6) {
        0 => rng.below(extent + 1),
        1 => extent,
        2 => extent.saturating_sub(rng.below(20)),
        3 => extent + rng.below(20),
        4 => rng.below(2 * extent + 1),
        _ => extent / 8 * 8,
    }
}

fn shift(spans: &mut Spans, by: usize) {
    let present = spans.offsets.iter_mut().filter(|offset| **offset != ABSENT);
    present.for_each(|offset| *offset += by as u32);
}

/// Long lists: random ones, and at the most spans also those that an ordering may stumble over.
pub fn long(checker: &mut Checker, _: &[Family]) {
    for count in [100, 127, 128, 129, 255, 256, 257, 1000, 1024, 2047, 2048, 2049, MOST - 1, MOST] {
        for k in 0..4 {
            let spans = spans::random(&mut checker.rng, count);
            let bits = length(&mut checker.rng, spans.extent());
            try_once(checker, 1 + (count + 17 * k) % 64, spans, bits);
        }
    }
    for count in [MOST - 1, MOST] {
        for (k, rows) in orders(&mut checker.rng, count).into_iter().enumerate() {
            let spans = Spans::new(&rows);
            let bits = length(&mut checker.rng, spans.extent());
            try_once(checker, 1 + (count + 17 * k) % 64, spans, bits);
        }
    }
    // The text, which is not made, has more than 2 to the power 32 bytes.
    let spans = Spans::new(&[(0, too_high(64)); MOST]);
    assert!(spans.refusal(64).is_none() && spans.text_len() > 1 << 32);
    let len = spans.text_len();
    checker.too_long(&Hex { spans, unit: 64 }, &[], 0, len);
}

/// Lists of `count` spans: sorted, reversed, shuffled, with equal offsets, and without sizes.
pub fn orders(rng: &mut Rng, count: usize) -> Vec<Vec<(u32, u32)>> {
    let rows = |row: fn(u32) -> (u32, u32)| (0..count as u32).map(row).collect::<Vec<_>>();
    let mut all = Vec::new();
    // Touching, with gaps, and two at each offset of which one is empty.
    for row in [|i| (8 * i, 8), |i| (16 * i, 9), |i| (8 * (i / 2), i % 2 * 8)] {
        let mut list = rows(row);
        all.push(list.clone());
        all.push(list.iter().rev().copied().collect());
        shuffle(rng, &mut list);
        all.push(list);
    }
    all.push(rows(|_| (0, 8)));
    all.push(rows(|i| (16, i % 3)));
    all.push(rows(|_| (24, 0)));
    all.push(rows(|i| (i * 7919 % 5000, 0)));
    all.push(rows(|i| (ABSENT, i)));
    all
}

/// Records at the highest address and above it, for each unit; blocks that fill the addresses, and
/// random lists somewhere among them.
pub fn edges(checker: &mut Checker, _: &[Family]) {
    for unit in 1..=64 {
        for (fits, rows) in edge_lists(unit) {
            let spans = Spans::new(&rows);
            assert_eq!(spans.refusal(unit), if fits { None } else { Some((5, 0)) });
            let bits = checker.rng.below(300);
            try_list(checker, unit, spans.clone(), bits);
            if fits && [1, 2, 8].contains(&unit) {
                try_once(checker, unit, spans, too_high(unit) as usize + 70);
            }
        }
    }
    for unit in (1..=8).chain([64]) {
        let (high, half) = (too_high(unit), too_high(unit) / 2);
        try_once(checker, unit, Spans::new(&[(0, high)]), high as usize - 3);
        try_once(checker, unit, Spans::new(&[(half, half), (5, 99)]), high as usize);
        for _ in 0..4 {
            let mut spans = spans::random(&mut checker.rng, 30);
            let by = checker.rng.below(high as usize - spans.extent());
            shift(&mut spans, by);
            try_once(checker, unit, spans, high as usize);
        }
    }
}

/// Lists whose highest record has an address that fits or does not.
fn edge_lists(unit: usize) -> Vec<(bool, Vec<(u32, u32)>)> {
    let (high, end, record) = (too_high(unit), END as u32, RECORD as u32);
    vec![
        (true, vec![(high - 1, 1)]),
        (true, vec![(high - 1, record)]),
        (true, vec![(high - 1 - record, record + 1)]),
        (true, vec![(high - 1 - record, 2 * record)]),
        (true, vec![(high - 8, 8), (high, 8)]),
        (true, vec![(0, 8), (high, 0), (end, 0), (ABSENT, end + 1)]),
        (false, vec![(high, 1)]),
        (false, vec![(high - 1, record + 1)]),
        (false, vec![(high - record, record + 1)]),
        (false, vec![(high - 1 - record, 2 * record + 1)]),
        (false, vec![(high - 8, 8), (high - 8, 0), (high, 8)]),
        (false, vec![(high, 8), (0, 8)]),
        (false, vec![(0, 8), (high + 5, 3), (16, 8)]),
        (false, vec![(0, high + 1)]),
        (false, vec![(2 * high, 8)]),
        (false, vec![(2 * high - 1, 8)]),
        (false, vec![(end - 1, 1)]),
        (false, vec![(0, end)]),
    ]
}
