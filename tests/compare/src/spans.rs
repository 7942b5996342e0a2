//! Lists of spans, for the comparison and for the record.

use crate::input::Rng;
use reference::diagn::Span;
use reference::util::{BigInt, BitVec};

/// The offset that stands for none.
pub const ABSENT: u32 = u32::MAX;
/// The most spans of a list.
pub const MOST: usize = 4096;
/// The most that an offset and its size may add to, in bits.
pub const END: u64 = 16_777_216;
/// The bits of a record.
pub const RECORD: u64 = 256;
/// The highest unit address of a record.
const TOP: u64 = 65_535;

/// A list as it is lent. Only a list that is to be refused has two lengths.
#[derive(Clone, Default)]
pub struct Spans {
    pub offsets: Vec<u32>,
    pub sizes: Vec<u32>,
}

impl Spans {
    /// The list of these offsets and sizes.
    pub fn new(rows: &[(u32, u32)]) -> Spans {
        let (offsets, sizes) = rows.iter().copied().unzip();
        Spans { offsets, sizes }
    }

    pub fn rows(&self) -> impl Iterator<Item = (u32, u32)> + '_ {
        self.offsets.iter().copied().zip(self.sizes.iter().copied())
    }

    /// The places, offsets and sizes of the spans that have an offset.
    fn present(&self) -> impl Iterator<Item = (usize, u64, u64)> + '_ {
        let rows = self.rows().enumerate().filter(|&(_, (offset, _))| offset != ABSENT);
        rows.map(|(place, (offset, size))| (place, offset.into(), size.into()))
    }

    /// The end of the last span, in bits.
    pub fn extent(&self) -> usize {
        self.present().map(|(_, offset, size)| (offset + size) as usize).max().unwrap_or(0)
    }

    /// The Rust's image with these spans.
    pub fn rust(&self, image: &BitVec) -> BitVec {
        let mut rust = copy(image);
        for (offset, size) in self.rows() {
            let offset = (offset != ABSENT).then_some(offset as usize);
            rust.mark_span(offset, size as usize, BigInt::from(0), Span::new_dummy());
        }
        rust
    }

    /// The offsets and sizes of the blocks, in document 01's words.
    fn blocks(&self) -> Vec<(u64, u64)> {
        let mut spans: Vec<(u64, u64)> =
            self.present().map(|(_, offset, size)| (offset, size)).collect();
        spans.sort_by_key(|&(offset, _)| offset);
        let mut blocks: Vec<(u64, u64)> = Vec::new();
        for (offset, size) in spans {
            match blocks.last_mut() {
                Some((start, running)) if *start + *running == offset => *running += size,
                _ => blocks.push((offset, size)),
            }
        }
        blocks.retain(|&(_, size)| size > 0);
        blocks
    }

    /// The number and the value of refusal 3.
    pub fn unfit(&self) -> Option<(u32, u64)> {
        if self.offsets.len() != self.sizes.len() || self.offsets.len() > MOST {
            return Some((3, MOST as u64));
        }
        let late = self.present().find(|&(_, offset, size)| offset + size > END);
        late.map(|(place, ..)| (3, place as u64))
    }

    /// The number and the value of refusal 3 or 5.
    pub fn refusal(&self, unit: usize) -> Option<(u32, u64)> {
        if let Some(unfit) = self.unfit() {
            return Some(unfit);
        }
        let last = |(offset, size): (u64, u64)| offset + (size.div_ceil(RECORD) - 1) * RECORD;
        let high = self.blocks().into_iter().any(|block| last(block) / unit as u64 > TOP);
        high.then_some((5, 0))
    }

    /// The length of the text where nothing is refused.
    pub fn text_len(&self) -> u64 {
        let text = |(_, size): (u64, u64)| 2 * size.div_ceil(8) + 12 * size.div_ceil(RECORD);
        self.blocks().into_iter().map(text).sum::<u64>() + 11
    }
}

/// The same bits without spans.
pub fn copy(image: &BitVec) -> BitVec {
    let mut copy = BitVec::new();
    for i in 0..image.len() {
        copy.write_bit(i, image.read_bit(i));
    }
    copy
}

/// The first bit offset whose unit address is too high for a record.
pub fn too_high(unit: usize) -> u32 {
    (TOP as u32 + 1) * unit as u32
}

/// Sizes in bits: none, parts of a byte and some bytes.
const SIZES: [u32; 16] = [0, 0, 0, 1, 3, 4, 7, 8, 8, 8, 9, 12, 16, 16, 17, 24];
/// Sizes in bytes around the ends of the first three records.
const LONG: [u32; 9] = [31, 32, 33, 63, 64, 65, 95, 96, 97];

/// A random list of `count` spans, rich in equal offsets, empty spans and spans that touch.
pub fn random(rng: &mut Rng, count: usize) -> Spans {
    let mut rows = match rng.below(5) {
        0 | 1 => tight(rng, count),
        2 => scattered(rng, count),
        _ => chain(rng, count),
    };
    if rng.below(4) == 0 {
        drop_offsets(rng, &mut rows);
    }
    Spans::new(&rows)
}

/// Offsets in the first 64 bits, on a grid.
fn tight(rng: &mut Rng, count: usize) -> Vec<(u32, u32)> {
    let grid = [1, 3, 4, 8, 8, 16][rng.below(6)];
    let row = |_| {
        let offset = grid * rng.below(64 / grid);
        let size = if rng.below(2) == 0 { (grid * rng.below(4)) as u32 } else { any(rng, &SIZES) };
        (offset as u32, size)
    };
    (0..count).map(row).collect()
}

/// Any offsets and sizes, in the first 400 or 4,600 bits.
fn scattered(rng: &mut Rng, count: usize) -> Vec<(u32, u32)> {
    let (offsets, sizes) = [(300, 100), (4000, 600)][rng.below(2)];
    (0..count).map(|_| (rng.below(offsets) as u32, rng.below(sizes) as u32)).collect()
}

/// Spans of which each mostly starts where the one before it ends, in one of four orders.
fn chain(rng: &mut Rng, count: usize) -> Vec<(u32, u32)> {
    let long = count <= 64 && rng.below(3) == 0;
    let mut at = rng.below(40) as u32;
    let mut rows = Vec::new();
    for _ in 0..count {
        let size = match long && rng.below(2) == 0 {
            true => 8 * any(rng, &LONG) + rng.below(16) as u32 - 7,
            false => any(rng, &SIZES),
        };
        rows.push((at, size));
        at = match rng.below(10) {
            0 => at,
            1 => at + rng.below(size as usize + 1) as u32,
            2 => at + size + 1 + rng.below(30) as u32,
            3 => at.saturating_sub(rng.below(20) as u32),
            _ => at + size,
        };
    }
    match rng.below(4) {
        0 => {}
        1 => rows.reverse(),
        2 => shuffle(rng, &mut rows),
        _ => swap_some(rng, &mut rows),
    }
    rows
}

pub fn any<T: Copy>(rng: &mut Rng, numbers: &[T]) -> T {
    numbers[rng.below(numbers.len())]
}

pub fn shuffle<T>(rng: &mut Rng, all: &mut [T]) {
    for i in (1..all.len()).rev() {
        all.swap(i, rng.below(i + 1));
    }
}

/// Swaps some neighbours.
fn swap_some<T>(rng: &mut Rng, all: &mut [T]) {
    for _ in 0..all.len() / 3 {
        let place = rng.below(all.len() - 1);
        all.swap(place, place + 1);
    }
}

/// Takes the offset from some spans, whose sizes may then be any.
fn drop_offsets(rng: &mut Rng, rows: &mut [(u32, u32)]) {
    for row in rows {
        if rng.below(6) == 0 {
            let sizes = [row.1, 0, 8, END as u32 + 1, u32::MAX];
            *row = (ABSENT, any(rng, &sizes));
        }
    }
}
