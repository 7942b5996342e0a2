//! The cases: each exporter on images of three sizes, aligned and off by three bits.

use crate::exporters::{self, Exporter};
use crate::input::{Rng, SEED};
use crate::listing::{Columns, Listing};
use crate::lists::{self, List};
use reference::diagn::Span;
use reference::util::{BigInt, BitVec};
use std::rc::Rc;

const KIB: usize = 1024;
const MIB: usize = 1024 * KIB;
/// The sizes of the images, in bytes.
const SIZES: [usize; 3] = [KIB, 64 * KIB, 2 * MIB];
/// The sizes for Intel HEX and the address units: its addresses have 16 bits, which reach to 512
/// KiB with the largest unit.
const HEX_SIZES: [(usize, usize); 3] = [(KIB, 8), (64 * KIB, 8), (512 * KIB, 64)];
/// How an image lies, and the bits by which it is off.
const ALIGNMENTS: [(&str, usize); 2] = [("aligned", 0), ("off by 3", 3)];

/// One line of the table: an exporter on an image.
pub struct Case {
    pub exporter: Rc<Exporter>,
    pub alignment: &'static str,
    pub bits: usize,
    /// The spans that the Rust's image has.
    pub columns: Rc<Columns>,
}

impl Case {
    /// The image's size in bytes.
    pub fn size(&self) -> usize {
        self.bits.div_ceil(8)
    }

    /// The image's size in the words of the table.
    pub fn size_name(&self) -> String {
        match self.size() {
            0 => "-".to_string(),
            size if size < MIB => format!("{} KiB", size / KIB),
            size => format!("{} MiB", size / MIB),
        }
    }

    /// What is looked for where only some cases are measured.
    pub fn name(&self) -> String {
        format!("{}, {}, {}", self.exporter.name, self.alignment, self.size_name())
    }

    /// What a time is divided by: the image's bytes, or the spans where it has none.
    pub fn divisor(&self) -> f64 {
        match self.size() {
            0 => self.columns.addrs.len() as f64,
            size => size as f64,
        }
    }

    /// The image's bytes.
    pub fn bytes(&self) -> Vec<u8> {
        let mut bytes = vec![0; self.size()];
        Rng::new(SEED).fill(&mut bytes);
        bytes
    }

    /// Gives the Rust's image the spans of this case and no others.
    pub fn mark(&self, image: &mut BitVec) {
        image.spans.clear();
        for row in self.columns.rows() {
            let span = Span::new(row.file.into(), row.start as usize, row.end as usize);
            let (offset, size) = (row.offset as usize, row.size as usize);
            image.mark_span(Some(offset), size, BigInt::from(row.addr), span);
        }
    }
}

/// Cases that differ in size alone, the smallest first.
pub type Group = Vec<Case>;

/// All cases.
pub fn all() -> impl Iterator<Item = Group> {
    let plain = exporters::without_spans().into_iter().flat_map(without_spans);
    let short = exporters::with_short_parts().into_iter().map(one_size);
    let hex = [lists::ONE].into_iter().chain(lists::several()).flat_map(intelhex);
    let listings = lists::several().flat_map(annotated);
    let blocks = lists::several().flat_map(get_blocks);
    plain.chain(hex).chain(listings).chain(blocks).chain(short)
}

/// The exporter of a case, the image's bits, and the spans that the Rust's image has.
type Parts = (Rc<Exporter>, usize, Rc<Columns>);

/// The cases of three sizes, for each alignment.
fn groups<T: Copy>(sizes: [T; 3], parts: impl Fn(T, usize) -> Parts) -> [Group; 2] {
    let case = |alignment, (exporter, bits, columns)| Case { exporter, alignment, bits, columns };
    ALIGNMENTS.map(|(alignment, off)| sizes.map(|size| case(alignment, parts(size, off))).into())
}

/// An exporter on images of whole bytes, and on images that end three bits before a byte does.
fn without_spans(exporter: Exporter) -> [Group; 2] {
    let (exporter, columns) = (Rc::new(exporter), Rc::new(Columns::default()));
    groups(SIZES, |size, off| (exporter.clone(), 8 * size - off, columns.clone()))
}

/// An exporter on one image of whole bytes.
fn one_size(exporter: Exporter) -> Group {
    let (exporter, columns) = (Rc::new(exporter), Rc::new(Columns::default()));
    let (alignment, _) = ALIGNMENTS[0];
    vec![Case { exporter, alignment, bits: 8 * SIZES[1], columns }]
}

/// Intel HEX with spans from bit 0 or 3 on.
fn intelhex(list: List) -> [Group; 2] {
    groups(HEX_SIZES, |(size, unit), off| {
        let bits = 8 * size;
        let columns = Columns::new(&list.parts(bits, off));
        let floor = if list.in_order() { exporters::HEX } else { exporters::UNORDERED };
        let name = format!("intelhex, {}", list.name());
        let exporter = exporters::intelhex(name, Some(floor), columns.spans.clone(), unit);
        (Rc::new(exporter), bits, Rc::new(columns))
    })
}

/// The listing with spans from bit 0 or 3 on.
fn annotated(list: List) -> [Group; 2] {
    let texts = Rc::new(list.texts());
    groups(SIZES, |size, off| {
        let bits = 8 * size;
        let columns = Columns::new(&list.parts(bits, off));
        let (numbers, labels) = ([16, 16, 2], 1);
        let listing = Listing { columns: columns.clone(), texts: texts.clone(), numbers, labels };
        let (name, target) = (format!("annotated, {}", list.name()), Some(exporters::DAILY));
        (Rc::new(exporters::annotated(name, target, listing)), bits, Rc::new(columns))
    })
}

/// get_blocks, for which C has no function, as Intel HEX of an empty image and spans of size 0:
/// these make no record, so that both sides order the spans, make the blocks and write the end
/// record. The Rust copies the spans first, and an address without an allocation where it is 0.
fn get_blocks(list: List) -> [Group; 2] {
    let case = |zero: bool| {
        let mut columns = Columns::new(&list.empty());
        let mut name = format!("get_blocks, {}", list.name());
        if zero {
            columns.addrs.fill(0);
            name += ", addr 0";
        }
        let exporter = exporters::intelhex(name, Some(1.0), columns.spans.clone(), 8);
        let (exporter, columns) = (Rc::new(exporter), Rc::new(columns));
        vec![Case { exporter, alignment: "-", bits: 0, columns }]
    };
    [false, true].map(case)
}
