//! The runs: which images and rooms each exporter is tried with.

use crate::check::{Checker, Exporter, Exporters, Family, LIMIT};
use crate::input::{Image, Rng, RANDOM};

/// The exporters of all families that a run uses.
fn of<'a>(families: &'a [Family], pick: fn(&Family) -> &Exporters) -> Vec<&'a dyn Exporter> {
    families.iter().flat_map(pick).map(|exporter| exporter.as_ref()).collect()
}

/// Each exporter on one image, in every way.
fn try_all(checker: &mut Checker, exporters: &[&dyn Exporter], image: &Image) {
    let lendings = image.lendings(&mut checker.rng);
    for exporter in exporters {
        if !checker.skips() {
            checker.image(*exporter, image, &lendings);
        }
    }
}

/// Every image of 0 to 12 bits.
pub fn small(checker: &mut Checker, families: &[Family]) {
    let exporters = of(families, |family| &family.small);
    for bits in 0..=12 {
        for content in 0..1 << bits {
            try_all(checker, &exporters, &Image::of_number(content, bits));
        }
    }
}

/// Three random images of every length from 0 to 600 bits.
pub fn lengths(checker: &mut Checker, families: &[Family]) {
    let exporters = of(families, |family| &family.middle);
    for bits in (0..=600).flat_map(|bits| [bits; 3]) {
        let image = Image::random(&mut checker.rng, bits);
        try_all(checker, &exporters, &image);
    }
}

/// Random images whose length is one less, equal, or one more than whole bytes or lines.
pub fn boundaries(checker: &mut Checker, families: &[Family]) {
    for exporter in of(families, |family| &family.middle) {
        around(checker, exporter, 5);
    }
    for exporter in of(families, |family| &family.sparse) {
        around(checker, exporter, 1);
    }
}

/// An exporter on images around each of its ends.
fn around(checker: &mut Checker, exporter: &dyn Exporter, random: usize) {
    for end in ends(&mut checker.rng, exporter.line(), random) {
        for bits in end - 1..=end + 1 {
            checker.random(exporter, bits);
        }
    }
}

/// Ends that every exporter is tried with: of the first bit, and of 1, 16, 17, 255, 256 and 257
/// bytes.
const ENDS: [usize; 7] = [1, 8, 128, 136, 2040, 2048, 2056];

/// Ends of lines and of bytes, up to some thousand bits; `random` of each sort are random.
fn ends(rng: &mut Rng, line: usize, random: usize) -> Vec<usize> {
    let lines = 6000 / line + 1;
    let mut ends: Vec<usize> = ENDS.into();
    // A line, and a line with the first byte of the next.
    ends.extend((1..=3).flat_map(|n| [n * line, n * line + 8]));
    for _ in 0..random {
        ends.push(line * (1 + rng.below(lines)));
        ends.push(8 * (1 + rng.below(750)));
        // The end of a byte that is also the end of a line.
        ends.push(8 * line * (1 + rng.below(lines / 8 + 1)));
    }
    ends
}

/// Images of 65,535 to 65,537 bits for each exporter.
pub fn large(checker: &mut Checker, families: &[Family]) {
    let exporters = of(families, |family| &family.middle);
    for bits in 65_535..=65_537 {
        let image = Image::random(&mut checker.rng, bits);
        let lendings = [0, 5].map(|extra| image.lend(&mut checker.rng, RANDOM, extra));
        for exporter in &exporters {
            if !checker.skips() {
                checker.image(*exporter, &image, &lendings);
            }
        }
    }
}

/// Images of the most bits that are allowed, and one bit less.
pub fn limit(checker: &mut Checker, families: &[Family]) {
    for bits in [LIMIT - 1, LIMIT] {
        let mut bytes = vec![0; bits.div_ceil(8)];
        checker.rng.fill(&mut bytes);
        let image = Image::new(bytes, bits);
        let exact = image.lend(&mut checker.rng, RANDOM, 0);
        let longer = image.lend(&mut checker.rng, RANDOM, 1000);
        for exporter in of(families, |family| &family.large) {
            if checker.skips() {
                continue;
            }
            assert!(exporter.refusal(exact.len(), bits).is_none());
            let text = exporter.rust(&image.rust);
            let len = text.bytes.len();
            checker.text(exporter, &exact, bits, len, &text);
            checker.text(exporter, &exact, bits, len - 1, &text);
            checker.text(exporter, &longer, bits, len + 1000, &text);
        }
    }
}

/// Lengths in bytes of the images that are lent to refused calls.
const LENT: [usize; 13] =
    [0, 1, 2, 3, 7, 8, 9, 64, 600, LIMIT / 8 - 1, LIMIT / 8, LIMIT / 8 + 1, LIMIT / 4];

/// Refusals 1, 2, 3, 5, 6 and 7, which the Rust does not have. Where more causes hold, the least
/// number is expected; none depends on the room.
pub fn refusals(checker: &mut Checker, families: &[Family]) {
    let fit = of(families, |family| &family.middle);
    let unfit = of(families, |family| &family.unfit);
    for len in LENT {
        let mut lent = vec![0; len];
        checker.rng.fill(&mut lent);
        for exporter in fit.iter().chain(&unfit) {
            for bits in too_many(len) {
                try_refused(checker, *exporter, &lent, bits);
            }
        }
        for exporter in &unfit {
            for bits in allowed(&mut checker.rng, len) {
                try_refused(checker, *exporter, &lent, bits);
            }
        }
    }
}

fn try_refused(checker: &mut Checker, exporter: &dyn Exporter, lent: &[u8], bits: usize) {
    if !checker.skips() {
        checker.refused(exporter, lent, bits);
    }
}

/// Lengths in bits that an image of `len` bytes is refused with.
fn too_many(len: usize) -> Vec<usize> {
    let end = LIMIT.min(8 * len);
    let mut all: Vec<usize> = [1, 2, 7, 8, 9, 64, 1000].map(|more| end + more).into();
    all.extend([LIMIT + 1, LIMIT + 7, LIMIT + 8, 2 * LIMIT, 2 * LIMIT + 1]);
    for power in [31, 32, 35, 60, 61, 63] {
        let at = 1usize << power;
        all.extend([at - 1, at, at + 1, at + 8]);
    }
    all.extend(usize::MAX - 8..=usize::MAX);
    all
}

/// Lengths in bits that an image of `len` bytes may have.
fn allowed(rng: &mut Rng, len: usize) -> Vec<usize> {
    let end = LIMIT.min(8 * len);
    vec![0, end / 2, rng.below(end + 1), end.saturating_sub(1), end]
}
