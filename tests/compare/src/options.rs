//! Options of the exporters, for the comparison and for the record.

use crate::input::Rng;
use reference::util::FormatListOptions;

pub const RADIXES: [usize; 2] = [10, 16];
pub const BASES: [usize; 5] = [2, 4, 8, 16, 32];
/// Groups per second group. 0 is allowed where the second string is empty.
pub const GROUPS: [usize; 7] = [65_535, 0, 1, 2, 3, 4, 16];
/// The most bytes of a string.
pub const LONGEST: usize = 256;

/// The bits of a line of 16 bytes.
pub const LINE: usize = 128;

/// Characters of one to four bytes; some are also characters of the texts.
const CHARACTERS: &str = "01ax, \n\t\r\"|%\0\u{7f}\u{80}é\u{7ff}→\u{ffff}\u{1f600}";

/// A string of `len` bytes in UTF-8.
pub fn string(rng: &mut Rng, len: usize) -> String {
    let characters: Vec<char> = CHARACTERS.chars().collect();
    let mut text = String::new();
    while text.len() < len {
        let c = characters[rng.below(characters.len())];
        if text.len() + c.len_utf8() <= len {
            text.push(c);
        }
    }
    text
}

/// The k-th options of a list: base, digits per group, groups per second group.
pub fn list_numbers(k: usize, digits_per_group: usize) -> [usize; 3] {
    [BASES[k % BASES.len()], digits_per_group, GROUPS[k % GROUPS.len()]]
}

/// The bits of a group of a list.
pub fn group_bits([base, digits_per_group, _]: [usize; 3]) -> usize {
    base.ilog2() as usize * digits_per_group
}

/// Short strings for a list with these numbers: before, after, between, second between.
pub fn list_strings(rng: &mut Rng, numbers: [usize; 3]) -> [String; 4] {
    let mut strings = [(); 4].map(|_| {
        let len = [0, 1, 1, 2, 3, 8][rng.below(6)];
        string(rng, len)
    });
    if numbers[2] == 0 {
        strings[3].clear();
    }
    strings
}

/// The Rust's options of a list.
pub fn list(numbers: [usize; 3], strings: &[String]) -> FormatListOptions {
    FormatListOptions {
        base: numbers[0],
        digits_per_group: numbers[1],
        groups_per_group2: numbers[2],
        str_before: strings[0].clone(),
        str_after: strings[1].clone(),
        str_between_groups: strings[2].clone(),
        str_between_groups2: strings[3].clone(),
    }
}

/// Numbers above every range: some become 0, 1 or `fit` where only 16 or 32 bits are kept.
pub fn far(fit: usize) -> [usize; 9] {
    let (short, word, top) = (1 << 16, 1 << 32, 1 << 63);
    [short, short + fit, word, word + 1, word + fit, top, top + fit, usize::MAX - 1, usize::MAX]
}
