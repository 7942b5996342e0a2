//! format_separator, format_c_array and format_list.

use crate::capi::{self, Answer};
use crate::check::{cut, Exporter, Exporters, Family, Text};
use crate::input::{Rng, SEED};
use crate::options::{
    self, far, group_bits, list_numbers, list_strings, string, BASES, LINE, LONGEST, RADIXES,
};
use reference::util::BitVec;

struct Separator {
    radix: usize,
    string: Vec<u8>,
}

impl Exporter for Separator {
    fn name(&self) -> String {
        format!("format_separator with radix {} and {}", self.radix, show(&self.string))
    }

    fn line(&self) -> usize {
        LINE
    }

    fn options_fit(&self) -> bool {
        RADIXES.contains(&self.radix) && string_fits(&self.string)
    }

    fn ours(&self, image: &[u8], bits: usize, out: &mut [u8]) -> Answer {
        capi::format_separator(image, bits, self.radix, &self.string, out)
    }

    fn rust(&self, image: &BitVec) -> Text {
        ask(&[&self.string], |strings| image.format_separator(self.radix, &strings[0]))
    }
}

struct CArray {
    radix: usize,
}

impl Exporter for CArray {
    fn name(&self) -> String {
        format!("format_c_array with radix {}", self.radix)
    }

    fn line(&self) -> usize {
        LINE
    }

    fn options_fit(&self) -> bool {
        RADIXES.contains(&self.radix)
    }

    fn needs_bits(&self) -> bool {
        true
    }

    fn ours(&self, image: &[u8], bits: usize, out: &mut [u8]) -> Answer {
        capi::format_c_array(image, bits, self.radix, out)
    }

    fn rust(&self, image: &BitVec) -> Text {
        image.format_c_array(self.radix).into()
    }
}

struct List {
    /// The base, the digits per group, the groups per second group.
    numbers: [usize; 3],
    /// Before, after, between, second between.
    strings: [Vec<u8>; 4],
}

impl List {
    fn lent(&self) -> [&[u8]; 4] {
        self.strings.each_ref().map(|string| string.as_slice())
    }
}

impl Exporter for List {
    fn name(&self) -> String {
        let strings = self.lent().map(show).join(", ");
        format!("format_list with {:?} and {strings}", self.numbers)
    }

    fn line(&self) -> usize {
        group_bits(self.numbers)
    }

    fn options_fit(&self) -> bool {
        let [base, digits, groups] = self.numbers;
        BASES.contains(&base)
            && (1..=64).contains(&digits)
            && groups <= 65_535
            && (groups > 0 || self.strings[3].is_empty())
            && self.lent().into_iter().all(string_fits)
    }

    fn ours(&self, image: &[u8], bits: usize, out: &mut [u8]) -> Answer {
        capi::format_list(image, bits, self.numbers, self.lent(), out)
    }

    fn rust(&self, image: &BitVec) -> Text {
        ask(&self.lent(), |strings| image.format_list(&options::list(self.numbers, strings)))
    }
}

fn show(string: &[u8]) -> String {
    format!("{} bytes {}", string.len(), cut(string))
}

fn string_fits(string: &[u8]) -> bool {
    string.len() <= LONGEST
}

/// Signs that are in no text; each stands for a string.
const SIGNS: &[u8] = b"!#$%";

/// The Rust's text. The Rust takes strings in UTF-8 alone: where one is not, it is asked with signs,
/// and these are replaced in its text.
fn ask(strings: &[&[u8]], rust: impl Fn(&[String]) -> String) -> Text {
    let utf8: Result<Vec<String>, _> =
        strings.iter().map(|string| String::from_utf8(string.to_vec())).collect();
    if let Ok(utf8) = utf8 {
        return rust(&utf8).into();
    }
    // An empty string stays empty, since the Rust asks whether the second one between groups is.
    let sign = |(string, &sign): (&&[u8], &u8)| match string.is_empty() {
        true => String::new(),
        false => (sign as char).to_string(),
    };
    let signs: Vec<String> = strings.iter().zip(SIGNS).map(sign).collect();
    let mut bytes = Vec::new();
    for byte in rust(&signs).into_bytes() {
        match SIGNS.iter().position(|&sign| sign == byte) {
            Some(place) => bytes.extend(strings[place]),
            None => bytes.push(byte),
        }
    }
    Text { bytes, padded: 0 }
}

/// A string of `len` bytes that is not UTF-8.
fn not_utf8(rng: &mut Rng, len: usize) -> Vec<u8> {
    let mut bytes = vec![0; len];
    rng.fill(&mut bytes);
    bytes[0] = 0xff;
    bytes
}

fn separator(radix: usize, string: impl Into<Vec<u8>>) -> Box<dyn Exporter> {
    Box::new(Separator { radix, string: string.into() })
}

fn c_array(radix: usize) -> Box<dyn Exporter> {
    Box::new(CArray { radix })
}

fn list(numbers: [usize; 3], strings: [impl Into<Vec<u8>>; 4]) -> Box<dyn Exporter> {
    Box::new(List { numbers, strings: strings.map(Into::into) })
}

/// The k-th list with short strings.
fn short(rng: &mut Rng, k: usize, digits_per_group: usize) -> Box<dyn Exporter> {
    let numbers = list_numbers(k, digits_per_group);
    list(numbers, list_strings(rng, numbers))
}

/// Separators of these lengths with both radixes.
fn separators(rng: &mut Rng, lens: &[usize]) -> Exporters {
    let each = lens.iter().flat_map(|&len| RADIXES.map(|radix| (radix, len)));
    each.map(|(radix, len)| separator(radix, string(rng, len))).collect()
}

fn c_arrays() -> Exporters {
    RADIXES.map(c_array).into()
}

fn small(rng: &mut Rng) -> Exporters {
    let mut all = separators(rng, &[0, 1, 3]);
    all.push(separator(16, string(rng, LONGEST)));
    all.extend(c_arrays());
    all.extend((0..12).map(|k| short(rng, k, [1, 2, 3, 64][k % 4])));
    all
}

fn middle(rng: &mut Rng) -> Exporters {
    let mut all = separators(rng, &[0, 1, 2, 5, 20]);
    all.extend(RADIXES.map(|radix| separator(radix, not_utf8(rng, 3))));
    all.extend(c_arrays());
    // The second string stands once, before the last bit of 65,536.
    all.push(list([2, 1, 65_535], ["[", "]", ",", ";\n"]));
    all.push(list([16, 2, 4], [(); 4].map(|_| not_utf8(rng, 3))));
    all.extend((0..64).map(|k| short(rng, k, 1 + k)));
    all
}

/// Long strings, and every base with all digits per group.
fn sparse(rng: &mut Rng) -> Exporters {
    let mut all = separators(rng, &[64, LONGEST - 1, LONGEST]);
    all.extend(RADIXES.map(|radix| separator(radix, not_utf8(rng, LONGEST))));
    for place in 0..4 {
        let mut strings = [(); 4].map(|_| string(rng, 1));
        strings[place] = string(rng, LONGEST);
        all.push(list([2, 40, 2], strings));
    }
    for len in [LONGEST - 1, LONGEST] {
        all.push(list([32, 7, 1], [(); 4].map(|_| string(rng, len))));
        all.push(list([8, 12, 3], [(); 4].map(|_| not_utf8(rng, len))));
    }
    all.extend((0..5 * 64).map(|k| short(rng, k, 1 + k % 64)));
    all
}

fn large() -> Exporters {
    vec![
        separator(10, ","),
        c_array(16),
        list([2, 1, 65_535], ["", "]", "", "é"]),
        list([32, 63, 16], ["[", "", ",", ";\n"]),
    ]
}

const UNFIT_RADIXES: [usize; 18] =
    [0, 1, 2, 8, 9, 11, 12, 15, 17, 32, 36, 100, 160, 255, 256, 266, 272, 4096];
const UNFIT_BASES: [usize; 22] =
    [0, 1, 3, 5, 6, 7, 9, 10, 12, 15, 17, 24, 31, 33, 36, 64, 128, 256, 258, 264, 272, 288];
const UNFIT_DIGITS: [usize; 8] = [0, 65, 66, 127, 128, 256, 257, 258];
const UNFIT_LENS: [usize; 7] = [257, 258, 511, 512, 65_535, 65_536, 65_537];

fn unfit() -> Exporters {
    let radixes: Vec<usize> = UNFIT_RADIXES.into_iter().chain(far(10)).chain(far(16)).collect();
    let long = |len| vec![b','; len];
    let mut all: Exporters = radixes.iter().map(|&radix| separator(radix, ", ")).collect();
    all.extend(radixes.iter().map(|&radix| c_array(radix)));
    all.extend(UNFIT_LENS.iter().flat_map(|&len| RADIXES.map(|radix| separator(radix, long(len)))));
    all.push(separator(0, long(LONGEST + 1)));
    all.extend(unfit_lists());
    for (place, len) in (0..4).flat_map(|place| UNFIT_LENS.map(|len| (place, len))) {
        let mut strings = [(); 4].map(|_| long(1));
        strings[place] = long(len);
        all.push(list([16, 2, 4], strings));
    }
    all
}

/// Lists one of whose numbers does not fit.
fn unfit_lists() -> Exporters {
    let bases = UNFIT_BASES.into_iter().chain(far(16)).map(|base| [base, 2, 4]);
    let digits = UNFIT_DIGITS.into_iter().chain(far(2)).map(|digits| [16, digits, 4]);
    // Too many groups are refused also where the second string is empty.
    let groups = far(4).map(|groups| [16, 2, groups]);
    let full = bases.chain(digits).chain(groups).chain([[16, 2, 0], [0, 0, 0]]);
    let mut all: Exporters = full.map(|numbers| list(numbers, ["[", "]", ",", ";"])).collect();
    all.extend(groups.map(|numbers| list(numbers, ["[", "]", ",", ""])));
    all
}

pub fn family() -> Family {
    let rng = &mut Rng::new(SEED);
    Family {
        small: small(rng),
        middle: middle(rng),
        sparse: sparse(rng),
        large: large(),
        unfit: unfit(),
    }
}
