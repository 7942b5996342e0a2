//! An export by both ways, the method of `BitVec` and the function of `slices`, held to one answer.

use crate::image::Image;
use riceshoal::slices::{self, ListOptions, ListingColumns, ABSENT};
use riceshoal::{
    BitVec, BitVecSpan, FormatAnnotatedOptions, FormatListOptions, FormatReadMemOptions, Refusal,
    SourceTexts,
};

/// An export with its options.
#[derive(Clone, Debug)]
pub enum Export {
    Binary,
    Str(usize),
    Readmemb(usize),
    Readmemh(usize),
    Separator(usize, String),
    CArray(usize),
    List(FormatListOptions),
    Mif,
    Logisim(usize),
    /// The bits of a digit, the bits of a byte and the bytes on a line.
    Dump(usize, usize, usize),
    Intelhex(usize),
    Annotated(Annotated),
}

/// The options of a listing and its source texts.
#[derive(Clone, Debug)]
pub struct Annotated {
    pub options: FormatAnnotatedOptions,
    pub firmware: Vec<u8>,
    pub protocol: Vec<u8>,
}

impl Annotated {
    fn texts(&self) -> SourceTexts<'_> {
        SourceTexts { firmware: &self.firmware, protocol: &self.protocol }
    }
}

impl Export {
    /// One of each, with options in their range. The listing's texts are `nop` and `ack`.
    pub fn all() -> Vec<Export> {
        let mut all = vec![Export::Binary, Export::Mif, Export::List(list("", ",", ""))];
        all.extend([Export::Str(4), Export::Readmemb(3), Export::Readmemh(5)]);
        all.extend([Export::Separator(16, ", ".to_string()), Export::CArray(10)]);
        all.extend([Export::Logisim(4), Export::Dump(4, 8, 16), Export::Intelhex(8)]);
        all.push(Export::Annotated(annotated(b"nop", b"ack")));
        all
    }

    /// What the method of the type returns.
    pub fn method(&self, bitvec: &BitVec) -> Result<Vec<u8>, Refusal> {
        let text = match self {
            Export::Binary => return bitvec.format_binary(),
            Export::Str(digit) => bitvec.format_str(*digit),
            Export::Readmemb(width) => {
                bitvec.format_readmemb(&FormatReadMemOptions { width: *width })
            }
            Export::Readmemh(width) => {
                bitvec.format_readmemh(&FormatReadMemOptions { width: *width })
            }
            Export::Separator(radix, separator) => bitvec.format_separator(*radix, separator),
            Export::CArray(radix) => bitvec.format_c_array(*radix),
            Export::List(options) => bitvec.format_list(options),
            Export::Mif => bitvec.format_mif(),
            Export::Logisim(chunk) => bitvec.format_logisim(*chunk),
            Export::Dump(digit, byte, line) => bitvec.format_dump(*digit, *byte, *line),
            Export::Intelhex(unit) => bitvec.format_intelhex(*unit),
            Export::Annotated(listing) => {
                bitvec.format_annotated(&listing.texts(), &listing.options)
            }
        };
        text.map(String::into_bytes)
    }

    /// What the function over slices returns. The spans' numbers must fit its types.
    pub fn slices(&self, image: &Image, out: &mut [u8]) -> Result<usize, Refusal> {
        let (bytes, bits) = (&image.bytes[..], image.bits);
        match self {
            Export::Binary => {
                let answer = slices::format_binary(bytes, bits, out)?;
                assert_eq!(answer.padded, bits % 8 != 0);
                Ok(answer.len)
            }
            Export::Str(digit) => slices::format_str(bytes, bits, *digit, out),
            Export::Readmemb(width) => slices::format_readmemb(bytes, bits, *width, out),
            Export::Readmemh(width) => slices::format_readmemh(bytes, bits, *width, out),
            Export::Separator(radix, separator) => {
                slices::format_separator(bytes, bits, *radix, separator.as_bytes(), out)
            }
            Export::CArray(radix) => slices::format_c_array(bytes, bits, *radix, out),
            Export::List(options) => slices::format_list(bytes, bits, &lent(options), out),
            Export::Mif => slices::format_mif(bytes, bits, out),
            Export::Logisim(chunk) => slices::format_logisim(bytes, bits, *chunk, out),
            Export::Dump(digit, byte, line) => {
                slices::format_dump(bytes, bits, *digit, *byte, *line, out)
            }
            Export::Intelhex(unit) => {
                let (offsets, sizes) = (offsets(&image.spans), sizes(&image.spans));
                slices::format_intelhex(bytes, bits, &offsets, &sizes, *unit, out)
            }
            Export::Annotated(listing) => listing_of_slices(listing, image, out),
        }
    }

    /// Both ways give this answer, in every room that the slices are lent.
    pub fn check(&self, image: &Image, expected: Result<&[u8], Refusal>) {
        let method = self.method(&image.bitvec());
        assert_eq!(method, expected.map(<[u8]>::to_vec), "{self:?} of {image:?}");
        self.check_slices(image, expected);
    }

    /// The slices give this answer in every room, and change nothing behind a text and, where they
    /// refuse, nothing at all.
    pub fn check_slices(&self, image: &Image, expected: Result<&[u8], Refusal>) {
        let text = expected.unwrap_or_default();
        for room in [0, text.len().saturating_sub(1), text.len(), text.len() + 1000] {
            let fits = expected.and_then(|text| match text.len() <= room {
                true => Ok(text),
                false => Err(Refusal::NoRoom(text.len())),
            });
            let mut filled = vec![0xa5; room];
            let mut out = filled.clone();
            let answer = self.slices(image, &mut out);
            let written = fits.unwrap_or_default();
            filled[..written.len()].copy_from_slice(written);
            assert_eq!(answer, fits.map(<[u8]>::len), "{self:?} of {image:?}, room {room}");
            assert!(out == filled, "{self:?} of {image:?}, room {room}: {out:?}");
        }
    }
}

/// The options of a list in base 16 of 2 digits a group, with a string before, between and after.
pub fn list(before: &str, between: &str, after: &str) -> FormatListOptions {
    FormatListOptions {
        base: 16,
        digits_per_group: 2,
        groups_per_group2: 0,
        str_before: before.to_string(),
        str_after: after.to_string(),
        str_between_groups: between.to_string(),
        str_between_groups2: String::new(),
    }
}

/// A listing with both bases 16, 2 digits a group and hidden labels.
pub fn annotated(firmware: &[u8], protocol: &[u8]) -> Annotated {
    let options = FormatAnnotatedOptions {
        base: 16,
        addr_base: 16,
        digits_per_group: 2,
        display_labels: false,
    };
    Annotated { options, firmware: firmware.to_vec(), protocol: protocol.to_vec() }
}

fn lent(options: &FormatListOptions) -> ListOptions<'_> {
    ListOptions {
        base: options.base,
        digits_per_group: options.digits_per_group,
        groups_per_group2: options.groups_per_group2,
        before: options.str_before.as_bytes(),
        after: options.str_after.as_bytes(),
        between: options.str_between_groups.as_bytes(),
        between2: options.str_between_groups2.as_bytes(),
    }
}

fn column<T>(spans: &[BitVecSpan], number: fn(&BitVecSpan) -> T) -> Vec<T> {
    spans.iter().map(number).collect()
}

fn offsets(spans: &[BitVecSpan]) -> Vec<u32> {
    column(spans, |span| span.offset.map_or(ABSENT, |offset| offset.try_into().unwrap()))
}

fn sizes(spans: &[BitVecSpan]) -> Vec<u32> {
    column(spans, |span| span.size.try_into().unwrap())
}

fn listing_of_slices(listing: &Annotated, image: &Image, out: &mut [u8]) -> Result<usize, Refusal> {
    let location = |span: &BitVecSpan| span.span.location().unwrap_or((usize::MAX, usize::MAX));
    let (starts, ends): (Vec<u64>, Vec<u64>) =
        image.spans.iter().map(location).map(|(start, end)| (start as u64, end as u64)).unzip();
    let columns = ListingColumns {
        offsets: &offsets(&image.spans),
        sizes: &sizes(&image.spans),
        addrs: &column(&image.spans, |span| span.addr),
        files: &column(&image.spans, |span| span.span.file_handle.try_into().unwrap()),
        starts: &starts,
        ends: &ends,
    };
    let (bytes, texts) = (&image.bytes, listing.texts());
    slices::format_annotated(bytes, image.bits, &columns, &texts, &listing.options, out)
}
