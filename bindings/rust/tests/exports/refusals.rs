//! Every refusal of every export that has it, with its number and value, and their order.

use crate::export::{annotated, list, Annotated, Export};
use crate::image::Image;
use riceshoal::slices::{self, ListingColumns};
use riceshoal::{
    BitVec, FormatAnnotatedOptions, FormatListOptions, Refusal, SourceTexts, Span, MAX_BITS,
};

const FAR: [usize; 3] = [1 << 32, (1 << 32) + 4, usize::MAX];

fn refused(image: &Image, export: &Export, refusal: Refusal) {
    export.check(image, Err(refusal));
}

#[test]
fn numbers_values_and_words() {
    let all = [
        (Refusal::ImageSize, 1, 0, "bit length"),
        (Refusal::OptionRange, 2, 0, "option"),
        (Refusal::SpanRange(7), 3, 7, "span 7"),
        (Refusal::SpanRange(4096), 3, 4096, "more than 4096 spans"),
        (Refusal::EmptyImage, 4, 0, "no bits"),
        (Refusal::AddressRange, 5, 0, "65535"),
        (Refusal::SourceText, 6, 0, "ASCII"),
        (Refusal::SpanFault(9), 7, 9, "span 9"),
        (Refusal::NoRoom(27), 8, 27, "27 bytes"),
    ];
    for (refusal, number, value, word) in all {
        assert_eq!((refusal.number(), refusal.value()), (number, value));
        let error: Box<dyn std::error::Error> = refusal.into();
        let text = error.to_string();
        assert!(text.starts_with(&format!("refusal {number}: ")) && text.contains(word), "{text}");
    }
}

#[test]
fn more_bits_than_bytes() {
    for (bytes, bits) in [(0, 1), (1, 9), (2, usize::MAX), (0, 1 << 32)] {
        let image = Image::new(&vec![0xff; bytes], bits);
        for export in Export::all() {
            export.check_slices(&image, Err(Refusal::ImageSize));
        }
        assert_eq!(BitVec::from_bytes(&image.bytes, bits).unwrap_err(), Refusal::ImageSize);
    }
}

#[test]
fn more_bits_than_an_image_may_have() {
    let image = Image::new(&vec![0; MAX_BITS / 8 + 1], MAX_BITS + 1);
    assert_eq!(BitVec::from_bytes(&image.bytes, image.bits).unwrap_err(), Refusal::ImageSize);
    for index in [MAX_BITS, 1 << 32, 1 << 40, usize::MAX] {
        let mut bitvec = BitVec::new();
        bitvec.write_bit(index, true);
        assert_eq!(bitvec.len(), index.saturating_add(1));
        for export in Export::all() {
            assert_eq!(export.method(&bitvec), Err(Refusal::ImageSize), "{export:?}, bit {index}");
        }
    }
    for export in Export::all() {
        let mut out = [0xa5; 9];
        assert_eq!(export.slices(&image, &mut out), Err(Refusal::ImageSize), "{export:?}");
        assert_eq!(out, [0xa5; 9]);
    }
}

#[test]
fn the_largest_image_is_exported() {
    let mut bitvec = BitVec::from_bytes(&vec![0x5a; MAX_BITS / 8], MAX_BITS).unwrap();
    bitvec.write_bit(MAX_BITS - 1, true);
    let binary = bitvec.format_binary().unwrap();
    assert_eq!((binary.len(), binary[0], binary.last()), (MAX_BITS / 8, 0x5a, Some(&0x5b)));
}

/// Exports with an option outside its range.
fn unfit() -> Vec<Export> {
    let mut all: Vec<Export> = [0, 6, 8].into_iter().chain(FAR).map(Export::Str).collect();
    for option in [0, 4097].into_iter().chain(FAR) {
        all.extend([Export::Readmemb(option), Export::Readmemh(option), Export::Logisim(option)]);
    }
    for radix in [0, 8, 11].into_iter().chain(FAR) {
        all.extend([Export::Separator(radix, String::new()), Export::CArray(radix)]);
    }
    all.push(Export::Separator(16, "x".repeat(257)));
    for (digit, byte, line) in [(0, 8, 1), (2, 8, 1), (4, 16, 1), (4, 0, 1), (4, 8, 0), (1, 8, 65)]
    {
        all.push(Export::Dump(digit, byte, line));
    }
    all.extend([0, 65].into_iter().chain(FAR).map(Export::Intelhex));
    all
}

fn unfit_lists() -> Vec<Export> {
    let (fit, long) = (list("", "", ""), "x".repeat(257));
    let mut all = vec![list(&long, "", ""), list("", &long, ""), list("", "", &long)];
    for base in [0, 1, 3, 10, 64].into_iter().chain(FAR) {
        all.push(FormatListOptions { base, ..fit.clone() });
    }
    for digits_per_group in [0, 65].into_iter().chain(FAR) {
        all.push(FormatListOptions { digits_per_group, ..fit.clone() });
    }
    for (groups_per_group2, second) in [(0, "x"), (65_536, "x"), (65_536, ""), (1, &long)] {
        let str_between_groups2 = second.to_string();
        all.push(FormatListOptions { groups_per_group2, str_between_groups2, ..fit.clone() });
    }
    all.into_iter().map(Export::List).collect()
}

fn unfit_listings() -> Vec<Export> {
    let fit = annotated(b"nop", b"");
    let mut all = Vec::new();
    for base in [0, 1, 3, 10, 64].into_iter().chain(FAR) {
        all.push(FormatAnnotatedOptions { base, ..fit.options });
    }
    for addr_base in [0, 1, 37].into_iter().chain(FAR) {
        all.push(FormatAnnotatedOptions { addr_base, ..fit.options });
    }
    for digits_per_group in [0, 65].into_iter().chain(FAR) {
        all.push(FormatAnnotatedOptions { digits_per_group, ..fit.options });
    }
    let listing = |options| Export::Annotated(Annotated { options, ..fit.clone() });
    all.into_iter().map(listing).collect()
}

#[test]
fn options_outside_their_range() {
    for image in [Image::empty(), Image::new(&[0x12, 0x34], 13)] {
        for export in unfit().iter().chain(&unfit_lists()).chain(&unfit_listings()) {
            refused(&image, export, Refusal::OptionRange);
        }
    }
}

#[test]
fn an_image_of_no_bits() {
    refused(&Image::empty(), &Export::Mif, Refusal::EmptyImage);
    refused(&Image::empty(), &Export::CArray(10), Refusal::EmptyImage);
    refused(&Image::empty(), &Export::CArray(16), Refusal::EmptyImage);
}

#[test]
fn an_address_above_65535() {
    for unit in [1, 8, 64] {
        let first = 65_536 * unit;
        let hex = Export::Intelhex(unit);
        refused(&Image::empty().span(first, 1), &hex, Refusal::AddressRange);
        // A span of no bits makes no record.
        hex.check(&Image::empty().span(first, 0), Ok(b":00000001FF"));
        assert!(Image::empty().span(first - 1, 1).bitvec().format_intelhex(unit).is_ok());
    }
}

#[test]
fn a_source_text_that_is_too_long_or_not_ascii() {
    for bad in [vec![b'a'; 1_048_577], vec![128], "é".into(), vec![b'a', 255]] {
        let (first, second) = (annotated(&bad, b""), annotated(b"", &bad));
        for listing in [first, second] {
            let export = Export::Annotated(listing);
            assert_eq!(export.method(&BitVec::new()), Err(Refusal::SourceText));
            let mut out = [0xa5; 40];
            assert_eq!(export.slices(&Image::empty(), &mut out), Err(Refusal::SourceText));
            assert_eq!(out, [0xa5; 40]);
        }
    }
    let longest = annotated(&[b'a'; 1_048_576], b"");
    assert!(Export::Annotated(longest).method(&BitVec::new()).is_ok());
}

#[test]
fn a_shown_span_with_no_place_in_its_text() {
    let export = Export::Annotated(annotated(b"nop", b""));
    let good = Image::new(&[0x12], 8).located(0, 8, 0, Span::new(0, 0, 3));
    let bad = [
        Span::new(2, 0, 0),
        Span::new(255, 0, 0),
        Span::new_dummy(),
        Span::new(0, usize::MAX, 0),
        Span::new(0, 2, 1),
        Span::new(0, 0, 4),
        Span::new(1, 0, 1),
        Span::new(0, 1 << 32, 1 << 32),
    ];
    for span in bad {
        refused(&good.clone().located(0, 8, 0, span), &export, Refusal::SpanFault(1));
        // A span of no bits is hidden.
        let hidden = good.clone().located(0, 0, 0, span);
        assert!(export.method(&hidden.bitvec()).is_ok());
        refused(&hidden.located(9, 1, 0, span), &export, Refusal::SpanFault(2));
    }
    let absent = good.located(None, 1, 0, Span::new(0, 0, 3));
    refused(&absent, &export, Refusal::SpanFault(1));
}

/// The arrays of a list differ in length, which only the slices can be lent.
#[test]
fn lists_of_different_lengths() {
    let mut out = [0xa5; 100];
    let refusal = Err(Refusal::SpanRange(4096));
    for (offsets, sizes) in [(&[0][..], &[][..]), (&[], &[8]), (&[0, 8], &[8])] {
        assert_eq!(slices::format_intelhex(&[0x12], 8, offsets, sizes, 8, &mut out), refusal);
    }
    let full = ListingColumns {
        offsets: &[0],
        sizes: &[8],
        addrs: &[0],
        files: &[0],
        starts: &[0],
        ends: &[3],
    };
    let short = [
        ListingColumns { offsets: &[], ..full },
        ListingColumns { sizes: &[], ..full },
        ListingColumns { addrs: &[], ..full },
        ListingColumns { files: &[], ..full },
        ListingColumns { starts: &[], ..full },
        ListingColumns { ends: &[], ..full },
    ];
    let texts = SourceTexts { firmware: b"nop", protocol: b"" };
    let options = annotated(b"", b"").options;
    let mut list = |spans| slices::format_annotated(&[0x12], 8, spans, &texts, &options, &mut out);
    assert!(short.iter().all(|spans| list(spans) == refusal));
    assert_eq!(out, [0xa5; 100]);
}

/// Each two causes that can stand together: the lower number is returned.
#[test]
fn the_lowest_number_is_returned() {
    let hex = Export::Intelhex;
    let listing = |firmware: &[u8]| Export::Annotated(annotated(firmware, b""));
    let unfit = |firmware: &[u8]| {
        let Annotated { options, firmware, protocol } = annotated(firmware, b"");
        let options = FormatAnnotatedOptions { base: 3, ..options };
        Export::Annotated(Annotated { options, firmware, protocol })
    };
    let long = Image::new(&[], 1).span(MAX_BITS, 1).span(524_288, 8);
    let spans = Image { bits: 0, ..long.clone() };
    let fault = Image::empty().span(0, 8);
    hex(0).check_slices(&long, Err(Refusal::ImageSize));
    unfit(&[128]).check_slices(&long, Err(Refusal::ImageSize));
    refused(&spans, &hex(0), Refusal::OptionRange);
    refused(&spans, &hex(8), Refusal::SpanRange(0));
    refused(&spans, &unfit(&[128]), Refusal::OptionRange);
    refused(&spans, &listing(&[128]), Refusal::SpanRange(0));
    refused(&fault, &listing(&[128]), Refusal::SourceText);
    refused(&fault, &listing(b""), Refusal::SpanFault(0));
    refused(&Image::empty(), &Export::CArray(8), Refusal::OptionRange);
}
