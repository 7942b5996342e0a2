//! Spans whose numbers are large, and long lists of them: a number that has no place in the
//! library's types is refused as document 01 says, and never taken for another.

use crate::export::{annotated, Export};
use crate::image::Image;
use riceshoal::{BitVec, Refusal, Span, MAX_BITS, MAX_SPANS};

/// The location of `nop`.
fn nop() -> Span {
    Span::new(0, 0, 3)
}

/// The exports that look at spans, with options in their range.
fn exports() -> [Export; 2] {
    [Export::Intelhex(64), Export::Annotated(annotated(b"nop", b""))]
}

/// A good span and then this one. The methods alone are asked, since the slices take no such
/// numbers.
fn refusals(offset: impl Into<Option<usize>>, size: usize) -> [Result<Vec<u8>, Refusal>; 2] {
    let image = Image::new(&[0x12], 8).located(0, 8, 0, nop()).located(offset, size, 0, nop());
    exports().map(|export| export.method(&image.bitvec()))
}

const SECOND: [Result<Vec<u8>, Refusal>; 2] =
    [Err(Refusal::SpanRange(1)), Err(Refusal::SpanRange(1))];

#[test]
fn large_offsets() {
    for bound in [MAX_BITS + 2, u32::MAX as usize, 1 << 32, 1 << 33, 1 << 63, usize::MAX - 1] {
        for offset in [bound - 1, bound, bound + 1] {
            for size in [0, 8, u32::MAX as usize, usize::MAX] {
                assert_eq!(refusals(offset, size), SECOND, "span ({offset},{size})");
            }
        }
    }
    assert_eq!(refusals(MAX_BITS, 1), SECOND);
    assert_eq!(refusals(MAX_BITS - 7, 8), SECOND);
}

#[test]
fn large_sizes() {
    for size in [MAX_BITS + 1, u32::MAX as usize, 1 << 32, (1 << 32) + 8, 1 << 63, usize::MAX] {
        assert_eq!(refusals(0, size), SECOND, "size {size}");
        // HEX skips a span with no offset; the listing cannot show it.
        let [hex, listing] = refusals(None, size);
        assert_eq!(hex.unwrap(), b":0100000012ED\n:00000001FF");
        assert_eq!(listing, Err(Refusal::SpanFault(1)));
    }
}

#[test]
fn the_largest_span_is_taken() {
    let image = Image::new(&[0x12], 8).span(MAX_BITS - 8, 8);
    // Unit 64 gives address 262143.
    Export::Intelhex(64).check(&image, Err(Refusal::AddressRange));
    let image = Image::new(&[0x12], 8).span(MAX_BITS, 0).span(0, 8);
    Export::Intelhex(8).check(&image, Ok(b":0100000012ED\n:00000001FF"));
}

#[test]
fn the_first_bad_span_is_named_and_options_come_first() {
    let image = Image::new(&[0x12], 8).span(0, 8).span(1 << 40, 1).span(0, 1 << 40);
    let bitvec = image.bitvec();
    assert_eq!(bitvec.format_intelhex(8), Err(Refusal::SpanRange(1)));
    assert_eq!(bitvec.format_intelhex(0), Err(Refusal::OptionRange));
}

/// A start of `usize::MAX` alone says that there is no location, as in customasm.
#[test]
fn locations() {
    assert_eq!(Span::new(1, 2, 5).location(), Some((2, 5)));
    assert_eq!(Span::new(1, 2, usize::MAX).location(), Some((2, usize::MAX)));
    assert_eq!(Span::new(1, usize::MAX, 5).location(), None);
    assert_eq!(Span::new_dummy().location(), None);
}

/// 256 and 257 would be the files 0 and 1 if only their low byte were kept.
#[test]
fn large_file_handles() {
    let export = Export::Annotated(annotated(b"nop", b"nop"));
    for file in [2, 255, 256, 257, 1 << 32, usize::MAX] {
        let image = Image::new(&[0x12], 8).located(0, 8, 0, Span::new(file, 0, 3));
        assert_eq!(export.method(&image.bitvec()), Err(Refusal::SpanFault(0)), "file {file}");
    }
}

#[test]
fn large_addresses() {
    let image = Image::new(&[0x12], 8).located(0, 8, u64::MAX, nop());
    let text = " outp |             addr | data (base 16)\n\n  0:0 | ffffffffffffffff | 12 ; nop\n";
    Export::Annotated(annotated(b"nop", b"")).check(&image, Ok(text.as_bytes()));
}

#[test]
fn absent_offsets_come_first_in_a_listing() {
    let mut listing = annotated(b"nop", b"");
    listing.options.display_labels = true;
    let image = Image::new(&[0x12], 8).located(0, 8, 0, nop()).located(None, 0, 5, nop());
    let text =
        " outp | addr | data (base 16)\n\n --:- |    5 |    ; nop\n  0:0 |    0 | 12 ; nop\n";
    Export::Annotated(listing).check(&image, Ok(text.as_bytes()));
}

/// A list of `count` spans of one byte, `step` bits apart.
fn many(count: usize, step: usize) -> BitVec {
    let mut bitvec = BitVec::from_bytes(&[0x12], 8).unwrap();
    for place in 0..count {
        bitvec.mark_span(Some(place * step), 8, 0, nop());
    }
    bitvec
}

#[test]
fn long_lists() {
    for export in exports() {
        assert!(export.method(&many(MAX_SPANS, 16)).is_ok(), "{export:?}");
        // A long list comes before its bad spans.
        for (count, step) in [(MAX_SPANS + 1, 16), (MAX_SPANS + 2, 1 << 40), (100_000, 8)] {
            let refusal = Err(Refusal::SpanRange(MAX_SPANS));
            assert_eq!(export.method(&many(count, step)), refusal, "{export:?}, {count} spans");
        }
    }
    let text = many(MAX_SPANS, 16).format_intelhex(8).unwrap();
    assert_eq!(text.lines().count(), MAX_SPANS + 1);
    assert_eq!(text.lines().nth(MAX_SPANS - 1), Some(":011FFE0000E2"));
}
