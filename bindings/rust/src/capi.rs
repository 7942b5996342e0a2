//! The functions of include/riceshoal.h, and a safe function around each, which `slices` makes
//! public. All unsafe code of the crate stands here.

use crate::slices::{Binary, ListOptions, ListingColumns};
use crate::{FormatAnnotatedOptions, Refusal, SourceTexts};

mod raw {
    extern "C" {
        pub fn riceshoal_format_binary(
            image: *const u8,
            image_len: usize,
            bits: usize,
            out: *mut u8,
            out_len: usize,
            value: *mut u64,
            padded: *mut u8,
        ) -> u32;
        pub fn riceshoal_format_str(
            image: *const u8,
            image_len: usize,
            bits: usize,
            bits_per_digit: usize,
            out: *mut u8,
            out_len: usize,
            value: *mut u64,
        ) -> u32;
        pub fn riceshoal_format_readmemb(
            image: *const u8,
            image_len: usize,
            bits: usize,
            width: usize,
            out: *mut u8,
            out_len: usize,
            value: *mut u64,
        ) -> u32;
        pub fn riceshoal_format_readmemh(
            image: *const u8,
            image_len: usize,
            bits: usize,
            width: usize,
            out: *mut u8,
            out_len: usize,
            value: *mut u64,
        ) -> u32;
        pub fn riceshoal_format_separator(
            image: *const u8,
            image_len: usize,
            bits: usize,
            radix: usize,
            separator: *const u8,
            separator_len: usize,
            out: *mut u8,
            out_len: usize,
            value: *mut u64,
        ) -> u32;
        pub fn riceshoal_format_c_array(
            image: *const u8,
            image_len: usize,
            bits: usize,
            radix: usize,
            out: *mut u8,
            out_len: usize,
            value: *mut u64,
        ) -> u32;
        pub fn riceshoal_format_list(
            image: *const u8,
            image_len: usize,
            bits: usize,
            base: usize,
            digits_per_group: usize,
            groups_per_group2: usize,
            before: *const u8,
            before_len: usize,
            after: *const u8,
            after_len: usize,
            between: *const u8,
            between_len: usize,
            between2: *const u8,
            between2_len: usize,
            out: *mut u8,
            out_len: usize,
            value: *mut u64,
        ) -> u32;
        pub fn riceshoal_format_mif(
            image: *const u8,
            image_len: usize,
            bits: usize,
            out: *mut u8,
            out_len: usize,
            value: *mut u64,
        ) -> u32;
        pub fn riceshoal_format_logisim(
            image: *const u8,
            image_len: usize,
            bits: usize,
            bits_per_chunk: usize,
            out: *mut u8,
            out_len: usize,
            value: *mut u64,
        ) -> u32;
        pub fn riceshoal_format_dump(
            image: *const u8,
            image_len: usize,
            bits: usize,
            digit_bits: usize,
            byte_bits: usize,
            bytes_per_line: usize,
            out: *mut u8,
            out_len: usize,
            value: *mut u64,
        ) -> u32;
        pub fn riceshoal_format_intelhex(
            image: *const u8,
            image_len: usize,
            bits: usize,
            offsets: *const u32,
            offsets_len: usize,
            sizes: *const u32,
            sizes_len: usize,
            address_unit: usize,
            out: *mut u8,
            out_len: usize,
            value: *mut u64,
        ) -> u32;
        pub fn riceshoal_format_annotated(
            image: *const u8,
            image_len: usize,
            bits: usize,
            offsets: *const u32,
            offsets_len: usize,
            sizes: *const u32,
            sizes_len: usize,
            addrs: *const u64,
            addrs_len: usize,
            files: *const u8,
            files_len: usize,
            starts: *const u64,
            starts_len: usize,
            ends: *const u64,
            ends_len: usize,
            firmware: *const u8,
            firmware_len: usize,
            protocol: *const u8,
            protocol_len: usize,
            base: usize,
            addr_base: usize,
            digits_per_group: usize,
            display_labels: u8,
            out: *mut u8,
            out_len: usize,
            value: *mut u64,
        ) -> u32;
    }
}

/// The length of the text, or the refusal. `usize` has 64 bits, which build.rs sees to.
fn answer(number: u32, value: u64) -> Result<usize, Refusal> {
    match number {
        0 => Ok(value as usize),
        _ => Err(Refusal::new(number, value as usize)),
    }
}

/// A slice as C has it.
fn parts<T>(slice: &[T]) -> (*const T, usize) {
    (slice.as_ptr(), slice.len())
}

/// Calls a function of the library with the image, the options and the output buffer; a variable
/// that is named behind the buffer is stored to as well.
macro_rules! call {
    ($function:ident(
        $image:ident, $bits:ident $(, $option:ident)* ; $out:ident $(, $stored:ident)?
    )) => {{
        let mut value = 0;
        // SAFETY: the declaration is that of include/riceshoal.h. Each pointer comes from a slice
        // or a variable that outlives the call, so that none is null, and goes with its slice's
        // length. What is written, `out` and the variables, is borrowed for the call alone, so that
        // it overlaps nothing else.
        let number = unsafe {
            raw::$function(
                $image.as_ptr(),
                $image.len(),
                $bits,
                $($option,)*
                $out.as_mut_ptr(),
                $out.len(),
                &mut value,
                $(&mut $stored,)?
            )
        };
        answer(number, value)
    }};
}

/// The image's bytes, the last one filled with zeros. Refusals 1 and 8.
pub fn format_binary(image: &[u8], bits: usize, out: &mut [u8]) -> Result<Binary, Refusal> {
    let mut padded = 0;
    let len = call!(riceshoal_format_binary(image, bits; out, padded))?;
    Ok(Binary { len, padded: padded != 0 })
}

/// Digits of 1 to 5 bits, the last one filled with zeros. Refusals 1, 2 and 8.
pub fn format_str(
    image: &[u8],
    bits: usize,
    bits_per_digit: usize,
    out: &mut [u8],
) -> Result<usize, Refusal> {
    call!(riceshoal_format_str(image, bits, bits_per_digit; out))
}

/// The file that Verilog's `$readmemb` reads: lines of `width` bits, 1 to 4,096. Refusals 1, 2 and
/// 8.
pub fn format_readmemb(
    image: &[u8],
    bits: usize,
    width: usize,
    out: &mut [u8],
) -> Result<usize, Refusal> {
    call!(riceshoal_format_readmemb(image, bits, width; out))
}

/// The file that Verilog's `$readmemh` reads: lines of `width` bits, 1 to 4,096, in hexadecimal. A
/// line whose number of bits is not a multiple of 4 starts with the short digit. Refusals 1, 2 and
/// 8.
pub fn format_readmemh(
    image: &[u8],
    bits: usize,
    width: usize,
    out: &mut [u8],
) -> Result<usize, Refusal> {
    call!(riceshoal_format_readmemh(image, bits, width; out))
}

/// The image's bytes as numbers of radix 10, or 16 (`0x` and two digits), with the separator, of at
/// most 256 bytes, between two of them, and a newline after the separator behind each 16th.
/// Refusals 1, 2 and 8.
pub fn format_separator(
    image: &[u8],
    bits: usize,
    radix: usize,
    separator: &[u8],
    out: &mut [u8],
) -> Result<usize, Refusal> {
    let (string, len) = parts(separator);
    call!(riceshoal_format_separator(image, bits, radix, string, len; out))
}

/// An array in C of the image's bytes in radix 10 or 16, 16 on a line, with the address in a
/// comment before each line. Refusals 1, 2, 4 and 8.
pub fn format_c_array(
    image: &[u8],
    bits: usize,
    radix: usize,
    out: &mut [u8],
) -> Result<usize, Refusal> {
    call!(riceshoal_format_c_array(image, bits, radix; out))
}

/// Groups of digits with strings around and between them. Refusals 1, 2 and 8.
pub fn format_list(
    image: &[u8],
    bits: usize,
    options: &ListOptions,
    out: &mut [u8],
) -> Result<usize, Refusal> {
    let ListOptions { base, digits_per_group, groups_per_group2, .. } = *options;
    let ((b, n), (a, n2)) = (parts(options.before), parts(options.after));
    let ((g, n3), (g2, n4)) = (parts(options.between), parts(options.between2));
    call!(riceshoal_format_list(
        image, bits, base, digits_per_group, groups_per_group2, b, n, a, n2, g, n3, g2, n4; out
    ))
}

/// A memory initialization file: the image's bytes, each on a line with its address. Refusals 1, 4
/// and 8.
pub fn format_mif(image: &[u8], bits: usize, out: &mut [u8]) -> Result<usize, Refusal> {
    call!(riceshoal_format_mif(image, bits; out))
}

/// An image file of Logisim, v2.0 raw: chunks of 1 to 4,096 bits in hexadecimal. A newline follows
/// a chunk where (bits so far / 8) mod 16 is 0. Refusals 1, 2 and 8.
pub fn format_logisim(
    image: &[u8],
    bits: usize,
    bits_per_chunk: usize,
    out: &mut [u8],
) -> Result<usize, Refusal> {
    call!(riceshoal_format_logisim(image, bits, bits_per_chunk; out))
}

/// A dump with addresses and characters: digits of 1 or 4 bits, bytes of 8, and 1 to 64 bytes on a
/// line. There are as many lines as the image's whole bytes need, but at least one, so that bits of
/// a last part of a byte that would start the next line are not shown. Refusals 1, 2 and 8.
pub fn format_dump(
    image: &[u8],
    bits: usize,
    digit_bits: usize,
    byte_bits: usize,
    bytes_per_line: usize,
    out: &mut [u8],
) -> Result<usize, Refusal> {
    call!(riceshoal_format_dump(image, bits, digit_bits, byte_bits, bytes_per_line; out))
}

/// Intel HEX: data records of at most 32 bytes for the blocks that the spans make, and the end
/// record. Span k is `sizes[k]` bits from bit `offsets[k]` on; an offset of 4294967295 is absent,
/// and the span is skipped. An address is a bit offset divided by `address_unit`, 1 to 64, rounded
/// down. Refusals 1, 2, 3, 5 and 8.
pub fn format_intelhex(
    image: &[u8],
    bits: usize,
    offsets: &[u32],
    sizes: &[u32],
    address_unit: usize,
    out: &mut [u8],
) -> Result<usize, Refusal> {
    let ((o, n), (s, n2)) = (parts(offsets), parts(sizes));
    call!(riceshoal_format_intelhex(image, bits, o, n, s, n2, address_unit; out))
}

/// An annotated listing: for each span its offset in bytes and bits, its address, its bits as
/// digits, and the part of a source text that it comes from. Refusals 1, 2, 3, 6, 7 and 8.
pub fn format_annotated(
    image: &[u8],
    bits: usize,
    spans: &ListingColumns,
    texts: &SourceTexts,
    options: &FormatAnnotatedOptions,
    out: &mut [u8],
) -> Result<usize, Refusal> {
    let ((o, n), (s, n2)) = (parts(spans.offsets), parts(spans.sizes));
    let ((a, n3), (f, n4)) = (parts(spans.addrs), parts(spans.files));
    let ((b, n5), (e, n6)) = (parts(spans.starts), parts(spans.ends));
    let ((t, n7), (t2, n8)) = (parts(texts.firmware), parts(texts.protocol));
    let FormatAnnotatedOptions { base, addr_base, digits_per_group, display_labels } = *options;
    let labels = display_labels.into();
    call!(riceshoal_format_annotated(
        image, bits, o, n, s, n2, a, n3, f, n4, b, n5, e, n6, t, n7, t2, n8, base, addr_base,
        digits_per_group, labels; out
    ))
}
