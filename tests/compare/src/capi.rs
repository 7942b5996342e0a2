//! The functions of include/riceshoal.h, and a safe function around each.

use crate::lend::{Lent, Room};
use crate::listing::Columns;

mod raw {
    extern "C" {
        pub fn riceshoal_format_binary(
            image: *const u8,
            image_len: usize,
            bits: usize,
            out: *mut u8,
            out_len: usize,
            value: *mut u64,
            padded: *mut u8,
        ) -> u32;
        pub fn riceshoal_format_str(
            image: *const u8,
            image_len: usize,
            bits: usize,
            bits_per_digit: usize,
            out: *mut u8,
            out_len: usize,
            value: *mut u64,
        ) -> u32;
        pub fn riceshoal_format_readmemb(
            image: *const u8,
            image_len: usize,
            bits: usize,
            width: usize,
            out: *mut u8,
            out_len: usize,
            value: *mut u64,
        ) -> u32;
        pub fn riceshoal_format_readmemh(
            image: *const u8,
            image_len: usize,
            bits: usize,
            width: usize,
            out: *mut u8,
            out_len: usize,
            value: *mut u64,
        ) -> u32;
        pub fn riceshoal_format_separator(
            image: *const u8,
            image_len: usize,
            bits: usize,
            radix: usize,
            separator: *const u8,
            separator_len: usize,
            out: *mut u8,
            out_len: usize,
            value: *mut u64,
        ) -> u32;
        pub fn riceshoal_format_c_array(
            image: *const u8,
            image_len: usize,
            bits: usize,
            radix: usize,
            out: *mut u8,
            out_len: usize,
            value: *mut u64,
        ) -> u32;
        pub fn riceshoal_format_list(
            image: *const u8,
            image_len: usize,
            bits: usize,
            base: usize,
            digits_per_group: usize,
            groups_per_group2: usize,
            before: *const u8,
            before_len: usize,
            after: *const u8,
            after_len: usize,
            between: *const u8,
            between_len: usize,
            between2: *const u8,
            between2_len: usize,
            out: *mut u8,
            out_len: usize,
            value: *mut u64,
        ) -> u32;
        pub fn riceshoal_format_mif(
            image: *const u8,
            image_len: usize,
            bits: usize,
            out: *mut u8,
            out_len: usize,
            value: *mut u64,
        ) -> u32;
        pub fn riceshoal_format_logisim(
            image: *const u8,
            image_len: usize,
            bits: usize,
            bits_per_chunk: usize,
            out: *mut u8,
            out_len: usize,
            value: *mut u64,
        ) -> u32;
        pub fn riceshoal_format_dump(
            image: *const u8,
            image_len: usize,
            bits: usize,
            digit_bits: usize,
            byte_bits: usize,
            bytes_per_line: usize,
            out: *mut u8,
            out_len: usize,
            value: *mut u64,
        ) -> u32;
        pub fn riceshoal_format_intelhex(
            image: *const u8,
            image_len: usize,
            bits: usize,
            offsets: *const u32,
            offsets_len: usize,
            sizes: *const u32,
            sizes_len: usize,
            address_unit: usize,
            out: *mut u8,
            out_len: usize,
            value: *mut u64,
        ) -> u32;
        pub fn riceshoal_format_annotated(
            image: *const u8,
            image_len: usize,
            bits: usize,
            offsets: *const u32,
            offsets_len: usize,
            sizes: *const u32,
            sizes_len: usize,
            addrs: *const u64,
            addrs_len: usize,
            files: *const u8,
            files_len: usize,
            starts: *const u64,
            starts_len: usize,
            ends: *const u64,
            ends_len: usize,
            firmware: *const u8,
            firmware_len: usize,
            protocol: *const u8,
            protocol_len: usize,
            base: usize,
            addr_base: usize,
            digits_per_group: usize,
            display_labels: u8,
            out: *mut u8,
            out_len: usize,
            value: *mut u64,
        ) -> u32;
    }
}

/// What a call returns besides the buffer. `padded` is 0 for a function that does not have it.
#[derive(Clone, Copy, PartialEq)]
pub struct Answer {
    pub code: u32,
    pub value: u64,
    pub padded: u8,
}

/// An answer before the call, so that a value that is not stored is seen.
const UNSET: Answer = Answer { code: 0xa5a5_a5a5, value: 0xa5a5_a5a5_a5a5_a5a5, padded: 0xa5 };

impl Answer {
    /// The bytes that are written to the output buffer.
    fn text_len(&self) -> usize {
        if self.code == 0 {
            self.value as usize
        } else {
            0
        }
    }
}

/// The answer of a function of the library, which is lent the image, its options, the output buffer
/// and what comes after it.
macro_rules! call {
    (
        $function:ident(
            $image:ident, $bits:ident $(, $option:expr)* ; $out:ident $(, $more:expr)*
        )
    ) => {{
        let mut answer = Answer { padded: 0, ..UNSET };
        let (image, out) = (Lent::new($image), Room::new($out));
        let value = Room::one(&mut answer.value);
        // Safe: the slices are lent for the call, and what is written overlaps nothing else.
        let code = unsafe {
            raw::$function(
                image.ptr(),
                image.len(),
                $bits,
                $($option,)*
                out.ptr(),
                out.len(),
                value.ptr(),
                $($more,)*
            )
        };
        value.back(1);
        answer.code = code;
        out.back(answer.text_len());
        answer
    }};
}

pub fn format_binary(image: &[u8], bits: usize, out: &mut [u8]) -> Answer {
    let mut stored = UNSET.padded;
    let padded = Room::one(&mut stored);
    let answer = call!(riceshoal_format_binary(image, bits; out, padded.ptr()));
    padded.back(1);
    Answer { padded: stored, ..answer }
}

pub fn format_str(image: &[u8], bits: usize, bits_per_digit: usize, out: &mut [u8]) -> Answer {
    call!(riceshoal_format_str(image, bits, bits_per_digit; out))
}

pub fn format_readmemb(image: &[u8], bits: usize, width: usize, out: &mut [u8]) -> Answer {
    call!(riceshoal_format_readmemb(image, bits, width; out))
}

pub fn format_readmemh(image: &[u8], bits: usize, width: usize, out: &mut [u8]) -> Answer {
    call!(riceshoal_format_readmemh(image, bits, width; out))
}

pub fn format_separator(
    image: &[u8],
    bits: usize,
    radix: usize,
    separator: &[u8],
    out: &mut [u8],
) -> Answer {
    let s = Lent::new(separator);
    call!(riceshoal_format_separator(image, bits, radix, s.ptr(), s.len(); out))
}

pub fn format_c_array(image: &[u8], bits: usize, radix: usize, out: &mut [u8]) -> Answer {
    call!(riceshoal_format_c_array(image, bits, radix; out))
}

/// The numbers are the base, the digits per group and the groups per second group; the strings are
/// those before, after, between and second between.
pub fn format_list(
    image: &[u8],
    bits: usize,
    [base, digits, groups]: [usize; 3],
    strings: [&[u8]; 4],
    out: &mut [u8],
) -> Answer {
    let [s, s2, s3, s4] = strings.map(Lent::new);
    call!(riceshoal_format_list(
        image, bits, base, digits, groups, s.ptr(), s.len(), s2.ptr(), s2.len(), s3.ptr(),
        s3.len(), s4.ptr(), s4.len(); out
    ))
}

pub fn format_mif(image: &[u8], bits: usize, out: &mut [u8]) -> Answer {
    call!(riceshoal_format_mif(image, bits; out))
}

pub fn format_logisim(image: &[u8], bits: usize, bits_per_chunk: usize, out: &mut [u8]) -> Answer {
    call!(riceshoal_format_logisim(image, bits, bits_per_chunk; out))
}

/// The numbers are the bits of a digit, the bits of a byte and the bytes on a line.
pub fn format_dump(
    image: &[u8],
    bits: usize,
    [digit_bits, byte_bits, bytes_per_line]: [usize; 3],
    out: &mut [u8],
) -> Answer {
    call!(riceshoal_format_dump(image, bits, digit_bits, byte_bits, bytes_per_line; out))
}

pub fn format_intelhex(
    image: &[u8],
    bits: usize,
    offsets: &[u32],
    sizes: &[u32],
    address_unit: usize,
    out: &mut [u8],
) -> Answer {
    let (o, s) = (Lent::new(offsets), Lent::new(sizes));
    call!(riceshoal_format_intelhex(
        image, bits, o.ptr(), o.len(), s.ptr(), s.len(), address_unit; out
    ))
}

/// The texts are the firmware's and the protocol's; the numbers are the base, the address base and
/// the digits per group.
pub fn format_annotated(
    image: &[u8],
    bits: usize,
    columns: &Columns,
    texts: &[Vec<u8>; 2],
    [base, addr_base, digits]: [usize; 3],
    labels: u8,
    out: &mut [u8],
) -> Answer {
    let [o, s] = [&columns.spans.offsets, &columns.spans.sizes].map(|numbers| Lent::new(numbers));
    let [a, b, e] =
        [&columns.addrs, &columns.starts, &columns.ends].map(|numbers| Lent::new(numbers));
    let [f, t, t2] = [&columns.files, &texts[0], &texts[1]].map(|bytes| Lent::new(bytes));
    call!(riceshoal_format_annotated(
        image, bits, o.ptr(), o.len(), s.ptr(), s.len(), a.ptr(), a.len(), f.ptr(), f.len(),
        b.ptr(), b.len(), e.ptr(), e.len(), t.ptr(), t.len(), t2.ptr(), t2.len(), base, addr_base,
        digits, labels; out
    ))
}
