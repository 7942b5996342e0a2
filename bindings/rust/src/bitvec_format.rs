//! The exports of an image, with customasm's names and options.

use crate::slices::{self, ListOptions, ListingColumns};
use crate::{BitVec, BitVecSpan, Refusal};

/// The options of [`BitVec::format_list`]. A string has at most 256 bytes.
#[derive(Clone, Debug, Eq, PartialEq)]
pub struct FormatListOptions {
    /// The base of the digits: 2, 4, 8, 16 or 32.
    pub base: usize,
    /// The digits of a group, 1 to 64. The last group is filled with zeros.
    pub digits_per_group: usize,
    /// The groups after which `str_between_groups2` stands in the place of `str_between_groups`: 1
    /// to 65,535, and also 0 where `str_between_groups2` is empty.
    pub groups_per_group2: usize,
    /// What stands before all groups.
    pub str_before: String,
    /// What stands after all groups.
    pub str_after: String,
    /// What stands between two groups.
    pub str_between_groups: String,
    /// What stands between two groups after every `groups_per_group2` of them; where it is empty,
    /// `str_between_groups` stands there too.
    pub str_between_groups2: String,
}

/// The options of [`BitVec::format_annotated`].
#[derive(Clone, Copy, Debug, Eq, PartialEq)]
pub struct FormatAnnotatedOptions {
    /// The base of the digits: 2, 4, 8, 16 or 32.
    pub base: usize,
    /// The base of offsets and addresses, 2 to 36.
    pub addr_base: usize,
    /// The digits of a group, 1 to 64.
    pub digits_per_group: usize,
    /// Whether spans of size 0 are shown. Where they are not, those with an offset still count for
    /// the widths of the columns.
    pub display_labels: bool,
}

/// The options of [`BitVec::format_readmemb`] and [`BitVec::format_readmemh`].
#[derive(Clone, Copy, Debug, Eq, PartialEq)]
pub struct FormatReadMemOptions {
    /// The bits of a line, 1 to 4,096.
    pub width: usize,
}

/// The two source texts of a listing, in ASCII, each of at most 1,048,576 bytes. They stand for
/// customasm's file server.
#[derive(Clone, Copy, Debug, Default, Eq, PartialEq)]
pub struct SourceTexts<'a> {
    /// The text of the file handle 0.
    pub firmware: &'a [u8],
    /// The text of the file handle 1.
    pub protocol: &'a [u8],
}

/// What an export writes. Its length is asked for first: an empty buffer gets it with refusal 8.
fn bytes(export: impl Fn(&mut [u8]) -> Result<usize, Refusal>) -> Result<Vec<u8>, Refusal> {
    let needed = match export(&mut []) {
        Err(Refusal::NoRoom(needed)) => needed,
        answer => return answer.map(|_| Vec::new()),
    };
    let mut out = Vec::new();
    // A text can be longer than the memory there is.
    out.try_reserve_exact(needed).map_err(|_| Refusal::NoRoom(needed))?;
    out.resize(needed, 0);
    export(&mut out)?;
    Ok(out)
}

/// The same as a text. All that is written is ASCII, but for a caller's strings, which are copied
/// whole and are UTF-8: a listing's source texts are ASCII too, so that no excerpt cuts a
/// character.
fn text(export: impl Fn(&mut [u8]) -> Result<usize, Refusal>) -> Result<String, Refusal> {
    Ok(String::from_utf8(bytes(export)?).expect("a text of ASCII and whole UTF-8 strings"))
}

/// The exports. Each returns what customasm's method of that name does, or a refusal. All can
/// return [`Refusal::ImageSize`] and [`Refusal::NoRoom`]; the other causes are named at each
/// method.
impl BitVec {
    /// The bytes of the image. Where [`len`](BitVec::len) is not a multiple of 8, the last byte is
    /// filled with zeros; customasm then reports a warning.
    pub fn format_binary(&self) -> Result<Vec<u8>, Refusal> {
        bytes(|out| Ok(slices::format_binary(self.data(), self.len(), out)?.len))
    }

    /// The bits as digits.
    pub fn format_binstr(&self) -> Result<String, Refusal> {
        self.format_str(1)
    }

    /// The image in hexadecimal, the last digit filled with zeros.
    pub fn format_hexstr(&self) -> Result<String, Refusal> {
        self.format_str(4)
    }

    /// Digits of 1 to 5 bits, the last one filled with zeros. Refusal 2 for another number of bits.
    pub fn format_str(&self, bits_per_digit: usize) -> Result<String, Refusal> {
        text(|out| slices::format_str(self.data(), self.len(), bits_per_digit, out))
    }

    /// The dump with digits of 1 bit and 8 bytes on a line.
    pub fn format_bindump(&self) -> Result<String, Refusal> {
        self.format_dump(1, 8, 8)
    }

    /// The dump with digits of 4 bits and 16 bytes on a line.
    pub fn format_hexdump(&self) -> Result<String, Refusal> {
        self.format_dump(4, 8, 16)
    }

    /// A dump with addresses and characters: digits of 1 or 4 bits, bytes of 8, and 1 to 64 bytes
    /// on a line. There are as many lines as the image's whole bytes need, but at least one, so
    /// that bits of a last part of a byte that would start the next line are not shown. Refusal 2
    /// for other numbers.
    pub fn format_dump(
        &self,
        digit_bits: usize,
        byte_bits: usize,
        bytes_per_line: usize,
    ) -> Result<String, Refusal> {
        text(|out| {
            let (data, len) = (self.data(), self.len());
            slices::format_dump(data, len, digit_bits, byte_bits, bytes_per_line, out)
        })
    }

    /// A memory initialization file: the image's bytes, each on a line with its address. Refusal 4
    /// for an image of no bits.
    pub fn format_mif(&self) -> Result<String, Refusal> {
        text(|out| slices::format_mif(self.data(), self.len(), out))
    }

    /// Intel HEX: data records of at most 32 bytes for the blocks that the spans make, and the end
    /// record. An address is a bit offset divided by `address_unit`, rounded down. Refusal 2 for a
    /// unit outside 1 to 64, 3 for spans outside their range, 5 for an address above 65,535.
    ///
    /// ```
    /// use riceshoal::{BitVec, Refusal, Span};
    ///
    /// let mut bitvec = BitVec::from_bytes(&[0x12], 8)?;
    /// bitvec.mark_span(Some(0), 8, 0, Span::new_dummy());
    /// assert_eq!(bitvec.format_intelhex(8)?, ":0100000012ED\n:00000001FF");
    ///
    /// bitvec.mark_span(Some(usize::MAX), 8, 0, Span::new_dummy());
    /// assert_eq!(bitvec.format_intelhex(8), Err(Refusal::SpanRange(1)));
    /// # Ok::<(), Refusal>(())
    /// ```
    pub fn format_intelhex(&self, address_unit: usize) -> Result<String, Refusal> {
        let offsets = self.column(BitVecSpan::offset_number);
        let sizes = self.column(BitVecSpan::size_number);
        text(|out| {
            let (data, len) = (self.data(), self.len());
            slices::format_intelhex(data, len, &offsets, &sizes, address_unit, out)
        })
    }

    /// Groups of digits with strings around and between them. Refusal 2 for options outside their
    /// range.
    ///
    /// ```
    /// use riceshoal::{BitVec, FormatListOptions};
    ///
    /// let bitvec = BitVec::from_bytes(&[0xab, 0xc0], 12)?;
    /// let options = FormatListOptions {
    ///     base: 16,
    ///     digits_per_group: 2,
    ///     groups_per_group2: 0,
    ///     str_before: "[".to_string(),
    ///     str_after: "]".to_string(),
    ///     str_between_groups: ",".to_string(),
    ///     str_between_groups2: String::new(),
    /// };
    /// assert_eq!(bitvec.format_list(&options)?, "[ab,c0]");
    /// # Ok::<(), riceshoal::Refusal>(())
    /// ```
    pub fn format_list(&self, opts: &FormatListOptions) -> Result<String, Refusal> {
        let options = ListOptions {
            base: opts.base,
            digits_per_group: opts.digits_per_group,
            groups_per_group2: opts.groups_per_group2,
            before: opts.str_before.as_bytes(),
            after: opts.str_after.as_bytes(),
            between: opts.str_between_groups.as_bytes(),
            between2: opts.str_between_groups2.as_bytes(),
        };
        text(|out| slices::format_list(self.data(), self.len(), &options, out))
    }

    /// The image's bytes as numbers of radix 10 or 16 with a separator between two of them, and a
    /// newline after the separator behind each 16th. Refusal 2 for another radix or a separator of
    /// more than 256 bytes.
    pub fn format_separator(&self, radix: usize, separator: &str) -> Result<String, Refusal> {
        let separator = separator.as_bytes();
        text(|out| slices::format_separator(self.data(), self.len(), radix, separator, out))
    }

    /// An array in C of the image's bytes in radix 10 or 16. Refusal 2 for another radix, 4 for an
    /// image of no bits.
    pub fn format_c_array(&self, radix: usize) -> Result<String, Refusal> {
        text(|out| slices::format_c_array(self.data(), self.len(), radix, out))
    }

    /// An image file of Logisim, v2.0 raw, of chunks of 1 to 4,096 bits. Refusal 2 for another
    /// number.
    pub fn format_logisim(&self, bits_per_chunk: usize) -> Result<String, Refusal> {
        text(|out| slices::format_logisim(self.data(), self.len(), bits_per_chunk, out))
    }

    /// An annotated listing: for each span its offset in bytes and bits, its address, its bits as
    /// digits, and the part of a source text that it comes from. Refusal 2 for options outside
    /// their range, 3 for spans outside it, 6 for a source text that is too long or not ASCII, 7
    /// for a span that cannot be shown.
    ///
    /// ```
    /// use riceshoal::{BitVec, FormatAnnotatedOptions, SourceTexts, Span};
    ///
    /// let mut bitvec = BitVec::from_bytes(&[0x12], 8)?;
    /// bitvec.mark_span(Some(0), 8, 0, Span::new(0, 0, 3));
    /// let texts = SourceTexts { firmware: b"nop", protocol: b"" };
    /// let options = FormatAnnotatedOptions {
    ///     base: 16,
    ///     addr_base: 16,
    ///     digits_per_group: 2,
    ///     display_labels: false,
    /// };
    /// let listing = " outp | addr | data (base 16)\n\n  0:0 |    0 | 12 ; nop\n";
    /// assert_eq!(bitvec.format_annotated(&texts, &options)?, listing);
    /// # Ok::<(), riceshoal::Refusal>(())
    /// ```
    pub fn format_annotated(
        &self,
        texts: &SourceTexts,
        options: &FormatAnnotatedOptions,
    ) -> Result<String, Refusal> {
        let spans = ListingColumns {
            offsets: &self.column(BitVecSpan::offset_number),
            sizes: &self.column(BitVecSpan::size_number),
            addrs: &self.column(|span| span.addr),
            files: &self.column(BitVecSpan::file_number),
            starts: &self.column(BitVecSpan::start_number),
            ends: &self.column(BitVecSpan::end_number),
        };
        text(|out| slices::format_annotated(self.data(), self.len(), &spans, texts, options, out))
    }

    /// The file that Verilog's `$readmemb` reads, a line for each `width` bits. Refusal 2 for a
    /// width outside its range.
    pub fn format_readmemb(&self, opts: &FormatReadMemOptions) -> Result<String, Refusal> {
        text(|out| slices::format_readmemb(self.data(), self.len(), opts.width, out))
    }

    /// The file that Verilog's `$readmemh` reads, a line in hexadecimal for each `width` bits. A
    /// line whose number of bits is not a multiple of 4 starts with the short digit. Refusal 2 for
    /// a width outside its range.
    pub fn format_readmemh(&self, opts: &FormatReadMemOptions) -> Result<String, Refusal> {
        text(|out| slices::format_readmemh(self.data(), self.len(), opts.width, out))
    }
}

#[cfg(test)]
mod tests {
    use super::*;

    #[test]
    fn a_text_that_no_memory_holds_is_refused_with_its_length() {
        for needed in [1 << 62, usize::MAX] {
            assert_eq!(bytes(|_| Err(Refusal::NoRoom(needed))), Err(Refusal::NoRoom(needed)));
        }
    }
}
