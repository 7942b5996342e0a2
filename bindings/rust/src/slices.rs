//! The exporters over slices, one for each function of include/riceshoal.h. They allocate nothing.
//!
//! An image is bytes and a length in bits. Bit 0 is the top bit of byte 0, and every bit at or past
//! `bits` reads as zero. A call returns the length of the text, which stands at the front of `out`;
//! the bytes behind it are as they were. Or it returns a [`Refusal`](crate::Refusal) and leaves all
//! of `out` as it was.
//!
//! To learn the length of a text before there is a buffer for it, call with an empty one: the
//! refusal is then [`NoRoom`](crate::Refusal::NoRoom) with the length needed, and only an empty
//! text fits.
//!
//! ```
//! use riceshoal::{slices, Refusal};
//!
//! let (image, offsets, sizes) = ([0xab, 0xc0], [0], [12]);
//! let export = |out: &mut [u8]| slices::format_intelhex(&image, 12, &offsets, &sizes, 8, out);
//!
//! let mut out = [b'-'; 28];
//! assert_eq!(export(&mut []), Err(Refusal::NoRoom(27)));
//! assert_eq!(export(&mut out), Ok(27));
//! assert_eq!(&out, b":02000000ABC093\n:00000001FF-");
//! ```

pub use crate::capi::{
    format_annotated, format_binary, format_c_array, format_dump, format_intelhex, format_list,
    format_logisim, format_mif, format_readmemb, format_readmemh, format_separator, format_str,
};

/// The offset that stands for none.
pub const ABSENT: u32 = u32::MAX;

/// What [`format_binary`] answers.
#[derive(Clone, Copy, Debug, Eq, PartialEq)]
pub struct Binary {
    /// The length of the file in bytes.
    pub len: usize,
    /// Whether zeros were added to fill the last byte.
    pub padded: bool,
}

/// The options of [`format_list`]. A string has at most 256 bytes and is copied as it is.
#[derive(Clone, Copy, Debug)]
pub struct ListOptions<'a> {
    /// The base of the digits: 2, 4, 8, 16 or 32.
    pub base: usize,
    /// The digits of a group, 1 to 64. The last group is filled with zeros.
    pub digits_per_group: usize,
    /// The groups after which `between2` stands in the place of `between`: 1 to 65,535, and also 0
    /// where `between2` is empty.
    pub groups_per_group2: usize,
    /// What stands before all groups.
    pub before: &'a [u8],
    /// What stands after all groups.
    pub after: &'a [u8],
    /// What stands between two groups.
    pub between: &'a [u8],
    /// What stands between two groups after every `groups_per_group2` of them; where it is empty,
    /// `between` stands there too.
    pub between2: &'a [u8],
}

/// The spans of a listing: one list for each of their numbers, all of one length.
#[derive(Clone, Copy, Debug, Default)]
pub struct ListingColumns<'a> {
    /// The offsets in bits; [`ABSENT`] is none.
    pub offsets: &'a [u32],
    /// The sizes in bits.
    pub sizes: &'a [u32],
    /// The logical addresses.
    pub addrs: &'a [u64],
    /// The source texts: 0 is the firmware's, 1 the protocol's.
    pub files: &'a [u8],
    /// The first bytes in the source texts; 18446744073709551615 is no location.
    pub starts: &'a [u64],
    /// The bytes behind the last ones in the source texts.
    pub ends: &'a [u64],
}
