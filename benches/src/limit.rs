//! The limit of Intel HEX: the loop of limit.c, and the library beside it.

use crate::cases::Case;
use crate::{measure, sides};
use std::hint::black_box;

extern "C" {
    fn limit_intelhex(image: *const u8, len: usize, out: *mut u8) -> usize;
}

/// The case that the loop is for: aligned bytes in one span, address unit 8.
pub const CASE: &str = "intelhex, 1 span, aligned, 64 KiB";
/// The most times as long as the loop that the library should take.
pub const TARGET: f64 = 2.0;

/// The nanoseconds of a call of the loop and of the library, after their texts are compared. The
/// loop's buffer is used again and not cleared first, as the library's.
pub fn measure(case: &Case) -> Result<[f64; 2], String> {
    let image = case.bytes();
    let out = sides::text(case, &image)?;
    let mut loop_out = vec![0; text_len(image.len())];
    let len = write(&image, &mut loop_out);
    if loop_out[..len] != out {
        return Err(format!("{}: the text of limit.c differs", case.name()));
    }
    let limit = || {
        write(black_box(&image), &mut loop_out);
        black_box(&mut loop_out);
    };
    let times = measure::medians(&mut [Box::new(limit), sides::ours(case, &image, out)]);
    Ok([times[0], times[1]])
}

/// The most characters of a text: a record of 32 bytes has 76 with its newline, the end record 11.
fn text_len(image_len: usize) -> usize {
    76 * image_len.div_ceil(32) + 11
}

/// Writes the loop's text and returns its length.
fn write(image: &[u8], out: &mut [u8]) -> usize {
    assert!(image.len() <= 65_536 && out.len() >= text_len(image.len()));
    // Safe: the slices are lent for the call, and `out` has room for the text.
    unsafe { limit_intelhex(image.as_ptr(), image.len(), out.as_mut_ptr()) }
}
