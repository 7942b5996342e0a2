//! What the allocator does with memory that is freed.

extern "C" {
    fn mallopt(parameter: i32, value: i32) -> i32;
}

/// M_TRIM_THRESHOLD and M_MMAP_MAX of glibc.
const TRIM_THRESHOLD: i32 = -1;
const MMAP_MAX: i32 = -4;

/// Keeps freed memory for the next allocation. By default the allocator gives large parts back to
/// the system or not, by what was allocated before, and a time depends on the cases before it.
pub fn keep_freed() {
    // Safe: no memory is lent.
    let done = unsafe { [mallopt(TRIM_THRESHOLD, i32::MAX), mallopt(MMAP_MAX, 0)] };
    assert_eq!(done, [1, 1], "mallopt");
}
