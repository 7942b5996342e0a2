//! What is said where the library touches a page that it may not.

use crate::check;
use std::ffi::c_int;

// The number of Linux.
const SIGSEGV: c_int = 11;

extern "C" {
    fn signal(number: c_int, handler: extern "C" fn(c_int)) -> usize;
    fn _exit(code: c_int) -> !;
}

/// From now on the program says which call it was, and stops with 1.
pub fn report() {
    // Safe: the handler does not return.
    unsafe { signal(SIGSEGV, stop) };
}

/// The library has no lock and no memory of its own, so that a line can be made here.
extern "C" fn stop(_: c_int) {
    let call = check::running().unwrap_or_else(|| "not in a call".to_string());
    println!("outside what was lent: {call}");
    // Safe: nothing is to be written after this.
    unsafe { _exit(1) }
}
