//! Compares our static library with the Rust of customasm, or prints a sample of the Rust's
//! answers (`--vectors`). The environment variable RICESHOAL_SEED sets the seed of a comparison.
//! With `--page-end`, a part of the comparison is made with each buffer next to a page that may not
//! be touched; with `--memcheck`, a smaller part with each in a block of the heap of its own, for
//! valgrind.

#![cfg_attr(not(feature = "library"), allow(dead_code))]

#[cfg(feature = "library")]
mod annotated;
#[cfg(feature = "library")]
mod capi;
#[cfg(feature = "library")]
mod check;
#[cfg(feature = "library")]
mod dump;
#[cfg(feature = "library")]
mod fault;
#[cfg(feature = "library")]
mod hex;
mod input;
#[cfg(feature = "library")]
mod lend;
#[cfg(feature = "library")]
mod list;
mod listing;
#[cfg(feature = "library")]
mod memory;
mod options;
#[cfg(feature = "library")]
mod passes;
#[cfg(feature = "library")]
mod plain;
#[cfg(feature = "library")]
mod readmem;
#[cfg(feature = "library")]
mod runs;
mod spans;
mod vectors;

use std::process::ExitCode;

fn main() -> ExitCode {
    match std::env::args().nth(1).as_deref() {
        argument @ (None | Some("--page-end" | "--memcheck")) => compare(argument),
        Some("--vectors") => match vectors::print() {
            Ok(()) => ExitCode::SUCCESS,
            Err(error) => failed(&error.to_string()),
        },
        Some(other) => failed(&format!("unknown argument {other}")),
    }
}

fn failed(why: &str) -> ExitCode {
    eprintln!("compare: {why}");
    ExitCode::from(2)
}

#[cfg(not(feature = "library"))]
fn compare(_: Option<&str>) -> ExitCode {
    failed("built without the library")
}

#[cfg(feature = "library")]
fn compare(argument: Option<&str>) -> ExitCode {
    let seed = match std::env::var("RICESHOAL_SEED").map(|text| text.parse()) {
        Err(_) => input::SEED,
        Ok(Ok(seed)) => seed,
        Ok(Err(_)) => return failed("RICESHOAL_SEED is not a number"),
    };
    match passes::compare(argument, seed) {
        0 => ExitCode::SUCCESS,
        _ => ExitCode::FAILURE,
    }
}
