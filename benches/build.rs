//! Compiles limit.c and links it. The crate `riceshoal` links the static library.

use std::env;
use std::path::PathBuf;
use std::process::Command;

fn main() {
    println!("cargo:rerun-if-changed=build.rs");
    println!("cargo:rerun-if-changed=limit.c");
    let folder = PathBuf::from(env::var_os("OUT_DIR").unwrap());
    let (object, library) = (folder.join("limit.o"), folder.join("liblimit.a"));
    let options = ["-O2", "-Wall", "-Wextra", "-Werror", "-c", "limit.c", "-o"];
    run(Command::new("cc").args(options).arg(&object));
    run(Command::new("ar").arg("crs").arg(&library).arg(&object));
    println!("cargo:rustc-link-search=native={}", folder.display());
    println!("cargo:rustc-link-lib=static=limit");
}

fn run(command: &mut Command) {
    let status = command.status().unwrap_or_else(|error| panic!("{command:?}: {error}"));
    assert!(status.success(), "{command:?}: {status}");
}
