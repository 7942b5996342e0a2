//! Finds libcapi.a and links it. It is looked for in the folder that RICESHOAL_LIB_DIR names, or
//! else in the repository's crates/capi/out, where `rt lib` makes it if there is none.

use std::env;
use std::path::{Path, PathBuf};
use std::process::{exit, Command};

const LIBRARY: &str = "libcapi.a";
/// What a user without the toolchain can do.
const REMEDY: &str = "Set RICESHOAL_LIB_DIR to the folder of a libcapi.a";
/// The lines that are shown of what a failed `rt` printed.
const SHOWN: usize = 20;

fn main() {
    println!("cargo:rerun-if-changed=build.rs");
    println!("cargo:rerun-if-env-changed=RICESHOAL_LIB_DIR");
    if let Err(message) = check_target().and_then(|()| find_folder()).and_then(|at| link(&at)) {
        eprintln!("riceshoal: {message}");
        exit(1);
    }
}

/// The library is machine code for one target, whose `usize` has 64 bits.
fn check_target() -> Result<(), String> {
    let setting = |name| env::var(name).unwrap_or_default();
    let [arch, os, width] =
        ["CARGO_CFG_TARGET_ARCH", "CARGO_CFG_TARGET_OS", "CARGO_CFG_TARGET_POINTER_WIDTH"]
            .map(setting);
    if (arch.as_str(), os.as_str(), width.as_str()) == ("x86_64", "linux", "64") {
        return Ok(());
    }
    let target = setting("TARGET");
    Err(format!("the static library is for 64-bit x86-64 Linux alone; the target is {target}."))
}

/// The folder of the library.
fn find_folder() -> Result<PathBuf, String> {
    match env::var_os("RICESHOAL_LIB_DIR") {
        Some(folder) if !folder.is_empty() => named(folder.into()),
        _ => in_repository(),
    }
}

/// The folder that the user named.
fn named(folder: PathBuf) -> Result<PathBuf, String> {
    // A build script does not run in the folder in which cargo was started.
    if folder.is_relative() {
        return Err(format!("RICESHOAL_LIB_DIR is not an absolute path: {}.", folder.display()));
    }
    if !folder.join(LIBRARY).is_file() {
        return Err(format!("there is no {LIBRARY} in RICESHOAL_LIB_DIR, {}.", folder.display()));
    }
    Ok(folder)
}

/// The folder in which `rt` puts the library, which is made where it is missing.
fn in_repository() -> Result<PathBuf, String> {
    let crate_folder = env::var_os("CARGO_MANIFEST_DIR").expect("cargo sets CARGO_MANIFEST_DIR");
    let root = Path::new(&crate_folder).join("../..");
    let folder = root.join("crates/capi/out");
    if folder.join(LIBRARY).is_file() {
        return Ok(folder);
    }
    if !root.join("crates/capi").is_dir() {
        return Err(format!("this crate is not in Riceshoal's repository. {REMEDY}."));
    }
    make(&root)?;
    if !folder.join(LIBRARY).is_file() {
        return Err(format!("`rt lib` left no {LIBRARY} in {}.", folder.display()));
    }
    Ok(folder)
}

/// Runs `rt lib` in the crate's folder.
fn make(root: &Path) -> Result<(), String> {
    let run = Command::new("rt").arg("lib").current_dir(root.join("crates/capi")).output();
    let run = run.map_err(|error| {
        let missing = "there is no libcapi.a in the repository's crates/capi/out";
        let rt = format!("`rt`, which makes it, could not be run: {error}");
        format!("{missing}, and {rt}. {REMEDY}, or install Rattle's `rt`.")
    })?;
    if run.status.success() {
        return Ok(());
    }
    let printed = [run.stdout, run.stderr].concat();
    let printed = String::from_utf8_lossy(&printed);
    let lines: Vec<&str> = printed.lines().collect();
    let end = lines[lines.len().saturating_sub(SHOWN)..].join("\n");
    Err(format!("`rt lib` in crates/capi failed ({}). It printed:\n{end}", run.status))
}

/// Tells cargo to link the library.
fn link(folder: &Path) -> Result<(), String> {
    let path = folder.to_str().ok_or("the path of libcapi.a is not UTF-8.")?;
    println!("cargo:rerun-if-changed={path}/{LIBRARY}");
    println!("cargo:rustc-link-search=native={path}");
    println!("cargo:rustc-link-lib=static=capi");
    Ok(())
}
