//! Links libcapi.a from the folder in RICESHOAL_LIB_DIR.

use std::env;
use std::path::Path;

fn main() {
    println!("cargo:rerun-if-changed=build.rs");
    println!("cargo:rerun-if-env-changed=RICESHOAL_LIB_DIR");
    if env::var_os("CARGO_FEATURE_LIBRARY").is_none() {
        return;
    }
    let folder = env::var("RICESHOAL_LIB_DIR").expect("RICESHOAL_LIB_DIR: the folder of libcapi.a");
    let library = Path::new(&folder).join("libcapi.a");
    assert!(library.is_file(), "{} is missing", library.display());
    println!("cargo:rerun-if-changed={}", library.display());
    println!("cargo:rustc-link-search=native={folder}");
    println!("cargo:rustc-link-lib=static=capi");
}
