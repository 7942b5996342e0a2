//! Writes OUT_DIR/modules.rs: the modules `util` and `diagn`, whose files are those of customasm in
//! the folder that the environment variable CUSTOMASM_SRC names.

use std::fmt::Write;
use std::path::{Path, PathBuf};
use std::{env, fs};

const MODULES: [(&str, &[&str]); 2] = [
    ("util", &["bigint", "bitvec", "bitvec_format", "char_counter", "fileserver"]),
    ("diagn", &["report", "span"]),
];

fn main() {
    println!("cargo:rerun-if-changed=build.rs");
    println!("cargo:rerun-if-env-changed=CUSTOMASM_SRC");
    let folder =
        env::var_os("CUSTOMASM_SRC").expect("CUSTOMASM_SRC: the folder of util/ and diagn/");
    let folder = fs::canonicalize(&folder).expect("CUSTOMASM_SRC");
    let out = PathBuf::from(env::var_os("OUT_DIR").unwrap()).join("modules.rs");
    fs::write(out, modules(&folder)).unwrap();
}

fn modules(folder: &Path) -> String {
    let mut text = String::new();
    for (module, files) in MODULES {
        writeln!(text, "#[allow(warnings)]\npub mod {module} {{").unwrap();
        for file in files {
            let path = folder.join(module).join(file).with_extension("rs");
            let path = path.to_str().expect("a path in UTF-8");
            writeln!(text, "    #[path = {path:?}]\n    mod {file};").unwrap();
            writeln!(text, "    pub use {file}::*;").unwrap();
        }
        if module == "util" {
            writeln!(text, "    pub use crate::styler::StringStyler;").unwrap();
        }
        writeln!(text, "}}").unwrap();
    }
    text
}
