//! The Rust of customasm: its modules `util` and `diagn`, as far as the exporters need them.

mod styler;

include!(concat!(env!("OUT_DIR"), "/modules.rs"));
