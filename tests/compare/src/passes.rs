//! The passes of a comparison: which runs are made with the buffers in which place, and how much of
//! each.

use crate::check::{Checker, Family};
use crate::lend::{set_place, Place};
use crate::{annotated, dump, fault, hex, list, memory, plain, readmem, runs};
use std::time::Instant;

/// A run: its name, its function, and its sample: of so many inputs one is tried in pages, and of so
/// many in the heap. 0 leaves the run out; the largest images take valgrind too long.
type Run = (&'static str, fn(&mut Checker, &[Family]), [usize; 2]);

const RUNS: [Run; 19] = [
    ("every image of 0 to 12 bits", runs::small, [20, 800]),
    ("lengths of 0 to 600 bits", runs::lengths, [20, 800]),
    ("lengths around bytes and lines", runs::boundaries, [10, 300]),
    ("65,535 to 65,537 bits", runs::large, [2, 30]),
    ("16,777,215 and 16,777,216 bits", runs::limit, [6, 0]),
    ("refused bits, options and spans", runs::refusals, [20, 800]),
    ("every list of 0 to 4 spans on a grid", hex::grid, [4, 100]),
    ("random lists of spans", hex::lists, [10, 300]),
    ("lists of up to 4,096 spans", hex::long, [1, 10]),
    ("addresses around 65,535", hex::edges, [4, 50]),
    ("every listing of 0 to 3 spans on a grid", annotated::grid, [1, 40]),
    ("listings with all options", annotated::options, [2, 100]),
    ("random listings", annotated::lists, [4, 150]),
    ("listings across the image's end", annotated::ends, [2, 100]),
    ("listings with wide columns", annotated::widths, [2, 100]),
    ("listings of up to 4,096 spans", annotated::long, [1, 10]),
    ("listings that no room holds", annotated::huge, [1, 10]),
    ("source texts", annotated::sources, [1, 40]),
    ("refused listings", annotated::refusals, [2, 100]),
];

/// A pass over the runs with the buffers in one place.
struct Pass {
    name: &'static str,
    place: Place,
    /// Which of a run's samples is tried; none where all inputs are.
    sample: Option<usize>,
}

const ALL: &[Pass] = &[Pass { name: "", place: Place::Own, sample: None }];
const PAGES: &[Pass] = &[
    Pass { name: "at the end of a page: ", place: Place::PageEnd, sample: Some(0) },
    Pass { name: "at the start of a page: ", place: Place::PageStart, sample: Some(0) },
];
const HEAP: &[Pass] =
    &[Pass { name: "in blocks of the heap: ", place: Place::Heap, sample: Some(1) }];

/// The comparison that an argument of the program names; the number of differences.
pub fn compare(argument: Option<&str>, seed: u64) -> u64 {
    let passes = match argument {
        None => ALL,
        Some("--page-end") => PAGES,
        Some(_) => HEAP,
    };
    if argument == Some("--page-end") {
        fault::report();
    }
    passes.iter().map(|pass| make(pass, seed)).sum()
}

fn make(pass: &Pass, seed: u64) -> u64 {
    let families = [
        plain::family(),
        readmem::family(),
        list::family(),
        memory::family(),
        dump::family(),
        hex::family(),
        annotated::family(),
    ];
    let mut checker = Checker::new(seed);
    set_place(pass.place);
    for (name, run, one_in) in RUNS {
        checker.one_in = pass.sample.map_or(1, |sample| one_in[sample]);
        if checker.one_in == 0 {
            continue;
        }
        let (start, calls) = (Instant::now(), checker.calls);
        run(&mut checker, &families);
        if pass.sample.is_none() {
            let seconds = start.elapsed().as_secs_f64();
            eprintln!("compare: {name}: {} calls, {seconds:.1} s", checker.calls - calls);
        }
    }
    let Checker { calls, differences, .. } = checker;
    println!("compare: {}{calls} comparisons, {differences} differences", pass.name);
    differences
}
