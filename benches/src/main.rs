//! Measures the exporters of the static library beside those of the Rust of customasm, on the same
//! images in one run, and prints a table.
//!
//!   benchmark [WORD..]                only the cases whose names have every word
//!   benchmark --only-ours N [WORD..]  calls the library alone, N times for each case

mod cases;
mod clock;
mod exporters;
mod heap;
#[allow(dead_code)]
#[path = "../../tests/compare/src/input.rs"]
mod input;
mod limit;
#[allow(dead_code)]
#[path = "../../tests/compare/src/listing.rs"]
mod listing;
mod lists;
mod measure;
#[allow(dead_code)]
#[path = "../../tests/compare/src/options.rs"]
mod options;
mod sides;
#[allow(dead_code)]
#[path = "../../tests/compare/src/spans.rs"]
mod spans;
mod table;

use cases::{Case, Group};
use input::Image;
use std::collections::BTreeMap;
use std::process::ExitCode;
use table::Table;

fn main() -> ExitCode {
    heap::keep_freed();
    let arguments: Vec<String> = std::env::args().skip(1).collect();
    let done = match arguments.split_first() {
        Some((option, rest)) if option == "--only-ours" => only_ours(rest),
        _ => compare(&arguments),
    };
    match done {
        Ok(()) => ExitCode::SUCCESS,
        Err(why) => {
            eprintln!("benchmark: {why}");
            ExitCode::FAILURE
        }
    }
}

/// The cases whose names have every word.
fn chosen(words: &[String]) -> Result<Vec<Group>, String> {
    let has = |case: &Case| words.iter().all(|word| case.name().contains(word.as_str()));
    let some = |group: Group| group.into_iter().filter(has).collect::<Group>();
    let groups: Vec<Group> = cases::all().map(some).filter(|group| !group.is_empty()).collect();
    match groups.is_empty() {
        true => Err(format!("no case has all words of {words:?}")),
        false => Ok(groups),
    }
}

/// Measures both sides and prints the table. An image is made once for all cases that have it.
fn compare(words: &[String]) -> Result<(), String> {
    let groups = chosen(words)?;
    let mut table = Table::head();
    let mut images = BTreeMap::new();
    for group in &groups {
        for case in group {
            let new = || Image::new(case.bytes(), case.bits);
            case.mark(&mut images.entry(case.bits).or_insert_with(new).rust);
        }
        table.group(group, &sides::measure(group, &images)?);
    }
    if let Some(case) = groups.iter().flatten().find(|case| case.name() == limit::CASE) {
        table::limit(case, limit::measure(case)?);
    }
    table.end();
    Ok(())
}

/// Calls the library alone, so that a profiler sees little else.
fn only_ours(arguments: &[String]) -> Result<(), String> {
    let usage = "--only-ours is followed by a number of calls and by words";
    let (calls, words) = arguments.split_first().ok_or(usage)?;
    let calls: usize = calls.parse().map_err(|_| usage)?;
    for case in chosen(words)?.iter().flatten() {
        let time = sides::only_ours(case, calls)?;
        println!("{}: {calls} calls, {time:.0} ns each", case.name());
    }
    Ok(())
}
