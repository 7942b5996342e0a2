//! One case on every side: the texts compared, and the times.

use crate::cases::Case;
use crate::exporters::Answer;
use crate::input::Image;
use crate::measure::{self, Side};
use riceshoal::Refusal;
use std::collections::BTreeMap;
use std::hint::black_box;

/// The nanoseconds of a call of each side.
pub struct Times {
    pub rust: f64,
    pub ours: f64,
    /// Ours with a fresh buffer, whose length a call before tells.
    pub drop_in: f64,
    /// A plain copy of the text, from one buffer to another.
    pub copy: f64,
}

/// Measures cases together. The images of the Rust, by their bits, have the cases' spans.
pub fn measure(cases: &[Case], images: &BTreeMap<usize, Image>) -> Result<Vec<Times>, String> {
    let mut all = Vec::new();
    for case in cases {
        all.extend(sides(case, &images[&case.bits])?);
    }
    let medians = measure::medians(&mut all);
    let times = |four: &[f64]| {
        let [rust, ours, drop_in, copy] = four.try_into().expect("four sides");
        Times { rust, ours, drop_in, copy }
    };
    Ok(medians.chunks(4).map(times).collect())
}

/// The four sides of a case, after the texts are compared.
fn sides<'a>(case: &'a Case, image: &'a Image) -> Result<[Side<'a>; 4], String> {
    let out = text(case, &image.bytes)?;
    if out != (case.exporter.rust)(&image.rust) {
        return Err(format!("{}: the texts differ", case.name()));
    }
    let rust = move || {
        black_box((case.exporter.rust)(black_box(&image.rust)));
    };
    let drop_in = move || {
        let mut fresh = room(case, &image.bytes);
        assert!(call(case, &image.bytes, &mut fresh).is_ok());
    };
    let (text, mut other) = (out.clone(), out.clone());
    let copy = move || {
        other.copy_from_slice(black_box(&text));
        black_box(&mut other);
    };
    Ok([Box::new(rust), ours(case, &image.bytes, out), Box::new(drop_in), Box::new(copy)])
}

/// Calls of the library into one buffer.
pub fn ours<'a>(case: &'a Case, image: &'a [u8], mut out: Vec<u8>) -> Side<'a> {
    Box::new(move || assert!(call(case, image, &mut out).is_ok()))
}

/// Calls the library alone; the nanoseconds of a call.
pub fn only_ours(case: &Case, calls: usize) -> Result<f64, String> {
    let image = case.bytes();
    let mut ours = ours(case, &image, text(case, &image)?);
    Ok(measure::time(&mut ours, calls))
}

/// The library's text.
pub fn text(case: &Case, image: &[u8]) -> Result<Vec<u8>, String> {
    let mut out = room(case, image);
    match call(case, image, &mut out) {
        Ok(len) if len == out.len() => Ok(out),
        answer => Err(format!("{}: {answer:?} in a room of {}", case.name(), out.len())),
    }
}

/// A fresh buffer of the text's length, which is asked for with an empty one.
fn room(case: &Case, image: &[u8]) -> Vec<u8> {
    match call(case, image, &mut []) {
        Err(Refusal::NoRoom(needed)) => vec![0; needed],
        _ => Vec::new(),
    }
}

/// A call of the library.
fn call(case: &Case, image: &[u8], out: &mut [u8]) -> Answer {
    let answer = (case.exporter.ours)(black_box(image), case.bits, out);
    black_box(out);
    answer
}
