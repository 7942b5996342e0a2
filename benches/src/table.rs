//! The table: its head, a line for each case, and how many meet their targets.

use crate::cases::Case;
use crate::limit;
use crate::measure::{LEAST, ROUNDS};
use crate::sides::Times;

/// The most that the time may grow where the image is twice as large.
const GROWTH: f64 = 2.2;

/// The most times that of a plain copy of the text, where the memory makes it grow more than linearly.
const COPY: f64 = GROWTH / 2.0;

/// How many of the numbers that have a target meet it.
#[derive(Default)]
struct Count {
    met: usize,
    all: usize,
}

impl Count {
    /// Counts one, and says in a word whether it meets its target.
    fn word(&mut self, met: bool, missed: &'static str) -> &'static str {
        self.all += 1;
        self.met += met as usize;
        if met {
            "ok"
        } else {
            missed
        }
    }
}

/// What is counted over the lines.
#[derive(Default)]
pub struct Table {
    ratios: Count,
    growths: Count,
    /// Growths above the target that are at most `COPY` times that of a plain copy of the text.
    copies: usize,
}

impl Table {
    /// Prints what the columns hold, and their names.
    pub fn head() -> Table {
        let ([least, most], milliseconds) = (ROUNDS, LEAST / 1e6);
        println!(
            "\
Processor time in nanoseconds per byte of the image, of get_blocks per span: the median of
{least} to {most} rounds. A round measures all sides in turn, for each size of the image, in
as many calls as take {milliseconds} ms or more.
  Rust       a call, which allocates its text, and the release of the text
  Riceshoal  a call into a buffer of the text's length; all calls use one buffer, not cleared first
  drop-in    a call for the length, a fresh buffer of zeros, a call into it, the buffer's release
  ratio      the Rust's time divided by Riceshoal's, then by that of drop-in
  growth     Riceshoal's time for twice the image, from the size above to this one; at most {GROWTH}.
             copy: it is above, and at most {COPY} times that of a plain copy of the text, which is
             measured too: the larger text no longer fits in the processor's own memory
  off by 3   the image ends 3 bits before a byte does; spans start at bit 3
Images and spans are made before. Freed memory is kept, so that no allocation waits for the system.
Spans divide the image into equal parts from its start on; equal ones are all at its start.
Intel HEX has unit 8, and at 512 KiB, the most that its addresses reach, unit 64. The listing has
bases 16, 2 digits a group and labels. get_blocks is Intel HEX of spans of size 0: these make no
record, so that both sides order them, make the blocks and write the end record. The Rust copies its
spans first, which allocates for addresses other than 0; addr 0 says that all are 0.
"
        );
        println!(
            "{:40} {:8} {:>7} {:>9} {:>9} {:>7} {:>6} {:5} {:>6} {:5} {:>9} {:>7}",
            "exporter",
            "",
            "image",
            "Rust",
            "Riceshoal",
            "ratio",
            "target",
            "",
            "growth",
            "",
            "drop-in",
            "ratio"
        );
        Table::default()
    }

    /// Prints the lines of cases that differ in size alone.
    pub fn group(&mut self, cases: &[Case], times: &[Times]) {
        let mut last = None;
        for (case, times) in cases.iter().zip(times) {
            let from = |(size, before): (usize, &Times)| {
                let to = |before, now| growth((size, before), (case.size(), now));
                [to(before.ours, times.ours), to(before.copy, times.copy)]
            };
            self.line(case, times, last.map(from));
            last = Some((case.size(), times));
        }
    }

    /// Says in a word whether a growth meets its target; beside it stands that of a plain copy.
    fn growth(&mut self, ours: f64, copy: f64) -> &'static str {
        let copied = ours > GROWTH && ours <= COPY * copy;
        self.copies += copied as usize;
        self.growths.word(ours <= GROWTH, if copied { "copy" } else { "above" })
    }

    fn line(&mut self, case: &Case, times: &Times, growths: Option<[f64; 2]>) {
        let [rust, ours, drop_in] =
            [times.rust, times.ours, times.drop_in].map(|time| time / case.divisor());
        let ratio = rust / ours;
        let (target, word) = match case.exporter.target {
            None => ("-".to_string(), ""),
            Some(target) => (target.to_string(), self.ratios.word(ratio >= target, "below")),
        };
        let (growth, growth_word) = match growths {
            None => ("-".to_string(), ""),
            Some([ours, copy]) => (format!("{ours:.2}"), self.growth(ours, copy)),
        };
        println!(
            "{:40} {:8} {:>7} {rust:9.3} {ours:9.3} {ratio:7.2} {target:>6} {word:5} {growth:>6} \
             {growth_word:5} {drop_in:9.3} {:7.2}",
            case.exporter.name,
            case.alignment,
            case.size_name(),
            rust / drop_in
        );
    }

    /// Prints how many targets are met.
    pub fn end(&self) {
        let Table { ratios, growths, copies } = self;
        println!(
            "\n{} of {} ratios meet their target; {} of {} growths are at most {GROWTH}, and {copies} \
             more at most {COPY} times that of a plain copy of the text",
            ratios.met, ratios.all, growths.met, growths.all
        );
    }
}

/// The growth of a time where the size is doubled, from a size and its time to another.
fn growth((size, time): (usize, f64), (size2, time2): (usize, f64)) -> f64 {
    let doublings = (size2 as f64 / size as f64).log2();
    (time2 / time).powf(1.0 / doublings)
}

/// Prints the line of the limit.
pub fn limit(case: &Case, times: [f64; 2]) {
    let [loops, ours] = times.map(|time| time / case.divisor());
    let quotient = ours / loops;
    let word = if quotient <= limit::TARGET { "ok" } else { "above" };
    println!(
        "\nlimit: {}: the C loop {loops:.3}, Riceshoal {ours:.3}, {quotient:.2} times as long; \
         target at most {} {word}",
        case.name(),
        limit::TARGET
    );
}
