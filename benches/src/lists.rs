//! Lists of spans: how many, in which order, where in the image, and where in the source texts.

use crate::input::{Rng, SEED};
use crate::listing::Row;
use crate::spans::shuffle;

/// A line of the source texts; what is shown of it is without the tab and the newline.
const LINE: &str = "\tld r1, [r2 + 16]\n";

/// The order in which spans are lent.
#[derive(Clone, Copy, PartialEq)]
pub enum Order {
    Sorted,
    Reversed,
    Random,
    AllEqual,
}

/// A number of spans in an order.
#[derive(Clone, Copy)]
pub struct List {
    pub count: usize,
    pub order: Order,
}

/// The lists of several spans.
pub fn several() -> impl Iterator<Item = List> {
    let orders = [Order::Sorted, Order::Reversed, Order::Random, Order::AllEqual];
    [16, 4096].into_iter().flat_map(move |count| orders.map(|order| List { count, order }))
}

/// The list of one span.
pub const ONE: List = List { count: 1, order: Order::Sorted };

impl List {
    /// The list in the words of the table.
    pub fn name(&self) -> String {
        let order = match self.order {
            _ if self.count == 1 => return "1 span".to_string(),
            Order::Sorted => "in order",
            Order::Reversed => "reversed",
            Order::Random => "random",
            Order::AllEqual => "all equal",
        };
        format!("{} spans {order}", self.count)
    }

    /// Whether its spans are lent in order, each behind the one before it.
    pub fn in_order(&self) -> bool {
        self.order == Order::Sorted
    }

    /// Spans that divide an image into equal parts, from bit `start` on; what would lie past the
    /// image's end is cut. Equal ones have the size of a part and lie at `start`.
    pub fn parts(&self, bits: usize, start: usize) -> Vec<Row> {
        let part = bits / self.count;
        self.rows(|k| {
            let place = if self.order == Order::AllEqual { 0 } else { k };
            let offset = bits.min(start + place * part);
            (offset, part.min(bits - offset))
        })
    }

    /// Spans of size 0, a byte apart. Equal ones lie where the middle one of others does.
    pub fn empty(&self) -> Vec<Row> {
        self.rows(|k| {
            let place = if self.order == Order::AllEqual { self.count / 2 } else { k };
            (8 * place, 0)
        })
    }

    /// The spans of these offsets and sizes, given by their places, in the list's order.
    fn rows(&self, span: impl Fn(usize) -> (usize, usize)) -> Vec<Row> {
        let mut rows: Vec<Row> = (0..self.count).map(|k| self.row(k, span(k))).collect();
        match self.order {
            Order::Sorted | Order::AllEqual => {}
            Order::Reversed => rows.reverse(),
            Order::Random => shuffle(&mut Rng::new(SEED), &mut rows),
        }
        rows
    }

    /// Span k: its address is that of its byte, as an assembler gives it. The first half of the
    /// spans is in the firmware's text and the second in the protocol's, each span on its own line.
    fn row(&self, k: usize, (offset, size): (usize, usize)) -> Row {
        let lines = self.lines();
        let start = k % lines * LINE.len();
        Row {
            offset: offset as u32,
            size: size as u32,
            addr: offset as u64 / 8,
            file: (k / lines) as u8,
            start: start as u64 + 1,
            end: (start + LINE.len()) as u64 - 1,
        }
    }

    /// The lines of a source text.
    fn lines(&self) -> usize {
        self.count.div_ceil(2)
    }

    /// The firmware's text and the protocol's.
    pub fn texts(&self) -> [Vec<u8>; 2] {
        [(); 2].map(|_| LINE.repeat(self.lines()).into_bytes())
    }
}
