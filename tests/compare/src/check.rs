//! One call of our library held against what is expected: the answer, the text, and every byte
//! around it. Counts the calls and prints the first differences. A run may try a sample alone.

use crate::capi::Answer;
use crate::input::{hex, Image, Rng};
use reference::util::BitVec;
use std::ptr::null_mut;
use std::sync::atomic::{AtomicPtr, Ordering};

/// The most bits an image may have.
pub const LIMIT: usize = 16_777_216;

/// Bytes on each side of the lent buffer.
const GUARD: usize = 64;
/// Differences that are printed; the others are only counted.
const PRINTED: u64 = 10;
/// Bytes that are printed of an image or a buffer.
const CUT: usize = 24;

/// The Rust's text; `padded` is 1 where the Rust warns that it filled the last byte.
pub struct Text {
    pub bytes: Vec<u8>,
    pub padded: u8,
}

impl From<String> for Text {
    fn from(text: String) -> Text {
        Text { bytes: text.into_bytes(), padded: 0 }
    }
}

/// An exporter with its options, in our library and in the Rust.
pub trait Exporter {
    /// The function and its options, for the report of a difference.
    fn name(&self) -> String;
    /// The bits of one line or digit. Lengths around its multiples are tried.
    fn line(&self) -> usize;
    /// Whether the options are in their range; where not, the Rust is not asked.
    fn options_fit(&self) -> bool;
    fn ours(&self, image: &[u8], bits: usize, out: &mut [u8]) -> Answer;
    fn rust(&self, image: &BitVec) -> Text;

    /// Whether an image of no bits is refused. The Rust then takes 1 from 0 bytes.
    fn needs_bits(&self) -> bool {
        false
    }

    /// The number and the value of a refusal that is checked before the room.
    fn refusal(&self, image_len: usize, bits: usize) -> Option<(u32, u64)> {
        if bits > LIMIT || bits.div_ceil(8) > image_len {
            Some((1, 0))
        } else if !self.options_fit() {
            Some((2, 0))
        } else if bits == 0 && self.needs_bits() {
            Some((4, 0))
        } else {
            None
        }
    }
}

pub type Exporters = Vec<Box<dyn Exporter>>;

/// The exporters of one source file, by the run that uses them.
pub struct Family {
    /// For the images of up to 12 bits.
    pub small: Exporters,
    /// For images of up to some thousand bits.
    pub middle: Exporters,
    /// For fewer images of that size: many options, or long strings.
    pub sparse: Exporters,
    /// For images at the limit.
    pub large: Exporters,
    /// With options outside their range, or with spans or texts that are refused.
    pub unfit: Exporters,
}

pub struct Checker {
    pub rng: Rng,
    /// Of so many inputs one is tried.
    pub one_in: usize,
    /// Draws the sample, so that `rng` gives the same inputs where all are tried.
    sample: Rng,
    pub calls: u64,
    pub differences: u64,
    /// The buffer with its guards as it should be after the call, and as it is.
    expected: Vec<u8>,
    buffer: Vec<u8>,
}

/// One call: what is lent, and the answer that is expected. `text` is empty on a refusal.
struct Call<'a> {
    exporter: &'a dyn Exporter,
    lent: &'a [u8],
    bits: usize,
    room: usize,
    answer: Answer,
    text: &'a [u8],
}

/// The call that is being made, if any.
static RUNNING: AtomicPtr<Call> = AtomicPtr::new(null_mut());

/// The call that is being made, if any, in words.
pub fn running() -> Option<String> {
    // Safe: a call is stored for as long as it lives.
    unsafe { RUNNING.load(Ordering::Relaxed).as_ref() }.map(Call::describe)
}

impl Call<'_> {
    fn describe(&self) -> String {
        let (name, lent) = (self.exporter.name(), self.lent);
        let (bits, len, room) = (self.bits, lent.len(), self.room);
        format!("{name}, bits {bits}, image of {len} bytes {}, room {room}", cut(lent))
    }
}

impl Checker {
    pub fn new(seed: u64) -> Checker {
        Checker {
            rng: Rng::new(seed),
            one_in: 1,
            sample: Rng::new(seed),
            calls: 0,
            differences: 0,
            expected: Vec::new(),
            buffer: Vec::new(),
        }
    }

    /// Whether the next input is not in the sample.
    pub fn skips(&mut self) -> bool {
        self.one_in > 1 && self.sample.below(self.one_in) > 0
    }

    /// A random image of so many bits in every way, if it is in the sample.
    pub fn random(&mut self, exporter: &dyn Exporter, bits: usize) {
        if self.skips() {
            return;
        }
        let image = Image::random(&mut self.rng, bits);
        let lendings = image.lendings(&mut self.rng);
        self.image(exporter, &image, &lendings);
    }

    /// An image in each of its lendings, and for each of them in every room.
    pub fn image(&mut self, exporter: &dyn Exporter, image: &Image, lendings: &[Vec<u8>]) {
        if exporter.refusal(image.bytes.len(), image.bits).is_some() {
            for lent in lendings {
                self.refused(exporter, lent, image.bits);
            }
            return;
        }
        let text = exporter.rust(&image.rust);
        for lent in lendings {
            for room in self.rooms(text.bytes.len()) {
                self.text(exporter, lent, image.bits, room, &text);
            }
        }
    }

    /// A call whose options and bits are accepted: a text, or refusal 8.
    pub fn text(
        &mut self,
        exporter: &dyn Exporter,
        lent: &[u8],
        bits: usize,
        room: usize,
        text: &Text,
    ) {
        let len = text.bytes.len();
        let (code, padded, text) =
            if len <= room { (0, text.padded, &text.bytes[..]) } else { (8, 0, &[][..]) };
        let answer = Answer { code, value: len as u64, padded };
        self.call(Call { exporter, lent, bits, room, answer, text });
    }

    /// A call that is refused whatever the room.
    pub fn refused(&mut self, exporter: &dyn Exporter, lent: &[u8], bits: usize) {
        let refusal = exporter.refusal(lent.len(), bits);
        let (code, value) = refusal.expect("a call that is refused");
        let answer = Answer { code, value, padded: 0 };
        for room in [0, 1, 77, 1000] {
            self.call(Call { exporter, lent, bits, room, answer, text: &[] });
        }
    }

    /// A call whose text is longer than every room that can be lent, so that the Rust is not asked.
    pub fn too_long(&mut self, exporter: &dyn Exporter, lent: &[u8], bits: usize, len: u64) {
        let answer = Answer { code: 8, value: len, padded: 0 };
        for room in [0, 1000] {
            self.call(Call { exporter, lent, bits, room, answer, text: &[] });
        }
    }

    /// The rooms for a text of `len` bytes: just enough, more, none, one less.
    pub fn rooms(&mut self, len: usize) -> Vec<usize> {
        let mut rooms = vec![len, len + 1, len + 2 + self.rng.below(200)];
        if len > 0 {
            rooms.push(0);
        }
        if len > 1 {
            rooms.push(len - 1);
        }
        rooms
    }

    fn call(&mut self, call: Call) {
        let front = GUARD + self.rng.below(16);
        self.expected.resize(front + call.room + GUARD, 0);
        self.rng.fill(&mut self.expected);
        self.buffer.clone_from(&self.expected);
        self.expected[front..front + call.text.len()].copy_from_slice(call.text);

        let out = &mut self.buffer[front..front + call.room];
        RUNNING.store(&call as *const Call as *mut Call, Ordering::Relaxed);
        let got = call.exporter.ours(call.lent, call.bits, out);
        RUNNING.store(null_mut(), Ordering::Relaxed);
        self.calls += 1;
        if got != call.answer || self.buffer != self.expected {
            self.differences += 1;
            if self.differences <= PRINTED {
                println!("{}", self.report(&call, got, front));
            }
        }
    }

    fn report(&self, call: &Call, got: Answer, front: usize) -> String {
        let (expected, got) = (show(call.answer), show(got));
        let mut line = format!("difference: {}: expected {expected}, got {got}", call.describe());
        if let Some(at) = (0..self.buffer.len()).find(|&i| self.buffer[i] != self.expected[i]) {
            line += &format!(
                "; buffer from byte {} on: expected {}, got {}",
                at as i64 - front as i64,
                cut(&self.expected[at..]),
                cut(&self.buffer[at..])
            );
        }
        line
    }
}

fn show(answer: Answer) -> String {
    format!("{} with {} (padded {})", answer.code, answer.value, answer.padded)
}

/// The front of some bytes in hexadecimal.
pub fn cut(bytes: &[u8]) -> String {
    if bytes.len() <= CUT {
        hex(bytes)
    } else {
        hex(&bytes[..CUT]) + ".."
    }
}
