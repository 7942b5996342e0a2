//! What both sides are given: repeatable random numbers, and images.

use reference::util::BitVec;

pub const SEED: u64 = 0x5249_4345_5348_4f41;

/// SplitMix64: the same seed gives the same numbers on every machine.
pub struct Rng(u64);

impl Rng {
    pub fn new(seed: u64) -> Rng {
        Rng(seed)
    }

    pub fn next(&mut self) -> u64 {
        self.0 = self.0.wrapping_add(0x9e37_79b9_7f4a_7c15);
        let z = (self.0 ^ (self.0 >> 30)).wrapping_mul(0xbf58_476d_1ce4_e5b9);
        let z = (z ^ (z >> 27)).wrapping_mul(0x94d0_49bb_1331_11eb);
        z ^ (z >> 31)
    }

    /// A number from 0 to n - 1.
    pub fn below(&mut self, n: usize) -> usize {
        (self.next() % n as u64) as usize
    }

    pub fn byte(&mut self) -> u8 {
        self.next() as u8
    }

    pub fn fill(&mut self, bytes: &mut [u8]) {
        for part in bytes.chunks_mut(8) {
            part.copy_from_slice(&self.next().to_le_bytes()[..part.len()]);
        }
    }
}

/// What stands past an image's last bit. It must not matter.
pub type Spare = fn(&mut Rng) -> u8;

pub const ZEROS: Spare = |_| 0x00;
pub const ONES: Spare = |_| 0xff;
pub const RANDOM: Spare = Rng::byte;

/// An image: its bytes with the spare bits of the last one zero, and the same as the Rust's bits.
pub struct Image {
    pub bits: usize,
    pub bytes: Vec<u8>,
    pub rust: BitVec,
}

impl Image {
    pub fn new(mut bytes: Vec<u8>, bits: usize) -> Image {
        assert_eq!(bytes.len(), bits.div_ceil(8));
        if bits % 8 != 0 {
            *bytes.last_mut().unwrap() &= !(0xff >> (bits % 8));
        }
        let rust = bitvec(&bytes, bits);
        Image { bits, bytes, rust }
    }

    /// Bits 0 to bits - 1 are those of `content`, its top used bit first.
    pub fn of_number(content: u64, bits: usize) -> Image {
        let top = if bits == 0 { 0 } else { content << (64 - bits) };
        Image::new(top.to_be_bytes()[..bits.div_ceil(8)].to_vec(), bits)
    }

    /// Mostly random bits; now and then all equal, sparse, or with zeros at one end.
    pub fn random(rng: &mut Rng, bits: usize) -> Image {
        let mut bytes = vec![0; bits.div_ceil(8)];
        rng.fill(&mut bytes);
        let cut = rng.below(bytes.len() + 1);
        match rng.below(12) {
            0 => bytes.fill(0x00),
            1 => bytes.fill(0xff),
            2 => bytes.iter_mut().for_each(|byte| *byte &= rng.byte() & rng.byte() & rng.byte()),
            3 => bytes[..cut].fill(0),
            4 => bytes[cut..].fill(0),
            _ => {}
        }
        Image::new(bytes, bits)
    }

    /// The image's bytes and `extra` more, with `spare` past the last bit.
    pub fn lend(&self, rng: &mut Rng, spare: Spare, extra: usize) -> Vec<u8> {
        let mut lent = self.bytes.clone();
        if self.bits % 8 != 0 {
            *lent.last_mut().unwrap() |= spare(rng) & (0xff >> (self.bits % 8));
        }
        lent.extend((0..extra).map(|_| spare(rng)));
        lent
    }

    /// Every way the image is lent: its own bytes and longer slices, each with all that may stand
    /// past the last bit.
    pub fn lendings(&self, rng: &mut Rng) -> Vec<Vec<u8>> {
        let mut all = Vec::new();
        for spare in [ZEROS, ONES, RANDOM] {
            if self.bits % 8 != 0 || all.is_empty() {
                all.push(self.lend(rng, spare, 0));
            }
            let extra = 1 + rng.below(16);
            all.push(self.lend(rng, spare, extra));
        }
        all
    }
}

fn bitvec(bytes: &[u8], bits: usize) -> BitVec {
    let mut rust = BitVec::new();
    for i in 0..bits {
        rust.write_bit(i, bytes[i / 8] & (0x80 >> (i % 8)) != 0);
    }
    rust
}

/// Bytes in lower-case hexadecimal; `-` for none.
pub fn hex(bytes: &[u8]) -> String {
    if bytes.is_empty() {
        return "-".to_string();
    }
    bytes.iter().map(|byte| format!("{byte:02x}")).collect()
}
