//! What is written can be read back: random images against small readers.

use crate::image::Image;
use crate::rng::Rng;
use riceshoal::{BitVec, FormatReadMemOptions};
use std::collections::BTreeMap;

/// The bytes of an image with zeros past its end.
fn padded(image: &Image) -> Vec<u8> {
    let byte =
        |place: usize| (0..8).fold(0, |byte, bit| byte << 1 | u8::from(image.bit(8 * place + bit)));
    (0..image.bits.div_ceil(8)).map(byte).collect()
}

/// The bytes of a HEX record, whose sum must be 0.
fn record(line: &str) -> Vec<u8> {
    let digits = line.strip_prefix(':').expect("a colon");
    assert_eq!(digits.len() % 2, 0, "{line}");
    let byte = |at: usize| u8::from_str_radix(&digits[at..at + 2], 16).expect("two digits");
    let bytes: Vec<u8> = (0..digits.len()).step_by(2).map(byte).collect();
    assert_eq!(bytes.iter().fold(0, |sum: u8, byte| sum.wrapping_add(*byte)), 0, "{line}");
    assert_eq!(bytes.len(), bytes[0] as usize + 5, "{line}");
    bytes
}

/// The bytes that a HEX text has, by address. None may be there twice.
fn decode(text: &str) -> BTreeMap<usize, u8> {
    let mut lines: Vec<&str> = text.split('\n').collect();
    assert_eq!(record(lines.pop().unwrap()), [0, 0, 0, 1, 0xff]);
    let mut memory = BTreeMap::new();
    for line in lines {
        let bytes = record(line);
        assert_eq!(bytes[3], 0, "{line}");
        let address = usize::from(bytes[1]) << 8 | usize::from(bytes[2]);
        for (place, byte) in bytes[4..bytes.len() - 1].iter().enumerate() {
            assert_eq!(memory.insert(address + place, *byte), None, "{line}");
        }
    }
    memory
}

/// An image with spans of whole bytes in any order, no two of which overlap; some are past its end.
/// With it, the bytes that they cover, by address.
fn covered(rng: &mut Rng) -> (Image, BTreeMap<usize, u8>) {
    let bits = rng.below(4000);
    let mut image = Image::random(rng, bits);
    let bytes = padded(&image);
    let (mut spans, mut memory, mut at) = (Vec::new(), BTreeMap::new(), 0);
    while at < bytes.len() + 10 {
        let size = rng.below(80);
        if rng.below(3) != 0 {
            spans.push((at, size));
            memory.extend((at..at + size).map(|place| (place, *bytes.get(place).unwrap_or(&0))));
        }
        // Never at the same place twice: a span of no bits there would part a block.
        at += size.max(1);
    }
    while !spans.is_empty() {
        let (at, size) = spans.swap_remove(rng.below(spans.len()));
        image = image.span(8 * at, 8 * size);
    }
    (image, memory)
}

#[test]
fn hex_is_read_back() {
    let rng = &mut Rng::new(2);
    for _ in 0..300 {
        let (image, memory) = covered(rng);
        let text = image.bitvec().format_intelhex(8).unwrap();
        assert_eq!(decode(&text), memory, "{image:?}");
    }
}

#[test]
fn binary_is_the_bytes() {
    let rng = &mut Rng::new(3);
    for bits in 0..600 {
        let image = Image::random(rng, bits);
        let expected = padded(&image);
        assert_eq!(image.bitvec().format_binary().unwrap(), expected);
        let lent = BitVec::from_bytes(&image.bytes, bits).unwrap();
        assert_eq!((lent.len(), lent.format_binary().unwrap()), (bits, expected));
    }
}

#[test]
fn digits_are_read_back() {
    let rng = &mut Rng::new(4);
    for bits in 0..200 {
        let image = Image::random(rng, bits);
        let bitvec = image.bitvec();
        for digit_bits in 1..=5 {
            let text = bitvec.format_str(digit_bits).unwrap();
            assert_eq!(text.len(), bits.div_ceil(digit_bits));
            for (place, digit) in text.chars().enumerate() {
                let value = digit.to_digit(1 << digit_bits.max(4)).unwrap();
                let bit = |k| value >> (digit_bits - 1 - k) & 1 == 1;
                let first = place * digit_bits;
                assert!((0..digit_bits).all(|k| bit(k) == image.bit(first + k)), "{text}");
            }
        }
        let lines = bitvec.format_readmemb(&FormatReadMemOptions { width: 7 }).unwrap();
        assert_eq!(lines.replace('\n', ""), bitvec.format_binstr().unwrap());
        assert_eq!(lines.lines().count(), bits.div_ceil(7));
    }
}

#[test]
fn an_image_of_one_bit_is_not_empty() {
    let mut bitvec = BitVec::new();
    assert!(bitvec.is_empty());
    bitvec.write_bit(0, false);
    assert_eq!((bitvec.is_empty(), bitvec.len()), (false, 1));
}

/// Writes in any order, over each other, against a list of bits.
#[test]
fn bits_are_kept_as_written() {
    let rng = &mut Rng::new(5);
    for _ in 0..100 {
        let (mut bitvec, mut model) = (BitVec::new(), Vec::new());
        for _ in 0..rng.below(60) {
            let (index, value) = (rng.below(100), rng.below(2) == 0);
            bitvec.write_bit(index, value);
            model.resize(model.len().max(index + 1), false);
            model[index] = value;
        }
        assert_eq!(bitvec.len(), model.len());
        for index in 0..120 {
            assert_eq!(bitvec.read_bit(index), model.get(index) == Some(&true));
            assert_eq!(bitvec.is_in_bounds(index), index < model.len());
        }
    }
}
