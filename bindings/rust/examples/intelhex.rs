//! Prints the Intel HEX text of an image of 12 bits, abc, with one span over all of them.

use riceshoal::{BitVec, Refusal, Span};

fn main() -> Result<(), Refusal> {
    let mut bitvec = BitVec::new();
    for index in 0..12 {
        bitvec.write_bit(index, 0xabc >> (11 - index) & 1 == 1);
    }
    bitvec.mark_span(Some(0), 12, 0, Span::new_dummy());
    println!("{}", bitvec.format_intelhex(8)?);
    Ok(())
}
