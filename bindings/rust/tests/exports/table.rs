//! The table of document 01, "Checked examples", and short texts of the exports that it leaves out.

use crate::export::{annotated, list, Export};
use crate::image::Image;
use riceshoal::{BitVec, FormatListOptions, Refusal, Span};

/// The bits 10110.
fn five_bits() -> Image {
    Image::new(&[0b1011_0000], 5)
}

fn abc() -> Image {
    Image::new(&[0xab, 0xc0], 12)
}

fn byte() -> Image {
    Image::new(&[0x12], 8)
}

fn check(image: Image, export: Export, text: &str) {
    export.check(&image, Ok(text.as_bytes()));
}

#[test]
fn intelhex() {
    let hex = |image, text| check(image, Export::Intelhex(8), text);
    let two = || Image::new(&[0x11, 0x22], 16);
    hex(Image::empty(), ":00000001FF");
    hex(abc().span(0, 12), ":02000000ABC093\n:00000001FF");
    hex(Image::new(&[0xab, 0xcd], 16).span(0, 4), ":01000000AB54\n:00000001FF");
    hex(two().span(0, 8).span(0, 0).span(8, 8), ":0100000011EE\n:0100010022DC\n:00000001FF");
    hex(two().span(0, 0).span(0, 8).span(8, 8), ":020000001122CB\n:00000001FF");
    hex(Image::empty().span(524_280, 8), ":01FFFF000001\n:00000001FF");
    hex(byte().span(0, 8), ":0100000012ED\n:00000001FF");
    let above = Image::empty().span(524_288, 8);
    Export::Intelhex(8).check(&above, Err(Refusal::AddressRange));
}

#[test]
fn intelhex_of_33_bytes() {
    let zeros = "00".repeat(32);
    check(
        Image::new(&[0; 33], 264).span(0, 264),
        Export::Intelhex(8),
        &format!(":20000000{zeros}E0\n:0100200000DF\n:00000001FF"),
    );
}

#[test]
fn digits() {
    check(five_bits(), Export::Str(4), "b0");
    check(five_bits(), Export::Readmemh(5), "16\n");
    check(five_bits(), Export::Readmemb(3), "101\n10\n");
    check(byte(), Export::Logisim(4), "v2.0 raw\n1 \n2 ");
    check(abc(), Export::List(list("[", ",", "]")), "[ab,c0]");
}

#[test]
fn bytes() {
    check(
        Image::new(&[0x12, 0x0f], 16),
        Export::CArray(16),
        "const unsigned char data[] = {\n\t/* 0x0 */ 0x12, 0x0f\n};",
    );
    check(
        byte(),
        Export::Mif,
        "DEPTH = 1;\nWIDTH = 8;\nADDRESS_RADIX = HEX;\nDATA_RADIX = HEX;\n\nCONTENT\nBEGIN\n \
         0: 12;\nEND;",
    );
}

const EMPTY_HEXDUMP: &str =
    " 0 | .. .. .. ..  .. .. .. ..  .. .. .. ..  .. .. .. .. | ................ |\n";
const EMPTY_BINDUMP: &str = " 0 | ........ ........ ........ ........  \
                             ........ ........ ........ ........ | ........ |\n";

#[test]
fn dump() {
    check(Image::empty(), Export::Dump(4, 8, 16), EMPTY_HEXDUMP);
    check(Image::empty(), Export::Dump(1, 8, 8), EMPTY_BINDUMP);
}

#[test]
fn listing() {
    let image = byte().located(0, 8, 0, Span::new(0, 0, 3));
    let text = " outp | addr | data (base 16)\n\n  0:0 |    0 | 12 ; nop\n";
    check(image.clone(), Export::Annotated(annotated(b"nop", b"")), text);

    // The same line from the other text, and a hidden label.
    let image = byte().located(0, 8, 0, Span::new(1, 2, 5)).span(0, 0);
    check(image, Export::Annotated(annotated(b"", b"a nop b")), text);
}

/// Not in the table: document 01's words decide these.
#[test]
fn what_the_table_leaves_out() {
    Export::Binary.check(&abc(), Ok(&[0xab, 0xc0]));
    Export::Binary.check(&Image::empty(), Ok(&[]));
    check(five_bits(), Export::Str(1), "10110");
    check(five_bits(), Export::Str(5), "m");
    let bytes = || Image::new(&[0x12, 0x0f], 16);
    check(bytes(), Export::Separator(16, ", ".to_string()), "0x12, 0x0f");
    check(bytes(), Export::Separator(10, "é".to_string()), "18é15");
    let options = FormatListOptions {
        groups_per_group2: 2,
        str_between_groups2: "→".to_string(),
        digits_per_group: 1,
        ..list("<", "-", ">")
    };
    check(Image::new(&[0x12, 0x34], 16), Export::List(options), "<1-2→3-4>");
}

/// Bits past the length are not read, whatever the lent byte holds.
#[test]
fn spare_bits_read_as_zero() {
    let spare = Image::new(&[0b1011_0111, 0xff], 5);
    check(spare.clone(), Export::Str(4), "b0");
    Export::Binary.check(&spare, Ok(&[0b1011_0000]));
    let bitvec = BitVec::from_bytes(&spare.bytes, 5).unwrap();
    assert_eq!((bitvec.len(), bitvec.format_binary()), (5, Ok(vec![0b1011_0000])));
    assert_eq!([4, 5, 6, 7, 8].map(|index| bitvec.read_bit(index)), [false; 5]);
}

#[test]
fn presets() {
    let bitvec = five_bits().bitvec();
    assert_eq!(bitvec.format_binstr().unwrap(), "10110");
    assert_eq!(bitvec.format_hexstr().unwrap(), "b0");
    assert_eq!(BitVec::new().format_hexdump().unwrap(), EMPTY_HEXDUMP);
    assert_eq!(BitVec::new().format_bindump().unwrap(), EMPTY_BINDUMP);
}
