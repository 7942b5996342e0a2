//! The type and the slices give the same answers for random images, spans and options.

use crate::export::{annotated, list, Annotated, Export};
use crate::image::Image;
use crate::rng::Rng;
use riceshoal::{FormatAnnotatedOptions, FormatListOptions, Span};

/// An option that is often in its range.
fn option(rng: &mut Rng) -> usize {
    rng.any(&[0, 1, 1, 2, 3, 4, 4, 5, 8, 8, 10, 10, 16, 16, 16, 32, 33, 64, 65, 4096, 4097])
}

fn string(rng: &mut Rng) -> String {
    rng.any(&["", "", ",", " | ", "é", "→\n", "\0"]).to_string()
}

fn random_list(rng: &mut Rng) -> FormatListOptions {
    FormatListOptions {
        base: rng.any(&[2, 4, 8, 16, 32, 3]),
        digits_per_group: 1 + rng.below(65),
        groups_per_group2: rng.below(4),
        str_between_groups2: string(rng),
        ..list(&string(rng), &string(rng), &string(rng))
    }
}

fn random_listing(rng: &mut Rng) -> Annotated {
    let mut listing = annotated(b"start:\n\tnop\n", b"ack = 6\n");
    listing.options = FormatAnnotatedOptions {
        base: rng.any(&[2, 4, 8, 16, 32, 3]),
        addr_base: 2 + rng.below(36),
        digits_per_group: 1 + rng.below(65),
        display_labels: rng.below(2) == 0,
    };
    listing
}

/// Each export, with random options.
fn exports(rng: &mut Rng) -> Vec<Export> {
    let radix = rng.any(&[10, 16, 16, 8]);
    let width = option(rng);
    vec![
        Export::Binary,
        Export::Str(rng.below(7)),
        Export::Readmemb(width),
        Export::Readmemh(width),
        Export::Separator(radix, string(rng)),
        Export::CArray(radix),
        Export::List(random_list(rng)),
        Export::Mif,
        Export::Logisim(option(rng)),
        Export::Dump(rng.any(&[1, 4, 2]), 8, 1 + rng.below(65)),
        Export::Intelhex(rng.below(66)),
        Export::Annotated(random_listing(rng)),
    ]
}

/// An image with some spans, most of them good ones.
fn image(rng: &mut Rng) -> Image {
    let most = rng.any(&[1, 20, 300, 300]);
    let bits = rng.below(most);
    let mut image = Image::random(rng, bits);
    for _ in 0..rng.below(6) {
        let start = rng.below(7);
        let end = start + rng.below(2);
        let span = match rng.below(20) {
            0 => Span::new_dummy(),
            _ => Span::new(rng.below(2), start, end),
        };
        let offset = match rng.below(40) {
            0 => None,
            1 => Some(16_777_216 - rng.below(60)),
            _ => Some(rng.below(320)),
        };
        let size = if offset.is_none() { 0 } else { rng.below(40) };
        image = image.located(offset, size, rng.next() >> rng.below(64), span);
    }
    image
}

#[test]
fn the_type_and_the_slices_agree() {
    let rng = &mut Rng::new(1);
    let mut seen = std::collections::BTreeSet::new();
    for _ in 0..400 {
        let image = image(rng);
        let bitvec = image.bitvec();
        for export in exports(rng) {
            let answer = export.method(&bitvec);
            export.check_slices(&image, answer.as_deref().map_err(|&refusal| refusal));
            seen.insert(answer.map_or_else(|refusal| refusal.number(), |_| 0));
        }
    }
    // Texts, and each refusal that such images can meet.
    assert_eq!(Vec::from_iter(seen), [0, 2, 3, 4, 5, 7]);
}
