//! Shows where the Rust and document 01 differ by design, each on a smallest input, by running
//! the Rust: the limit of 1,024 extents, a second building after a refused one, and which of several
//! overlapping rows of a hand-made table answers.

use oracle::storage::Store;
use oracle::vmdk::opened::{build_twice, by_hand, Image, Mapping, LIMIT};
use oracle::vmdk::Vmdk;
use std::sync::Arc;

fn main() {
    println!("{} extents `RW 0 ZERO` after `version=1`:", LIMIT + 1);
    let text = format!("version=1{}", "\nRW 0 ZERO".repeat(LIMIT + 1));
    let opened = Vmdk::<Store>::open_image(descriptor(&text), false);
    let reads = if opened.is_ok() { "reads" } else { "refuses" };
    println!("  document: 16, line {}; the Rust: {reads}", LIMIT + 2);

    let text = "version=1\nRW 1 ZERO\nRW 1 FLAT \"\" 36028797018963968";
    println!("built a second time: {text:?}");
    let (refusal, second) = build_twice(&descriptor(text));
    println!("  the Rust, first: refused ({}, by the oracle with line {})", refusal.number, refusal.second);
    match second {
        None => println!("  the Rust, second: refused"),
        Some(image) => println!(
            "  the Rust, second: accepted, size {}, rows {}, map(0,1) {}, map(512,1) {}",
            image.size(),
            image.rows(),
            answer(&image, 0),
            answer(&image, 512)
        ),
    }

    println!("hand-made tables whose rows overlap: the Rust, and the halving rule");
    for (ranges, offset) in [
        (vec![0..8; 2], 0),
        (vec![0..8; 3], 0),
        (vec![0..8; 4], 0),
        (vec![0..1, 0..4, 0..1], 2),
        (vec![0..1, 0..4, 3..4], 3),
    ] {
        let image = by_hand(8, &ranges);
        let halved = match image.halve(offset).0 {
            Some(row) => format!("zero, row {row}"),
            None => "end".into(),
        };
        println!("  rows {ranges:?} at {offset}: {}; {halved}", answer(&image, offset));
    }
}

/// A descriptor in memory.
fn descriptor(text: &str) -> Store {
    Store::Descriptor(Arc::from(text.as_bytes()))
}

/// What the Rust answers at an offset.
fn answer(image: &Image, offset: u64) -> String {
    match image.map(offset, 1) {
        Mapping::Raw { row, .. } => format!("raw, row {row}"),
        Mapping::Zero { row, .. } => format!("zero, row {row}"),
        Mapping::End => "end".into(),
        Mapping::Refused(refusal) => format!("refused {}", refusal.number),
    }
}
