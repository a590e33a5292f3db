//! Queries on a descriptor's table: offsets and lengths at and around the edges of its rows.

use crate::answer::{walk, Stop};
use crate::cases::{Case, Query};
use crate::draw::Draw;
use crate::storage::Store;
use crate::vmdk::opened::{self, Image, LIMIT};
use std::sync::Arc;

/// The descriptor with some drawn queries, and a walk over the whole disk if it has many rows; one
/// that is refused gets a query now and then, to be passed over.
pub fn ask(descriptor: Vec<u8>, draw: &mut Draw) -> Case {
    let mut queries = Vec::new();
    match opened::open(&Store::Descriptor(Arc::from(&descriptor[..]))) {
        Err(_) if draw.once_in(8) => queries.push(Query::Map { offset: 0, length: 1 }),
        Err(_) => (),
        Ok(image) => {
            for _ in 0..1 + draw.below(2 + 2 * image.rows().min(8) as u64) {
                push(&image, &mut queries, draw);
            }
            if image.rows() > 128 {
                let places = places(&image, draw);
                queries.push(Query::Walk { offset: 0, length: u64::MAX, places });
            }
        }
    }
    Case { descriptor, queries }
}

/// Add a query; a walk that its list stops is gone on with, up to three times.
fn push(image: &Image, queries: &mut Vec<Query>, draw: &mut Draw) {
    let offset = offset(image, draw);
    let length = length(image, offset, draw);
    if !draw.once_in(3) {
        queries.push(Query::Map { offset, length });
        return;
    }
    let places = places(image, draw);
    let (mut at, mut left) = (offset, length);
    for _ in 0..4 {
        queries.push(Query::Walk { offset: at, length: left, places });
        let walked = walk(image, at, left, places.into());
        if !matches!(walked.stop, Stop::More) {
            return;
        }
        left -= walked.at - at;
        at = walked.at;
    }
}

/// An offset at or around an edge of a row or of the disk, or anywhere.
fn offset(image: &Image, draw: &mut Draw) -> u64 {
    let size = image.size();
    let around = draw.below(3).wrapping_sub(1);
    match draw.below(12) {
        0 => 0,
        1 => size.wrapping_add(around),
        2 => draw.number(),
        3 => u64::MAX - draw.below(2),
        4 => draw.below(size),
        _ if image.rows() == 0 => draw.below(4),
        _ => {
            let range = image.range(draw.below(image.rows() as u64) as usize);
            let edge = if draw.once_in(2) { range.start } else { range.end };
            edge.wrapping_add(around)
        }
    }
}

/// A length that ends at or around an edge of a row or of the disk, or any.
fn length(image: &Image, offset: u64, draw: &mut Draw) -> u64 {
    let around = draw.below(3).wrapping_sub(1);
    match draw.below(10) {
        0 => draw.below(3),
        1 => u64::MAX - draw.below(2),
        2 => draw.number(),
        3 => draw.below(2048),
        4 | 5 => image.size().wrapping_sub(offset).wrapping_add(around),
        _ if image.rows() == 0 => 1,
        _ => {
            let range = image.range(draw.below(image.rows() as u64) as usize);
            range.end.wrapping_sub(offset).wrapping_add(around)
        }
    }
}

/// A number of places at or around 0, the number of rows, 128, 256 or the limit.
fn places(image: &Image, draw: &mut Draw) -> u16 {
    let rows = image.rows() as u64;
    let places = match draw.below(8) {
        0 => draw.below(4),
        1 | 2 => (rows + draw.below(3)).saturating_sub(1),
        3 => 127 + draw.below(4),
        4 => 255 + draw.below(3),
        5 => draw.below(rows + 1),
        _ => LIMIT as u64 - 1 + draw.below(4),
    };
    places as u16
}
