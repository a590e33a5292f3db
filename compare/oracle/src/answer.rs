//! The answer to a case, as the lines that `FORMAT.md` tells; and the walk, which is not the
//! crate's: document 01's rule, step by step over the Rust's mapping.

use crate::cases::{Case, Query};
use crate::storage::Store;
use crate::vmdk::opened::{self, Image, Mapping, Refusal, Source, LIMIT};
use std::io::{self, Write};
use std::sync::Arc;

/// A piece that the walk wrote: where it starts, and what mapping gave there.
pub struct Piece<'a> {
    /// Its start on the disk
    pub start: u64,
    /// Its source
    pub mapping: Mapping<'a>,
}

/// Why a walk stopped.
pub enum Stop {
    /// The range's end or the disk's is reached
    Done,
    /// The list is full
    More,
    /// Mapping refused
    Refused(Refusal),
}

/// What a walk answers.
pub struct Walked<'a> {
    /// The pieces written
    pub pieces: Vec<Piece<'a>>,
    /// Why it stopped
    pub stop: Stop,
    /// The position reached
    pub at: u64,
    /// The sum of rows looked at
    pub looked: u64,
}

/// Walk `length` bytes from `offset`, with a list of so many places.
pub fn walk(image: &Image, offset: u64, length: u64, places: usize) -> Walked<'_> {
    let (mut at, mut left, mut looked) = (offset, length, 0);
    let mut pieces = Vec::new();
    let stop = loop {
        if left == 0 || at >= image.size() {
            break Stop::Done;
        }
        if pieces.len() >= places || pieces.len() >= LIMIT {
            break Stop::More;
        }
        looked += image.looked(at);
        let mapping = image.map(at, left);
        let run = match mapping {
            Mapping::End => break Stop::Done,
            Mapping::Refused(refusal) => break Stop::Refused(refusal),
            Mapping::Raw { run, .. } | Mapping::Zero { run, .. } => run,
        };
        pieces.push(Piece { start: at, mapping });
        at += run;
        left -= run;
    };
    Walked { pieces, stop, at, looked }
}

/// A line of an answer: its letter, its numbers and its text, as `FORMAT.md` has them.
struct Line<'a>(char, [u64; 5], &'a str);

impl Line<'_> {
    /// Write the line: the letter, the numbers, and the text's bytes.
    fn write(&self, out: &mut impl Write) -> io::Result<()> {
        let Line(letter, [a, b, c, d, e], text) = self;
        write!(out, "{letter} {a} {b} {c} {d} {e}")?;
        text.bytes().try_for_each(|byte| write!(out, " {byte}"))?;
        writeln!(out)
    }
}

/// Write the answer to a case; `number` counts the cases of a file from 0.
pub fn write(case: &Case, number: u64, out: &mut impl Write) -> io::Result<()> {
    let descriptor = Store::Descriptor(Arc::from(&case.descriptor[..]));
    let probed = opened::probe(&descriptor).into();
    match opened::open(&descriptor) {
        Err(refusal) => Line('c', [number, probed, refusal.number, refusal.second, 0], "").write(out),
        Ok(image) => {
            Line('c', [number, probed, 0, 0, 0], "").write(out)?;
            write_image(&image, out)?;
            case.queries.iter().try_for_each(|query| write_query(&image, *query, out))
        }
    }
}

/// Write the record's values and the table's rows.
fn write_image(image: &Image, out: &mut impl Write) -> io::Result<()> {
    let [cid, parent_cid, create_type] = image.texts();
    let [sectors, heads, cylinders] = image.geometry();
    Line('v', [image.version().into(), sectors, heads, cylinders, 0], cid).write(out)?;
    Line('p', [0; 5], parent_cid).write(out)?;
    Line('t', [image.size(), image.rows() as u64, 0, 0, 0], create_type).write(out)?;
    let mut rows = image.lines().into_iter().enumerate();
    rows.try_for_each(|(row, said)| row_line(image, row, said).write(out))
}

/// The line of a row, which a line of the descriptor said.
fn row_line(image: &Image, row: usize, said: u64) -> Line<'_> {
    let range = image.range(row);
    match image.source(row) {
        Source::Flat { writable, file_start, name } => {
            Line('F', [said, range.start, range.end, writable.into(), file_start], name)
        }
        Source::Zero { writable } => Line('Z', [said, range.start, range.end, writable.into(), 0], ""),
        Source::NoAccess => Line('N', [said, range.start, range.end, 0, 0], ""),
    }
}

/// Write a query's lines.
fn write_query(image: &Image, query: Query, out: &mut impl Write) -> io::Result<()> {
    match query {
        Query::Map { offset, length } => map_line(image, offset, length).write(out),
        Query::Walk { offset, length, places } => {
            write_walk(&walk(image, offset, length, places.into()), out)
        }
    }
}

/// The line of a mapping.
fn map_line(image: &Image, offset: u64, length: u64) -> Line<'_> {
    let looked = image.looked(offset);
    match image.map(offset, length) {
        Mapping::Raw { file_offset, run, row, writable, name } => {
            Line('r', [run, looked, row as u64, writable.into(), file_offset], name)
        }
        Mapping::Zero { run, row } => Line('z', [run, looked, row as u64, 0, 0], ""),
        Mapping::End => Line('e', [0, looked, 0, 0, 0], ""),
        Mapping::Refused(Refusal { number, second }) => Line('x', [0, looked, number, second, 0], ""),
    }
}

/// Write the lines of a walk: its pieces, then its end.
fn write_walk(walked: &Walked<'_>, out: &mut impl Write) -> io::Result<()> {
    for Piece { start, mapping } in &walked.pieces {
        match *mapping {
            Mapping::Raw { file_offset, run, row, writable, name } => {
                Line('D', [*start, run, row as u64, writable.into(), file_offset], name).write(out)?
            }
            Mapping::Zero { run, row } => Line('O', [*start, run, row as u64, 0, 0], "").write(out)?,
            Mapping::End | Mapping::Refused(_) => panic!("no piece"),
        }
    }
    let (letter, number, second) = match walked.stop {
        Stop::Done => ('d', 0, 0),
        Stop::More => ('m', 0, 0),
        Stop::Refused(Refusal { number, second }) => ('w', number, second),
    };
    Line(letter, [walked.at, walked.pieces.len() as u64, walked.looked, number, second], "").write(out)
}
