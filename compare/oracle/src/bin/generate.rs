//! Writes case files.
//!
//! - `generate drawn SEED COUNT`: so many drawn descriptors with drawn queries
//! - `generate lines|names|keys|geometry`: every row of some tokens
//! - `generate bytes`, `generate characters`: every byte pair and edge, every character
//! - `generate counts`: every number of extents
//! - `generate apart`: three extents with other lines between
//! - `generate long`: inputs from 65,535 to 2,097,154 bytes
//! - `generate sample`: the fixed list

use oracle::{descriptors, draw::Draw, exhaustive, queries, sample};
use std::io::{self, BufWriter, Write};

fn main() -> io::Result<()> {
    let words: Vec<String> = std::env::args().skip(1).collect();
    let words: Vec<&str> = words.iter().map(String::as_str).collect();
    let mut out = BufWriter::with_capacity(1 << 20, io::stdout().lock());
    match words[..] {
        ["drawn", seed, count] => {
            let number = |text: &str| text.parse::<u64>().map_err(io::Error::other);
            let mut draw = Draw::new(number(seed)?);
            for _ in 0..number(count)? {
                let descriptor = descriptors::descriptor(&mut draw);
                queries::ask(descriptor, &mut draw).write(&mut out)?;
            }
        }
        ["bytes"] => exhaustive::write_bytes(&mut out)?,
        ["characters"] => exhaustive::write_characters(&mut out)?,
        ["counts"] => exhaustive::write_counts(&mut out)?,
        ["apart"] => exhaustive::write_apart(&exhaustive::GAPS, &mut out)?,
        ["sample"] => sample::write(&mut out)?,
        ["long"] => exhaustive::write_long(&mut out)?,
        [name] => {
            let family = exhaustive::FAMILIES.iter().find(|family| family.name == name);
            let family = family.ok_or_else(usage)?;
            exhaustive::write_family(family, family.most, &mut out)?;
        }
        _ => return Err(usage()),
    }
    out.flush()
}

/// What to say to bad arguments.
fn usage() -> io::Error {
    io::Error::other(
        "generate drawn SEED COUNT | lines | names | keys | geometry | bytes | characters | counts | apart | long | sample",
    )
}
