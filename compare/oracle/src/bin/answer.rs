//! `answer < CASES > ANSWERS`: the oracle's answers to a case file.

use oracle::{answer, cases::Case};
use std::io::{self, BufReader, BufWriter, Write};

fn main() -> io::Result<()> {
    let mut from = BufReader::with_capacity(1 << 20, io::stdin().lock());
    let mut out = BufWriter::with_capacity(1 << 20, io::stdout().lock());
    let mut number = 0;
    while let Some(case) = Case::read(&mut from)? {
        answer::write(&case, number, &mut out)?;
        number += 1;
    }
    out.flush()
}
