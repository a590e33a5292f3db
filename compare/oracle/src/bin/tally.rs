//! `tally < ANSWERS`: how often each kind of answer came up, a line each: the count, then the kind.

use oracle::kinds::kinds;
use std::collections::BTreeMap;
use std::io::{self, BufRead, BufReader};

fn main() -> io::Result<()> {
    let mut counts: BTreeMap<String, u64> = BTreeMap::new();
    for line in BufReader::with_capacity(1 << 20, io::stdin().lock()).lines() {
        for kind in kinds(&line?) {
            *counts.entry(kind).or_default() += 1;
        }
    }
    counts.iter().for_each(|(kind, count)| println!("{count} {kind}"));
    Ok(())
}
