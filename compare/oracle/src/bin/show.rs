//! `show NUMBER < CASES`: one case of a file, its descriptor as text and in hex, and its queries.

use oracle::cases::Case;
use std::io::{self, BufReader};

fn main() -> io::Result<()> {
    let number = std::env::args().nth(1).and_then(|word| word.parse::<u64>().ok());
    let number = number.ok_or_else(|| io::Error::other("show NUMBER < CASES"))?;
    let mut from = BufReader::new(io::stdin().lock());
    let mut at = 0;
    while let Some(case) = Case::read(&mut from)? {
        if at == number {
            let hex: String = case.descriptor.iter().map(|byte| format!("{byte:02x}")).collect();
            println!("case {number}: {} bytes", case.descriptor.len());
            println!("text {}", case.descriptor.escape_ascii());
            println!("hex {hex}");
            case.queries.iter().for_each(|query| println!("{query:?}"));
        }
        at += 1;
    }
    Ok(())
}
