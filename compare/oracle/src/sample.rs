//! The fixed list: some thousand small cases in which every kind of answer comes up.

use crate::answer;
use crate::cases::{Case, Query};
use crate::descriptors::{self, BLANKS, MOST_LINES, NEAR_BLANKS};
use crate::draw::Draw;
use crate::exhaustive::{self, FAMILIES, GAPS};
use crate::kinds;
use crate::queries;
use crate::vmdk::opened::LIMIT;
use std::collections::BTreeMap;
use std::io::{self, Write};

/// The seed of the drawn cases.
const SEED: u64 = 2026;

/// So many drawn cases for each kind of answer that short ones have, and for each kind of long table.
const EACH: u64 = 60;
const EACH_LONG: u64 = 1;

/// A descriptor above so many bytes is long.
const SHORT: usize = 300;

/// Write the fixed list: the marked cases of document 01, some numbers of extents, extents with other
/// lines between, the short rows of tokens, every blank and near-blank, the edges of Table 3-7, then
/// drawn cases.
pub fn write(out: &mut impl Write) -> io::Result<()> {
    marked().iter().try_for_each(|case| case.write(out))?;
    for count in [128, 129, 257, 512, MOST_LINES] {
        let descriptor = exhaustive::extents(count);
        Case { descriptor, queries: exhaustive::last_rows(count) }.write(out)?;
    }
    exhaustive::write_apart(&GAPS[..1], out)?;
    for family in &FAMILIES {
        exhaustive::write_family(family, if family.name == "lines" { 2 } else { 3 }, out)?;
    }
    for char in BLANKS.iter().chain(&NEAR_BLANKS) {
        for text in [
            format!("version{char}=1\nRW 1{char}ZERO"),
            format!("version={char}1{char}\nRW{char}1 ZERO\nCID={char}a{char}b{char}"),
            format!("{char}version=1\nRW 1 FLAT \"{char}a{char}b{char}\"{char}2{char}x"),
        ] {
            exhaustive::write_case(text.into_bytes(), out)?;
        }
    }
    for first in 0xc0..=0xf8 {
        for second in [0x7f, 0x80, 0x8f, 0x90, 0x9f, 0xa0, 0xbf, 0xc0] {
            let bytes = [first, second, 0x80, 0xbf];
            let length = if first < 0xe0 {
                2
            } else if first < 0xf0 {
                3
            } else {
                4
            };
            exhaustive::write_name(&bytes[..length], out)?;
        }
    }
    drawn().iter().try_for_each(|case| case.write(out))
}

/// Drawn cases until each kind of answer has come up often enough.
fn drawn() -> Vec<Case> {
    let mut draw = Draw::new(SEED);
    let mut counts: BTreeMap<String, u64> = BTreeMap::new();
    let mut kept = Vec::new();
    for _ in 0..100_000 {
        let case = queries::ask(descriptors::descriptor(&mut draw), &mut draw);
        let kinds = kinds_of(&case);
        let long = |kind: &str| kinds::MANY.contains(&kind);
        let wanted = |kind: &String| {
            let most = if long(kind) { EACH_LONG } else { EACH };
            (long(kind) || case.descriptor.len() <= SHORT) && *counts.get(kind).unwrap_or(&0) < most
        };
        if kinds.iter().any(wanted) {
            kinds.into_iter().for_each(|kind| *counts.entry(kind).or_default() += 1);
            kept.push(case);
        }
    }
    kept
}

/// The kinds of answers that a case has, each once.
fn kinds_of(case: &Case) -> Vec<String> {
    let mut text = Vec::new();
    answer::write(case, 0, &mut text).expect("writing to memory does not fail");
    let text = String::from_utf8(text).expect("answers are text");
    let mut kinds: Vec<String> = text.lines().flat_map(kinds::kinds).collect();
    kinds.sort();
    kinds.dedup();
    kinds
}

/// The report's descriptor and the marked cases K1 to K12 of document 01, then the limit of 1,024.
pub fn marked() -> Vec<Case> {
    let map = |offset, length| Query::Map { offset, length };
    let walk = |offset, length| Query::Walk { offset, length, places: LIMIT as u16 };
    let case = |text: &str, queries: &[Query]| Case {
        descriptor: text.as_bytes().to_vec(),
        queries: queries.to_vec(),
    };
    let report = "# Disk DescriptorFile\nversion=1\nCID=fffffffe\nRW 4 FLAT \"reel a.vmdk\" 2\n\
                  RDONLY 0 ZERO\nNOACCESS 1\nRDONLY 3 ZERO\n";
    let rows = |count| format!("version=1\n{}", "RW 1 ZERO\n".repeat(count));
    vec![
        case(
            report,
            &[map(0, 100), map(2047, 100), map(2048, 10), map(2560, 0), map(4096, 1), walk(2560, 5000)],
        ),
        case("", &[]),
        case("version=9\nversion=1\n", &[]),
        case("version=1\nversion=9\n", &[]),
        case("version=1\nRW 36028797018963968 ZERO\n", &[]),
        case("version=1\nRW 36028797018963967 ZERO\n", &[map(0, u64::MAX)]),
        case("version=1\nRW 36028797018963967 ZERO\nRW 1 ZERO\n", &[]),
        case("version=1\nRW 2 FLAT \"x\" 36028797018963967\n", &[map(0, 1024), map(512, 1), walk(0, 1024)]),
        case("version=1\nRW 5 FLAT x \"a\"\n", &[]),
        case(&rows(LIMIT), &[walk(0, u64::MAX), map(524_287, 1)]),
        case(&rows(LIMIT + 1), &[]),
        case(&(rows(LIMIT) + "x=1\nRW 1 ZERO"), &[]),
        case(&(rows(LIMIT + 1) + "x=1"), &[]),
        case(&(rows(LIMIT) + "RW 1"), &[]),
        case("version=1\nRW 1 ZERO\nRW 1 FLAT \"\" 36028797018963968", &[]),
    ]
}
