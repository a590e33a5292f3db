//! Short inputs, all of them: every row of so many tokens, every byte pair, every character.

use crate::cases::{Case, Query};
use crate::descriptors::{EDGES, MOST_LINES};
use crate::vmdk::opened::LIMIT;
use std::io::{self, Write};

/// Tokens that are put together in every order, after a head.
pub struct Family {
    /// What the family is called
    pub name: &'static str,
    /// What stands before the tokens
    head: &'static str,
    /// The tokens
    tokens: &'static [&'static str],
    /// At most so many
    pub most: usize,
}

/// Every family of tokens.
pub const FAMILIES: [Family; 4] = [
    Family {
        name: "lines",
        head: "version=1\n",
        tokens: &["RW ", "1", " ZERO", " FLAT ", "\"", "\n", "=", "CID", "version", "ddb.", "#", "NOACCESS "],
        most: 5,
    },
    Family {
        name: "names",
        head: "version=1\nRW 1 FLAT ",
        tokens: &["\"", "1", " ", "+", "x", "\n", "\u{a0}"],
        most: 6,
    },
    Family {
        name: "keys",
        head: "",
        tokens: &["version", "=", " ", "1", "\"", "+", "\n", "3", "4"],
        most: 5,
    },
    Family {
        name: "geometry",
        head: "version=1\nddb.geometry.sectors",
        tokens: &["\"", "=", " ", "7", "+", "\u{2003}", "\n"],
        most: 5,
    },
];

/// Every row of at most `most` tokens of a family, the shorter first.
pub fn write_family(family: &Family, most: usize, out: &mut impl Write) -> io::Result<()> {
    for count in 0..=most {
        let mut places = vec![0; count];
        loop {
            let mut text = family.head.to_owned();
            places.iter().for_each(|place: &usize| text.push_str(family.tokens[*place]));
            write_case(text.into_bytes(), out)?;
            // The next row, the last token turning fastest
            let Some(turn) = places.iter().rposition(|place| place + 1 < family.tokens.len()) else {
                break;
            };
            places[turn] += 1;
            places[turn + 1..].fill(0);
        }
    }
    Ok(())
}

/// Every pair of bytes, and every first byte of three or four with the bytes at every edge of a
/// following byte's range, each in a name, so that it is answered if it is sound.
pub fn write_bytes(out: &mut impl Write) -> io::Result<()> {
    for pair in 0..=u16::MAX {
        write_name(&pair.to_be_bytes(), out)?;
    }
    for first in 0xe0..=0xf8 {
        for second in EDGES {
            for third in EDGES {
                write_name(&[first, second, third], out)?;
                for fourth in EDGES {
                    write_name(&[first, second, third, fourth], out)?;
                }
            }
        }
    }
    Ok(())
}

/// Every character: inside a name, where it is trimmed if it is a blank; and after `RW`, where an
/// extent begins if it is a blank, and the line is passed over if it is not.
pub fn write_characters(out: &mut impl Write) -> io::Result<()> {
    let all: Vec<char> = ('\0'..=char::MAX).filter(|char| !['\n', '"', '='].contains(char)).collect();
    for some in all.chunks(64) {
        let mut text = String::from("version=1\n");
        for (index, char) in some.iter().enumerate() {
            text.push_str(&format!("RW 0 FLAT \"{char}x{char}\"\nRW{char}{} ZERO\n", index + 1));
        }
        write_case(text.into_bytes(), out)?;
    }
    // Between words, where what is no blank is refused: up to the last blank, and the planes' ends
    for char in all.into_iter().filter(|char| *char < '\u{3100}' || (*char as u32) & 0xffff >= 0xfe00) {
        write_case(format!("version=1\nRW 1{char}ZERO").into_bytes(), out)?;
    }
    Ok(())
}

/// Lines that are refused, each by another number: 4 to 15, and 18 to 20 (19 only after another extent).
const REFUSED: [&[u8]; 15] = [
    b"\xff", b"RW x", b"RW 1", b"RW 1 SPARSE", b"RW 1 FLAT", b"RW 1 FLAT \"", b"RW 1 FLAT x \"\"",
    b"RW 1 FLAT \"\" x", b"version=x", b"parentFileNameHint=", b"ddb.geometry.heads=x", b"x=",
    b"RW 36028797018963968 ZERO", b"RW 36028797018963967 ZERO", b"RW 1 FLAT \"\" 36028797018963968",
];

/// Every number of extents up to some more than are taken: with questions at the last rows, and with
/// a line after them that is refused. Around the edges there is each such line, and the whole disk is
/// walked.
pub fn write_counts(out: &mut impl Write) -> io::Result<()> {
    for count in 0..=MOST_LINES {
        let edge = [0, 1, 127, 128, 129, 255, 256, 257, 511, 512, 513].contains(&count) || count + 1 >= LIMIT;
        let descriptor = extents(count);
        let queries = if edge { [last_rows(count), whole(count)].concat() } else { last_rows(count) };
        Case { descriptor: descriptor.clone(), queries }.write(out)?;
        for line in if edge { &REFUSED[..] } else { &REFUSED[count % REFUSED.len()..][..1] } {
            Case { descriptor: [&descriptor[..], line].concat(), queries: vec![] }.write(out)?;
        }
    }
    Ok(())
}

/// Lines that say no extent, though some look as if they did, and the last as if it were several lines.
const NO_EXTENTS: [&str; 6] =
    ["", "# RW 1 ZERO", "CID=RW 1 ZERO", "RW ", "RWX 1 ZERO", "#\r\u{b}\u{c}\u{85}\u{2028}RW 1 ZERO"];

/// Extents that are sound, or refused with 18, 19 (after another, or the one after it is) or 20.
const EXTENTS: [&str; 4] = [
    "NOACCESS 1", "RW 36028797018963968 ZERO", "RW 36028797018963967 ZERO",
    "RW 1 FLAT \"\" 36028797018963968",
];

/// How many lines that say no extent stand before each of three extents, and after the last.
pub const GAPS: [[usize; 4]; 4] = [[1, 2, 1, 0], [1, 0, 0, 0], [0, 1, 0, 0], [0, 0, 1, 1]];

/// Three extents with other lines between, so that an extent's line does not follow from its number:
/// each of the extents in each place, each of the other lines in the gaps; the version before them and
/// no 0A at the end, or the version after them.
pub fn write_apart(gaps: &[[usize; 4]], out: &mut impl Write) -> io::Result<()> {
    for gaps in gaps {
        for other in NO_EXTENTS {
            for extent in EXTENTS {
                for place in 0..3 {
                    let text = apart(extent, place, other, gaps);
                    write_case(format!("version=1\n{text}").into_bytes(), out)?;
                    write_case(format!("{text}\nversion=1\n").into_bytes(), out)?;
                }
            }
        }
    }
    Ok(())
}

/// Three extents, the given one in a place among them, and the other line so many times in the gaps.
fn apart(extent: &str, place: usize, other: &str, gaps: &[usize; 4]) -> String {
    let mut lines = vec![other; gaps[0]];
    for (index, gap) in gaps[1..].iter().enumerate() {
        lines.push(if index == place { extent } else { "RW 1 ZERO" });
        lines.resize(lines.len() + gap, other);
    }
    lines.join("\n")
}

/// A descriptor with so many extents of one sector, of every kind that can be walked.
pub fn extents(count: usize) -> Vec<u8> {
    let mut text = String::from("version=1\n");
    for index in 0..count {
        text.push_str(&match index % 4 {
            0 => format!("RW 1 FLAT \"a\" {index}\n"),
            1 => "RW 1 ZERO\n".to_owned(),
            2 => "RDONLY 1 FLAT \"\"\n".to_owned(),
            _ => "RDONLY 1 ZERO\n".to_owned(),
        });
    }
    text.into_bytes()
}

/// The rows' size.
const SECTOR: u64 = 512;

/// Mappings at the edges of the last row, and a walk over the last rows.
pub fn last_rows(count: usize) -> Vec<Query> {
    let size = count as u64 * SECTOR;
    let from = |back: u64| size.saturating_sub(back);
    vec![
        Query::Map { offset: from(SECTOR + 1), length: 7 },
        Query::Map { offset: from(SECTOR), length: u64::MAX },
        Query::Map { offset: from(1), length: 7 },
        Query::Map { offset: size, length: 7 },
        Query::Walk { offset: from(3 * SECTOR), length: size, places: MOST_LINES as u16 },
    ]
}

/// Walks over the whole disk, with a list of as many places as there are rows, of one less, of 128,
/// and of as many as a walk fills.
fn whole(count: usize) -> Vec<Query> {
    let walk = |places| Query::Walk { offset: 0, length: u64::MAX, places: places as u16 };
    [count, count.saturating_sub(1), 128, LIMIT].map(walk).to_vec()
}

/// Long inputs: at 65,536 bytes, and around 2,097,152.
pub fn write_long(out: &mut impl Write) -> io::Result<()> {
    const MOST: usize = 2_097_152;
    let good = b"version=1\nRW 3 FLAT \"x\" 1\n";
    for length in [65_535, 65_536, 65_537, MOST - 1, MOST, MOST + 1, MOST + 2] {
        for filling in
            [&b"#"[..], b"\n", b"# comment\n", b" ", b"x", b"=", "\u{43b}".as_bytes(), "\u{3000}".as_bytes()]
        {
            let filled = filling.iter().cycle().copied();
            for head in [&good[..], b"", b"KDMV"] {
                let before = head.iter().copied().chain(*b"#").chain(filled.clone()).take(length).collect();
                write_case(before, out)?;
            }
            let mut behind: Vec<u8> = filled.take(length - good.len() - 1).collect();
            behind.push(b'\n');
            behind.extend_from_slice(good);
            write_case(behind, out)?;
        }
    }
    Ok(())
}

/// A name on a flat extent.
pub fn write_name(name: &[u8], out: &mut impl Write) -> io::Result<()> {
    write_case([b"version=1\nRW 1 FLAT \"", name, b"\""].concat(), out)
}

/// A descriptor with a map and a walk over the whole disk.
pub fn write_case(descriptor: Vec<u8>, out: &mut impl Write) -> io::Result<()> {
    let walk = Query::Walk { offset: 0, length: u64::MAX, places: LIMIT as u16 };
    let queries = vec![Query::Map { offset: 1, length: 7 }, walk];
    Case { descriptor, queries }.write(out)
}
