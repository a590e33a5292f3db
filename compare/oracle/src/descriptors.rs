//! Drawn descriptors: good ones in every dress, ones with a chosen fault, and damaged copies.

use crate::draw::Draw;
use crate::vmdk::opened::LIMIT;

/// Every blank but 0A, which ends a line.
pub const BLANKS: [&str; 24] = [
    "\t", "\u{b}", "\u{c}", "\r", " ", "\u{85}", "\u{a0}", "\u{1680}", "\u{2000}", "\u{2001}", "\u{2002}",
    "\u{2003}", "\u{2004}", "\u{2005}", "\u{2006}", "\u{2007}", "\u{2008}", "\u{2009}", "\u{200a}",
    "\u{2028}", "\u{2029}", "\u{202f}", "\u{205f}", "\u{3000}",
];

/// What is no blank, but stands beside one, looks like one, or is taken for one elsewhere.
pub const NEAR_BLANKS: [&str; 33] = [
    "\0", "\u{8}", "\u{e}", "\u{1b}", "\u{1c}", "\u{1d}", "\u{1e}", "\u{1f}", "!", "\u{7f}", "\u{84}",
    "\u{86}", "\u{9f}", "\u{a1}", "\u{167f}", "\u{1681}", "\u{180e}", "\u{1fff}", "\u{200b}", "\u{200c}",
    "\u{200d}", "\u{2027}", "\u{202a}", "\u{202e}", "\u{2030}", "\u{205e}", "\u{2060}", "\u{2fff}",
    "\u{3001}", "\u{feff}", "\u{ff}", "\u{120}", "\u{10020}",
];

/// Characters at every edge of Table 3-7.
pub const CHARACTERS: [&str; 22] = [
    "\0", "a", "\u{7f}", "\u{80}", "\u{bf}", "\u{c0}", "\u{7ff}", "\u{800}", "\u{fff}", "\u{1000}",
    "\u{cfff}", "\u{d000}", "\u{d7ff}", "\u{e000}", "\u{fffd}", "\u{ffff}", "\u{10000}", "\u{3ffff}",
    "\u{40000}", "\u{fffff}", "\u{100000}", "\u{10ffff}",
];

/// Bytes at every edge of a following byte's range.
pub const EDGES: [u8; 12] = [0x00, 0x20, 0x7f, 0x80, 0x8f, 0x90, 0x9f, 0xa0, 0xbf, 0xc0, 0xc2, 0xff];

/// Bytes at every edge of a first byte's range.
const FIRSTS: [u8; 18] = [
    0x80, 0xbf, 0xc0, 0xc1, 0xc2, 0xdf, 0xe0, 0xe1, 0xec, 0xed, 0xee, 0xef, 0xf0, 0xf1, 0xf3, 0xf4, 0xf5,
    0xff,
];

/// Numbers at and around every limit; 36028797018963968 times 512 is 2^64.
const NUMBERS: [&str; 26] = [
    "0", "1", "2", "3", "4", "5", "63", "127", "128", "2048", "4294967295", "4294967296", "4294967297",
    "9223372036854775807", "9223372036854775808", "18014398509481983", "18014398509481984",
    "36028797018963966", "36028797018963967", "36028797018963968", "36028797018963969",
    "18446744073709551614", "18446744073709551615", "1000000000000000000", "10000000000000000000",
    "9999999999999999999",
];

/// What is no number.
const NO_NUMBERS: [&str; 26] = [
    "+", "-", "-0", "-1", "++1", "+-1", "1+", "a", "1a", "a1", "0x10", "1_0", "1.0", "1e3", "\"1\"", "\"1",
    "1\"", "\u{ff11}", "\u{663}", "1\u{660}", "18446744073709551616", "18446744073709551617",
    "18446744073709551620", "99999999999999999999", "100000000000000000000000000000", "\u{200b}1",
];

/// File names, some of them empty once trimmed.
const NAMES: [&str; 14] = [
    "", " ", "x", "reel a.vmdk", " reel b ", "\u{3000}c\u{2003}", "'", "/d/e", "=", "# f", "RW 1",
    "\u{feff}g", "\u{10ffff}", "h\u{85}i",
];

/// How odd a descriptor's dress is.
#[derive(Clone, Copy, PartialEq)]
enum Dress {
    /// One space wherever a blank must stand, none elsewhere
    Plain,
    /// Any blanks wherever one can stand
    Blanks,
    /// Now and then what is nearly a blank, too
    NearBlanks,
}

/// A drawn descriptor.
pub fn descriptor(draw: &mut Draw) -> Vec<u8> {
    match draw.below(100) {
        0..=19 => good(draw),
        20..=54 => faulty(draw),
        55..=64 => damaged(draw),
        65..=70 => tokens(draw),
        71..=73 => short(draw),
        74..=85 => wide(draw),
        86..=87 => long_list(draw),
        _ => dressed(draw),
    }
}

/// A number at or around a limit, or a small one, now and then with a sign or zeros before it.
fn number(draw: &mut Draw) -> String {
    let digits = match draw.below(4) {
        0 => draw.of(&NUMBERS).to_owned(),
        1 => draw.below(3).to_string(),
        _ => draw.below(5000).to_string(),
    };
    signed(digits, draw)
}

/// The digits as they are, or with `+`, or with zeros before them.
fn signed(digits: String, draw: &mut Draw) -> String {
    match draw.below(12) {
        0 => format!("+{digits}"),
        1 => format!("{:0>1$}", digits, draw.below(40) as usize),
        2 => format!("+0{digits}"),
        _ => digits,
    }
}

/// A small number of sectors, now and then none.
fn sectors(draw: &mut Draw) -> String {
    let digits = match draw.below(5) {
        0 => 0,
        1 => 1,
        _ => draw.below(5000),
    };
    signed(digits.to_string(), draw)
}

/// The template with its blanks: `_` is one or more, `~` none or more.
fn dress(template: &str, dress: Dress, draw: &mut Draw) -> String {
    let mut text = String::new();
    for mark in template.chars() {
        match (mark, dress) {
            ('_', Dress::Plain) => text.push(' '),
            ('~', Dress::Plain) => (),
            ('_', _) if !draw.once_in(3) => text.push(' '),
            ('~', _) if !draw.once_in(4) => (),
            ('_' | '~', Dress::NearBlanks) if draw.once_in(6) => text.push_str(draw.of(&NEAR_BLANKS)),
            ('_' | '~', _) => {
                for _ in 0..1 + draw.below(2) {
                    text.push_str(draw.of(&BLANKS));
                }
            }
            (other, _) => text.push(other),
        }
    }
    text
}

/// A sound extent line's template.
fn extent(sectors: &str, start: &str, draw: &mut Draw) -> String {
    let access = draw.of(&["RW", "RW", "RDONLY"]);
    let name = draw.of(&NAMES);
    let more = draw.of(&["", "", "", "_9", "_x", "_\"", "_\"y\" 3"]);
    match draw.below(10) {
        0 => format!("~NOACCESS_{sectors}~"),
        1 => format!("~NOACCESS_{sectors}_{}~", draw.of(&["FLAT", "\"", "ZERO", "FLAT \"x\" y"])),
        2 | 3 => format!("~{access}_{sectors}_ZERO~"),
        4 => format!("~{access}_{sectors}_ZERO_{}~", draw.of(&["\"", "FLAT", "\"x\" y", "0"])),
        5 => format!("~{access}_{sectors}_FLAT_\"~{name}~\"~"),
        6 => format!("~{access}_{sectors}_FLAT_\"{name}\"{start}{more}~"),
        _ => format!("~{access}_{sectors}_FLAT_\"~{name}~\"_{start}{more}~"),
    }
}

/// A sound line that is no extent.
fn other_line(draw: &mut Draw) -> String {
    let quote = draw.of(&["", "\"", "\""]);
    let character = draw.of(&CHARACTERS);
    let number = number(draw);
    match draw.below(14) {
        0 => format!("~#~comment {character} \"=\""),
        1 => "~".to_owned(),
        2 => format!("~{}~", draw.of(&["RW", "RDONLY", "NOACCESS", "version", "\"", "ddb.", "+"])),
        3 => format!("~{} 5 ZERO~", draw.of(&["RWX", "rw", "Rw", "RDONLYX", "NOACCES", "R W", "-RW"])),
        4 => format!("~CID~=~{}~", draw.of(&["fffffffe", "\"ab\"", "", "a b", "=", "\"", "# c"])),
        5 => format!("~CID~=~{character}~{character}~"),
        6 => format!("~parentCID~=~{}~", draw.of(&["ffffffff", "", "\"\"", "x=y", "\u{1c}"])),
        7 => format!(
            "~createType~=~{}~",
            draw.of(&["\"monolithicFlat\"", "custom", "\"", "\"\"", "\"\"\"", "\"a", "b\"", "\" c \"", ""])
        ),
        8 => format!("~createType~=~\"{character}~\"~"),
        9 => format!("~ddb.geometry.sectors~=~{quote}{number}{quote}~"),
        10 => format!("~ddb.geometry.heads~=~{quote}{number}{quote}~"),
        11 => format!("~ddb.geometry.cylinders~=~{quote}{number}{quote}~"),
        12 => format!(
            "~ddb.{}~=~{number}~",
            draw.of(&["", "x", "adapterType", "geometry", "geometry.sectors.", "geometry.Heads", "~y"])
        ),
        _ => format!("~version~=~{}~", draw.of(&["1", "2", "3", "+1", "003", "+02"])),
    }
}

/// A line that is refused, whose number is drawn from 4 to 15 or chosen; 18 and 20 come at the end.
fn fault(refusal: u64, draw: &mut Draw) -> Vec<u8> {
    let access = draw.of(&["RW", "RDONLY"]);
    let sectors = sectors(draw);
    let name = draw.of(&NAMES);
    let bad = draw.of(&NO_NUMBERS);
    let line = match refusal {
        4 => return not_utf8(draw),
        5 => match draw.below(4) {
            0 => format!("~NOACCESS_{bad}~"),
            1 => format!("~{access}_{bad}~"),
            2 => format!("~{access}_{}~", draw.of(&["FLAT \"x\" 0", "ZERO", "\"x\"", "=", "x=1"])),
            _ => format!("~{access}_{bad}_{}~", draw.of(&["FLAT \"x\" 0", "ZERO", "SPARSE", "\""])),
        },
        6 => format!("~{access}_{sectors}~"),
        7 => format!(
            "~{access}_{sectors}_{}_\"{name}\"~",
            draw.of(&[
                "SPARSE", "flat", "Zero", "FLATX", "VMFS", "FLAT\"x\"", "\"FLAT\"", "\u{feff}FLAT", "="
            ])
        ),
        8 => format!(
            "~{access}_{sectors}_FLAT~{}~",
            draw.of(&["", "_x", "_x 0", "_'x' 0", "_\u{201c}x\u{201d}"])
        ),
        9 => format!("~{access}_{sectors}_FLAT~{}~", draw.of(&["\"", "_\"x", "_x\"", "_x\" 0", "_\"x 0"])),
        10 => format!(
            "~{access}_{sectors}_FLAT_{}\"~{name}\"~{}",
            draw.of(&["x", "x_", "0_", "x_y_", "\u{200b}", "FLAT"]),
            draw.of(&["", "0", "z"])
        ),
        11 => format!("~{access}_{sectors}_FLAT_\"{name}\"~{bad}~"),
        12 => format!(
            "~version~=~{}~",
            draw.of(&[
                "", "\"1\"", "one", "+", "-1", "1 2", "4294967296", "18446744073709551616", "1.0",
                "\u{ff11}", "=1"
            ])
        ),
        13 => format!("~parentFileNameHint~=~{}~", draw.of(&["", "\"x\"", "1", "="])),
        14 => format!(
            "~ddb.geometry.{}~=~{}~",
            draw.of(&["sectors", "heads", "cylinders"]),
            draw.of(&["", "\"", "\"\"", "\" 1\"", "\"1 \"", "\"1", "1\"", "\"\"1\"\"", bad, bad, bad])
        ),
        _ => format!(
            "~{}~=~{}~",
            draw.of(&[
                "foo", "", "Version", "cid", "ddb", "Ddb.x", "RW", "version\u{200b}", "\"CID\"", "a b",
                "isNativeSnapshot", "encoding", "RWX 5"
            ]),
            draw.of(&["", "1", "\"x\"", "UTF-8"])
        ),
    };
    let how = if draw.once_in(4) { Dress::Blanks } else { Dress::Plain };
    dress(&line, how, draw).into_bytes()
}

/// A line that is not UTF-8: a sequence at an edge of Table 3-7, in a comment, a value or a name.
fn not_utf8(draw: &mut Draw) -> Vec<u8> {
    loop {
        let mut line = draw.of(&["# ", "", "CID=", "RW 1 FLAT \"", "x", "\u{e000}"]).as_bytes().to_vec();
        line.push(if draw.once_in(4) { 0x80 + draw.below(0x80) as u8 } else { draw.one(&FIRSTS) });
        for _ in 0..draw.below(4) {
            line.push(draw.one(&EDGES));
        }
        if draw.once_in(2) {
            line.extend_from_slice(draw.of(&["\"", " ", "a", "\u{80}"]).as_bytes());
        }
        if std::str::from_utf8(&line).is_err() {
            return line;
        }
    }
}

/// The lines of a good descriptor.
fn good_lines(how: Dress, draw: &mut Draw) -> Vec<Vec<u8>> {
    let mut lines = vec!["# Disk DescriptorFile".to_owned(), "~version~=~1~".to_owned()];
    for _ in 0..draw.below(6) {
        lines.push(other_line(draw));
    }
    let most = draw.below(12);
    for _ in 0..draw.below(most + 1) {
        let (sectors, start) = (sectors(draw), sectors(draw));
        lines.push(extent(&sectors, &start, draw));
    }
    for _ in 0..draw.below(3) {
        let line = other_line(draw);
        lines.insert(draw.below(lines.len() as u64 + 1) as usize, line);
    }
    lines.iter().map(|line| dress(line, how, draw).into_bytes()).collect()
}

/// The lines with 0A between them, now and then 0D 0A, and with or without one at the end.
fn join(lines: &[Vec<u8>], draw: &mut Draw) -> Vec<u8> {
    let end: &[u8] = if draw.once_in(6) { b"\r\n" } else { b"\n" };
    let mut bytes = lines.join(end);
    if !draw.once_in(4) {
        bytes.extend_from_slice(end);
    }
    bytes
}

/// A good descriptor, in any dress.
fn good(draw: &mut Draw) -> Vec<u8> {
    let how = match draw.below(4) {
        0 => Dress::Plain,
        1 => Dress::NearBlanks,
        _ => Dress::Blanks,
    };
    let lines = good_lines(how, draw);
    join(&lines, draw)
}

/// A good descriptor into which one fault is put, now and then two.
fn faulty(draw: &mut Draw) -> Vec<u8> {
    let mut lines = good_lines(Dress::Plain, draw);
    for _ in 0..1 + u64::from(draw.once_in(4)) {
        let line = match draw.below(16) {
            12 => {
                let version = draw.of(&["0", "4", "+0", "5", "4294967295", "00", "10"]);
                lines.push(format!("version={version}").into_bytes());
                continue;
            }
            13 => {
                lines.retain(|line| !line.starts_with(b"version"));
                continue;
            }
            14 | 15 => large(draw),
            refusal => fault(refusal + 4, draw),
        };
        lines.insert(draw.below(lines.len() as u64 + 1) as usize, line);
    }
    join(&lines, draw)
}

/// An extent whose sectors or whose file start are at or around the largest that are a number of bytes.
fn large(draw: &mut Draw) -> Vec<u8> {
    if draw.once_in(2) {
        let start = too_large(draw);
        return format!("RW {} FLAT \"x\" {start}", sectors(draw)).into_bytes();
    }
    let (sectors, start) = (too_large(draw), number(draw));
    let line = extent(&sectors, &start, draw);
    dress(&line, Dress::Plain, draw).into_bytes()
}

/// A number of sectors at or around the largest that is a number of bytes.
fn too_large(draw: &mut Draw) -> String {
    let limit = 1u64 << 55;
    let sectors = match draw.below(4) {
        0 => limit - 1,
        1 => limit,
        2 => limit + draw.below(1 << 20),
        _ => u64::MAX - draw.below(2),
    };
    signed(sectors.to_string(), draw)
}

/// A good or faulty descriptor with some bytes changed.
fn damaged(draw: &mut Draw) -> Vec<u8> {
    let mut bytes = if draw.once_in(4) { faulty(draw) } else { good(draw) };
    for _ in 0..1 + draw.below(3) {
        let at = draw.below(bytes.len() as u64 + 1) as usize;
        let to = (at + draw.below(12) as usize).min(bytes.len());
        match draw.below(8) {
            0 => bytes.insert(at, draw.number() as u8),
            1 => bytes.insert(at, draw.one(b"\n\"= #+0\x85")),
            2 if at < bytes.len() => bytes[at] = draw.number() as u8,
            3 if at < bytes.len() => bytes[at] ^= 1 << draw.below(8),
            4 => bytes.truncate(at),
            5 => bytes.extend_from_within(at..to),
            6 if at < bytes.len() => {
                bytes.remove(at);
            }
            _ => {
                bytes.drain(at..to);
            }
        }
    }
    bytes
}

/// A row of drawn tokens.
fn tokens(draw: &mut Draw) -> Vec<u8> {
    let mut text = draw.of(&["", "version=1\n", "version=1\n", "version=1\nRW 1 FLAT "]).to_owned();
    for _ in 0..draw.below(16) {
        text.push_str(draw.of(&[
            "RW", "RDONLY", "NOACCESS", "FLAT", "ZERO", "version", "CID", "parentCID", "createType",
            "ddb.geometry.sectors", "ddb.", "=", "=", "\"", "\"", "\n", "\n", " ", " ", " ", "1", "2", "0",
            "+", "#", "x", "\u{a0}", "\u{2003}", "\u{1c}", "\u{feff}", "\r",
        ]));
    }
    text.into_bytes()
}

/// Up to six bytes, or some with the sparse bytes or nearly those before them.
fn short(draw: &mut Draw) -> Vec<u8> {
    if draw.once_in(2) {
        let bytes = draw.of(&["", "a", "ver", "=1=1", "KDM", "\n\n\n\n", "#\u{10ffff}", "#", "RW 1"]);
        return bytes.as_bytes()[..draw.below(bytes.len() as u64 + 1) as usize].to_vec();
    }
    let mut bytes = b"KDMV".to_vec();
    if draw.once_in(3) {
        bytes[draw.below(4) as usize] ^= 1 << draw.below(8);
    }
    if draw.once_in(2) {
        bytes.extend_from_slice(&good(draw));
    }
    bytes
}

/// A table of wide rows: sizes up to the largest sum, file starts up to the largest place; often with
/// other lines between.
fn wide(draw: &mut Draw) -> Vec<u8> {
    let mut lines = vec![b"version=2".to_vec()];
    let mut left = (1u64 << 55) - 1;
    for _ in 0..1 + draw.below(8) {
        let sectors = match draw.below(8) {
            0 => 0,
            1 => left,
            2 => left.saturating_add(1),
            3 => draw.below(left + 1),
            _ => draw.below(16),
        };
        let start = match draw.below(4) {
            0 | 1 => (1 << 55) - 1 - draw.below(16) * draw.below(2),
            2 if draw.once_in(12) => 1 << 55,
            _ => draw.below(1 << 40),
        };
        left = left.saturating_sub(sectors);
        let line = extent(&signed(sectors.to_string(), draw), &signed(start.to_string(), draw), draw);
        lines.push(dress(&line, Dress::Plain, draw).into_bytes());
    }
    for _ in 0..draw.below(4) {
        let line = dress(&other_line(draw), Dress::Plain, draw).into_bytes();
        lines.insert(draw.below(lines.len() as u64 + 1) as usize, line);
    }
    join(&lines, draw)
}

/// So many extents at most: some more than are taken.
pub const MOST_LINES: usize = LIMIT + 6;

/// Many extents, now and then with other lines, a fault and a large extent between the last ones. Every
/// second list has no extent without access, so that a walk goes on.
fn long_list(draw: &mut Draw) -> Vec<u8> {
    let open = draw.once_in(2);
    let mut lines = vec![b"version=3".to_vec()];
    for _ in 0..count(draw) {
        let (sectors, start) = (sectors(draw), sectors(draw));
        let mut line = extent(&sectors, &start, draw);
        while open && line.starts_with("~NOACCESS") {
            line = extent(&sectors, &start, draw);
        }
        lines.push(dress(&line, Dress::Plain, draw).into_bytes());
    }
    for _ in 0..draw.below(4) {
        let line = match draw.below(4) {
            0 => fault(4 + draw.below(12), draw),
            1 => large(draw),
            _ => dress(&other_line(draw), Dress::Plain, draw).into_bytes(),
        };
        let from_end = draw.below(8.min(lines.len() as u64)) as usize;
        lines.insert(lines.len() - from_end, line);
    }
    join(&lines, draw)
}

/// A number of extents: around 128, around another edge, around the limit, or any.
fn count(draw: &mut Draw) -> u64 {
    let limit = LIMIT as u64;
    match draw.below(12) {
        0..=4 => 100 + draw.below(31),
        5..=6 => [0, 127, 255, 511][draw.below(4) as usize] + draw.below(3),
        7..=9 => limit - 1 + draw.below(3),
        10 => limit + 1 + draw.below((MOST_LINES - LIMIT) as u64),
        _ => draw.below(MOST_LINES as u64 + 1),
    }
}

/// A sound or unsound line in an odd dress, after a sound head, so that little else decides.
fn dressed(draw: &mut Draw) -> Vec<u8> {
    let (sectors, start) = (number(draw), number(draw));
    let line = match draw.below(3) {
        0 => other_line(draw),
        1 => extent(&sectors, &start, draw),
        _ => draw
            .of(&[
                "~version~=~1~", "~version~=~+~1~", "~CID~=~a~b~", "~createType~=~\"~a~\"~",
                "~ddb.geometry.heads~=~\"~1~\"~", "~ddb.~x~=~1~", "~R~W_1_ZERO~", "~RW_1~2_ZERO~",
                "~RW_1_ZE~RO~", "~RW_1_FLAT_\"~a~b~\"~1~2~", "~RW_1_FLAT~\"a\"~", "~NOACCESS_1~x~",
                "~RDONLY_+~1_ZERO~", "~#~version=9", "~RW~", "~RW_~", "~RW_=~1~", "~RW~=~1~",
                "~parentFile~NameHint~=", "~ver~sion~=~1~", "~=~1~", "~RW_1_FLAT_~\"~\"_~0~",
            ])
            .to_owned(),
    };
    let how = if draw.once_in(2) { Dress::Blanks } else { Dress::NearBlanks };
    let head = draw.of(&["version=1\n", "version=1\n", "version=1\r\n", ""]);
    format!("{head}{}{}", dress(&line, how, draw), draw.of(&["", "\n", "\r\n"])).into_bytes()
}
