//! The kinds of answers, for counting how often each came up.

/// The kinds of an answer's line; a case's first line has up to three, a walk's last line up to two.
pub fn kinds(line: &str) -> Vec<String> {
    let words: Vec<&str> = line.split(' ').collect();
    let [letter, _, b, c, d, ..] = words[..] else { return Vec::new() };
    let kind = match letter {
        "c" => return case_kinds(b, c),
        "t" => extents(b.parse().expect("a number of extents")),
        "F" => format!("row FLAT {}", access(d)),
        "Z" => format!("row ZERO {}{}", access(d), empty(b, c)),
        "N" => format!("row NOACCESS{}", empty(b, c)),
        "r" => format!("map raw {}", access(d)),
        "z" => "map zero".into(),
        "e" => "map end".into(),
        "x" => format!("map refused {c}"),
        "D" => format!("piece raw {}", access(d)),
        "O" => "piece zero".into(),
        "d" => return walk_kinds("walk done".into(), b),
        "m" => return walk_kinds("walk more".into(), b),
        "w" => return walk_kinds(format!("walk refused {d}"), b),
        _ => return Vec::new(),
    };
    vec![kind]
}

/// The kinds of a case's first line: that it is one, what the probe says, and the refusal if there is one.
fn case_kinds(probed: &str, refusal: &str) -> Vec<String> {
    let probed = if probed == "1" { "probe yes" } else { "probe no" };
    let mut kinds = vec!["cases".into(), probed.into()];
    if refusal != "0" {
        kinds.push(format!("refused {refusal:0>2}"));
    }
    kinds
}

/// The kinds of a walk's last line: how it ended, and whether it wrote many pieces.
fn walk_kinds(end: String, pieces: &str) -> Vec<String> {
    let many = pieces.parse::<usize>().expect("a number of pieces") > 128;
    std::iter::once(end).chain(many.then(|| "walk of more than 128 pieces".into())).collect()
}

/// The kinds of tables that have many extents.
pub const MANY: [&str; 2] = ["extents: 100 to 511", "extents: 512 and more"];

/// The kind of a table, by how many extents it has.
fn extents(count: usize) -> String {
    match count {
        0 => "extents: none".into(),
        1..=99 => "extents: 1 to 99".into(),
        100..=511 => MANY[0].into(),
        512.. => MANY[1].into(),
    }
}

/// The word for an access.
fn access(writable: &str) -> &'static str {
    if writable == "1" {
        "RW"
    } else {
        "RDONLY"
    }
}

/// Marks an empty row.
fn empty(start: &str, end: &str) -> &'static str {
    if start == end {
        ", empty"
    } else {
        ""
    }
}
