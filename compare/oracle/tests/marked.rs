//! The oracle's answers to the marked cases of document 01, as the document has them, and the lines of
//! extents, counted by hand.

use oracle::{answer, cases::Case, sample};

/// The lines of the answer to a case.
fn lines(case: &Case) -> Vec<String> {
    let mut text = Vec::new();
    answer::write(case, 0, &mut text).expect("writing to memory does not fail");
    let text = String::from_utf8(text).expect("answers are text");
    text.lines().map(str::to_owned).collect()
}

/// The lines of each marked case's answer.
fn answers() -> Vec<Vec<String>> {
    sample::marked().iter().map(lines).collect()
}

#[test]
fn marked_cases() {
    let cid = "102 102 102 102 102 102 102 101"; // fffffffe
    let name = "114 101 101 108 32 97 46 118 109 100 107"; // reel a.vmdk
    let expected: [&[&str]; 9] = [
        &[
            "c 0 1 0 0 0",
            &format!("v 1 0 0 0 0 {cid}"),
            "p 0 0 0 0 0",
            "t 4096 4 0 0 0",
            &format!("F 4 0 2048 1 1024 {name}"),
            "Z 5 2048 2048 0 0",
            "N 6 2048 2560 0 0",
            "Z 7 2560 4096 0 0",
            // K1 to K6
            &format!("r 100 3 0 1 1024 {name}"),
            &format!("r 1 3 0 1 3071 {name}"),
            "x 0 1 21 0 0",
            "z 0 2 3 0 0",
            "e 0 0 0 0 0",
            "O 2560 1536 3 0 0",
            "d 4096 1 2 0 0",
        ],
        &["c 0 0 1 0 0"],
        // K7, K8
        &["c 0 0 0 0 0", "v 1 0 0 0 0", "p 0 0 0 0 0", "t 0 0 0 0 0"],
        &["c 0 1 17 0 0"],
        // K9, K10
        &["c 0 1 18 2 0"],
        &[
            "c 0 1 0 0 0", "v 1 0 0 0 0", "p 0 0 0 0 0", "t 18446744073709551104 1 0 0 0",
            "Z 2 0 18446744073709551104 1 0", "z 18446744073709551104 1 0 0 0",
        ],
        &["c 0 1 19 3 0"],
        // K11, K12
        &[
            "c 0 1 0 0 0", "v 1 0 0 0 0", "p 0 0 0 0 0", "t 1024 1 0 0 0",
            "F 2 0 1024 1 18446744073709551104 120", "r 1024 1 0 1 18446744073709551104 120", "x 0 1 22 0 0",
            "D 0 1024 0 1 18446744073709551104 120", "d 1024 1 1 0 0",
        ],
        &["c 0 1 10 2 0"],
    ];
    for (found, expected) in answers().iter().zip(expected) {
        assert_eq!(found, expected);
    }
}

#[test]
fn limit_of_1024() {
    let answers = answers();
    let last: Vec<&str> = answers[10..15].iter().map(|lines| lines[0].as_str()).collect();
    assert_eq!(
        last,
        ["c 0 1 16 1026 0", "c 0 1 15 1026 0", "c 0 1 16 1026 0", "c 0 1 6 1026 0", "c 0 1 20 3 0"]
    );
}

#[test]
fn lines_of_extents() {
    let values = ["c 0 1 0 0 0", "v 1 0 0 0 0", "p 0 0 0 0 0", "t 1024 2 0 0 0"];
    let rows = [&values[..], &["Z 3 0 512 1 0", "N 6 512 1024 0 0"]].concat();
    for (text, expected) in [
        ("RW 36028797018963968 ZERO\nversion=1", &["c 0 1 18 1 0"][..]),
        ("\n# RW 1 ZERO\nversion=1\nRW 36028797018963968 ZERO\n", &["c 0 1 18 4 0"]),
        ("RW 36028797018963967 ZERO\n\nversion=1\nRW \nRW 1 ZERO\nRW 1 ZERO", &["c 0 1 19 5 0"]),
        ("version=1\nRW 1 ZERO\n#\r\u{85}\u{2028}\nRW 1 FLAT \"\" 36028797018963968", &["c 0 1 20 4 0"]),
        ("CID=\n\nRW 1 ZERO\nRWX 1 ZERO\nversion=1\n\u{a0}NOACCESS\u{2003}1", &rows),
    ] {
        assert_eq!(lines(&Case { descriptor: text.into(), queries: vec![] }), expected);
    }
}
