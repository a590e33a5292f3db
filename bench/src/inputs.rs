//! The inputs: descriptors to read and probe, and tables to map and walk.

use oracle::draw::Draw;
use oracle::vmdk::opened::LIMIT;

/// The most bytes that a descriptor has.
const MOST: usize = 2_097_152;

/// A descriptor with its name.
pub struct Input {
    /// What the table of figures calls it
    pub name: &'static str,
    /// Its bytes
    pub bytes: Vec<u8>,
}

/// The descriptors that are read and probed.
pub fn descriptors() -> Vec<Input> {
    let refused = {
        let mut bytes = commented(65_536 - 10);
        bytes.extend_from_slice(b"unknown=1\n");
        bytes
    };
    let comment = "# a comment that a reel's descriptor might well hold, 64 bytes..\n";
    let cyrillic = "# запись о съёмке второго дня, камера первая, плёнка новая\n";
    let cjk = "# 第二天的拍摄记录，第一台摄影机，全新的胶片，天气晴朗无云\n";
    vec![
        Input { name: "typical, 4 KB, 20 extents", bytes: typical() },
        Input { name: "64 KB, 128 extents, comments", bytes: commented(65_536) },
        Input { name: "2 MB of comments", bytes: filled(comment, MOST) },
        Input { name: "2 MB of empty lines", bytes: filled("\n", MOST) },
        Input { name: "one line of 2 MB", bytes: one_line() },
        Input { name: "1 MB of Cyrillic comments", bytes: filled(cyrillic, MOST / 2) },
        Input { name: "1 MB of CJK comments", bytes: filled(cjk, MOST / 2) },
        Input { name: "64 KB, refused on its last line", bytes: refused },
    ]
}

/// The descriptors that are read and not probed: the shortest, one that is refused at once, and one with the most extents.
pub fn read_only() -> Vec<Input> {
    vec![
        Input { name: "1 extent", bytes: extents(1) },
        Input { name: "refused on its first line", bytes: [&b"unknown=1\n"[..], &extents(1)].concat() },
        Input { name: "1,024 extents", bytes: extents(LIMIT) },
    ]
}

/// Each kind of long descriptor in three lengths: reading is to cost as much for each byte of the longest as of the shortest.
pub fn scaled() -> Vec<(String, Vec<u8>)> {
    let lengths = [("64 KB", 65_536), ("512 KB", 524_288), ("2 MB", MOST)];
    lengths.into_iter().flat_map(|(size, length)| kinds(size, length)).collect()
}

/// The kinds of long descriptors, so many bytes each.
fn kinds(size: &str, length: usize) -> [(String, Vec<u8>); 4] {
    let comment = "# a comment that a reel's descriptor might well hold, 64 bytes..\n";
    [
        (format!("{size} of comments"), filled(comment, length)),
        (format!("{size} of empty lines"), filled("\n", length)),
        (format!("one line of {size}"), filled("#", length)),
        (format!("{size}, 128 extents and comments"), commented(length)),
    ]
}

/// What the long inputs end with: probing, too, comes to `version` at the end only.
const TAIL: &str = "\nversion=1\nCID=fffffffe\nRW 4192256 FLAT \"reel.vmdk\" 0\n";

/// The filling again and again, then the tail, so many bytes in all.
fn filled(filling: &str, length: usize) -> Vec<u8> {
    let mut text = filling.repeat((length - TAIL.len()) / filling.len());
    text.push_str(&"#".repeat(length - TAIL.len() - text.len()));
    text.push_str(TAIL);
    text.into_bytes()
}

/// One comment line, then the tail.
fn one_line() -> Vec<u8> {
    filled("#", MOST)
}

/// What a tool writes: the head, 20 extents, the disk database; comments fill up 4,096 bytes.
fn typical() -> Vec<u8> {
    let mut text = String::from(
        "# Disk DescriptorFile\nversion=1\nCID=fffffffe\nparentCID=ffffffff\n\
         createType=\"twoGbMaxExtentFlat\"\n\n# Extent description\n",
    );
    for index in 1..=20 {
        text.push_str(&format!("RW 4192256 FLAT \"feature-reel-f{index:03}.vmdk\" 0\n"));
    }
    text.push_str(
        "\n# The Disk Data Base\n#DDB\n\nddb.adapterType = \"lsilogic\"\n\
         ddb.geometry.cylinders = \"5221\"\nddb.geometry.heads = \"255\"\nddb.geometry.sectors = \"63\"\n\
         ddb.longContentID = \"f3b1c5a7d9e80246fffffffefffffffe\"\nddb.uuid = \"60 00 C2 9e 5f 1c\"\n\
         ddb.virtualHWVersion = \"4\"\n",
    );
    while text.len() + 60 <= 4096 {
        text.push_str("# written by the scanner's own tool, reel and shelf in ddb..\n");
    }
    text.into_bytes()
}

/// What stands before the extents.
const HEAD: &str = "# Disk DescriptorFile\nversion=1\nCID=fffffffe\ncreateType=\"custom\"\n";

/// The line of an extent.
fn extent(index: usize) -> String {
    format!("RW 4192256 FLAT \"feature-reel-f{index:03}.vmdk\" {}\n", index * 128)
}

/// So many extents and nothing between them.
fn extents(count: usize) -> Vec<u8> {
    let mut text = String::from(HEAD);
    (0..count).for_each(|index| text.push_str(&extent(index)));
    text.into_bytes()
}

/// 128 extents with comments between them, so many bytes in all.
fn commented(length: usize) -> Vec<u8> {
    let mut text = String::from(HEAD);
    let each = (length - text.len()) / 128;
    for index in 0..128 {
        let end = text.len() + each;
        text.push_str(&extent(index));
        while text.len() + 72 <= end {
            text.push_str("# shot on the second day, first camera, new film, clear sky, no clouds\n");
        }
    }
    text.push_str(&"#".repeat(length - 1 - text.len()));
    text.push('\n');
    text.into_bytes()
}

/// A descriptor whose table has so many rows, all readable, and a size of 2^31 bytes.
pub fn table(rows: u64) -> Vec<u8> {
    let mut draw = Draw::new(rows);
    let mut left = (1u64 << 31) / 512;
    let mut text = String::from("version=1\n");
    for row in 0..rows {
        let mean = left / (rows - row);
        let sectors = if row + 1 == rows { left } else { mean / 2 + draw.below(mean) };
        left -= sectors;
        text.push_str(&match row % 4 {
            0 | 1 => format!("RW {sectors} FLAT \"f{row}.vmdk\" {}\n", row * 64),
            2 => format!("RDONLY {sectors} FLAT \"g{row}.vmdk\" 128\n"),
            _ => format!("RW {sectors} ZERO\n"),
        });
    }
    text.into_bytes()
}
