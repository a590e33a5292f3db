//! Opens what is private in imago's text, and says its errors in document 01's numbers.
//!
//! The answers are the Rust's own. Added around it are only: the number of an error's text, the
//! limit of 1,024 extents (16), and the lines of extents, for the rows and for 18 to 20.

use super::*;
use crate::storage::Store;

/// The most extents that are taken, and the most pieces of a walk.
pub const LIMIT: usize = 1024;

/// Document 01's refusal: its number, and the line.
#[derive(Clone, Copy, Debug, PartialEq)]
pub struct Refusal {
    /// 1 to 22
    pub number: u64,
    /// The line for 4 to 16, the extent's line for 18 to 20, otherwise 0
    pub second: u64,
}

/// A row's source, as document 01 names it.
pub enum Source<'a> {
    /// A part of a file
    Flat {
        /// Whether the access is RW
        writable: bool,
        /// Where the part starts, in bytes
        file_start: u64,
        /// The file's name
        name: &'a str,
    },
    /// Zeros
    Zero {
        /// Whether the access is RW
        writable: bool,
    },
    /// No access
    NoAccess,
}

/// What mapping an offset answers.
pub enum Mapping<'a> {
    /// A part of a file
    Raw {
        /// The place in the file
        file_offset: u64,
        /// How far it goes on
        run: u64,
        /// The row
        row: usize,
        /// Whether it may be written to
        writable: bool,
        /// The file's name
        name: &'a str,
    },
    /// Zeros
    Zero {
        /// How far they go on
        run: u64,
        /// The row
        row: usize,
    },
    /// The disk's end
    End,
    /// 21 or 22
    Refused(Refusal),
}

/// A descriptor that was read and built.
pub struct Image(Vmdk<Store>);

/// Opens a data file by keeping its name.
struct NameGate;

impl ImplicitOpenGate<Store> for NameGate {
    fn open_storage(&mut self, options: StorageOpenOptions) -> io::Result<Store> {
        Ok(Store::File(options.filename.expect("a data file's name")))
    }
}

/// The number of an error's text after its line, if it has one.
fn number_of(text: &str, mapping: bool) -> u64 {
    let numbers = [
        ("VMDK descriptor file too short", 1),
        ("VMDK descriptor file too long", 2),
        ("Unsupported VMDK sparse data file", 3),
        ("invalid utf-8 sequence", 4),
        ("incomplete utf-8 byte sequence", 4),
        ("Sector count missing", 5),
        ("Invalid sector count", 5),
        ("Extent type missing", 6),
        ("Unsupported extent type ", 7),
        ("Extent filename missing", 8),
        ("Extent filename not terminated", 9),
        ("Expected filename at field index 3", 10),
        ("Invalid offset", 11),
        ("Invalid version format", 12),
        ("unsupported VMDK differential image", 13),
        ("Invalid 'ddb.geometry.", 14),
        ("Unrecognized VMDK descriptor file key", 15),
        ("unsupported version ", 17),
        ("Extent size overflow: ", 18),
        ("Extent offset overflow: ", if mapping { 22 } else { 19 }),
        ("Extent storage offset overflow: ", 20),
        ("NOACCESS extent is accessed", 21),
    ];
    let found = numbers.iter().find(|(start, _)| text.starts_with(start));
    found.unwrap_or_else(|| panic!("no number for the error '{text}'")).1
}

/// The refusal that an error of reading or building stands for; the line of 18 to 20 is not in its text.
fn refusal_of(error: &io::Error) -> Refusal {
    let text = error.to_string();
    let Some(rest) = text.strip_prefix("store: Line ") else {
        return Refusal { number: number_of(&text, false), second: 0 };
    };
    let (line, rest) = rest.split_once(": ").expect("a text after the line");
    Refusal { number: number_of(rest, false), second: line.parse().expect("a line number") }
}

/// An image as `do_open` begins it, before a line is read.
fn begun(descriptor: &Store) -> Vmdk<Store> {
    Vmdk {
        descriptor_file: Arc::new(descriptor.clone()),
        parent_type: PhantomData,
        desc: VmdkDesc {
            version: 0,
            cid: String::new(),
            parent_cid: String::new(),
            create_type: String::new(),
            sectors: 0,
            heads: 0,
            cylinders: 0,
        },
        parsed_extents: vec![],
        extents: vec![],
        size: 0.into(),
        storage_open_options: StorageOpenOptions::new(),
    }
}

/// The descriptor's lines, the parts between bytes 0A, each with its number from 1.
fn lines(descriptor: &Store) -> impl Iterator<Item = (u64, &[u8])> {
    let Store::Descriptor(bytes) = descriptor else { panic!("a data file has no lines") };
    (1..).zip(bytes.split(|byte| *byte == b'\n'))
}

/// Whether a line says an extent: once trimmed it has a blank, and an access stands before the first;
/// so its first word is an access, and another word follows.
fn says_extent(line: &[u8]) -> bool {
    let mut words = str::from_utf8(line).expect("a line that was read").split_whitespace();
    matches!(words.next(), Some("RW" | "RDONLY" | "NOACCESS")) && words.next().is_some()
}

/// The line of each extent: not the Rust's, computed from the text. All lines were read.
fn extent_lines(vmdk: &Vmdk<Store>) -> Vec<u64> {
    let said = lines(&vmdk.descriptor_file).filter(|(_, line)| says_extent(line));
    let numbers: Vec<u64> = said.map(|(number, _)| number).collect();
    assert_eq!(numbers.len(), vmdk.parsed_extents.len(), "a line for each extent that the Rust has");
    numbers
}

/// The line of the extent past the limit, if reading comes to it: all lines before it are sound.
fn line_past_limit(descriptor: &Store) -> Option<u64> {
    let mut vmdk = begun(descriptor);
    for (number, line) in lines(descriptor) {
        vmdk.parse_descriptor_line(str::from_utf8(line).ok()?).ok()?;
        if vmdk.parsed_extents.len() > LIMIT {
            return Some(number);
        }
    }
    None
}

/// The extent at which 18 or 19 is given, from 0: the first whose size, or whose sum with those
/// before it, is above 2^64-1.
fn extent_too_large(extents: &[VmdkParsedExtent]) -> usize {
    let mut sum: u128 = 0;
    for (index, extent) in extents.iter().enumerate() {
        sum += u128::from(extent.sectors) * u128::from(VMDK_SECTOR_SIZE);
        if sum > u128::from(u64::MAX) {
            return index;
        }
    }
    panic!("no extent is too large");
}

/// Whether the descriptor probes as a VMDK.
pub fn probe(descriptor: &Store) -> bool {
    // Safe: the storage is bytes in memory
    let answer = unsafe { Vmdk::<Store>::probe(descriptor) };
    answer.expect("probing bytes in memory does not fail")
}

/// Read the descriptor and build its table.
pub fn open(descriptor: &Store) -> Result<Image, Refusal> {
    match Vmdk::<Store>::open_image(descriptor.clone(), false) {
        Ok(vmdk) if vmdk.parsed_extents.len() <= LIMIT => build(vmdk),
        Ok(_) => Err(past_limit(descriptor).expect("more extents than the limit")),
        Err(error) => Err(refused_read(descriptor, refusal_of(&error))),
    }
}

/// Refusal 16, if reading comes to a sound extent line past the limit.
fn past_limit(descriptor: &Store) -> Option<Refusal> {
    line_past_limit(descriptor).map(|line| Refusal { number: 16, second: line })
}

/// A refused read, with the limit and the extent's line put around the Rust's refusal.
fn refused_read(descriptor: &Store, refusal: Refusal) -> Refusal {
    if refusal.number <= 3 {
        return refusal;
    }
    if let Some(past_limit) = past_limit(descriptor) {
        return past_limit;
    }
    if refusal.number == 18 || refusal.number == 19 {
        let mut vmdk = begun(descriptor);
        assert!(vmdk.parse_descriptor_file().is_err());
        let extent = extent_too_large(&vmdk.parsed_extents);
        return Refusal { second: extent_lines(&vmdk)[extent], ..refusal };
    }
    refusal
}

/// Build the table: `open_implicit_dependencies_gated` with files that are names.
fn build(mut vmdk: Vmdk<Store>) -> Result<Image, Refusal> {
    match vmdk.open_implicit_dependencies_gated(NameGate) {
        Ok(()) => Ok(Image(vmdk)),
        Err(error) => Err(refused_build(&vmdk, &error)),
    }
}

/// A refused build, with the extent's line: the list is left filled up to the extent that was refused.
fn refused_build(vmdk: &Vmdk<Store>, error: &io::Error) -> Refusal {
    Refusal { second: extent_lines(vmdk)[vmdk.extents.len()], ..refusal_of(error) }
}

impl Image {
    /// The version
    pub fn version(&self) -> u32 {
        self.0.desc.version
    }

    /// `CID`, `parentCID` and `createType`
    pub fn texts(&self) -> [&str; 3] {
        [&self.0.desc.cid, &self.0.desc.parent_cid, &self.0.desc.create_type]
    }

    /// The geometry: sectors, heads, cylinders
    pub fn geometry(&self) -> [u64; 3] {
        [self.0.desc.sectors, self.0.desc.heads, self.0.desc.cylinders]
    }

    /// The disk's size
    pub fn size(&self) -> u64 {
        self.0.size()
    }

    /// The number of rows
    pub fn rows(&self) -> usize {
        self.0.extents.len()
    }

    /// The rows' lines: not the Rust's, computed from the text
    pub fn lines(&self) -> Vec<u64> {
        extent_lines(&self.0)
    }

    /// A row's start and end on the disk
    pub fn range(&self, row: usize) -> Range<u64> {
        self.0.extents[row].disk_range.clone()
    }

    /// A row's source
    pub fn source(&self, row: usize) -> Source<'_> {
        let extent = &self.0.extents[row];
        let writable = extent.access_type == VmdkAccessType::RW;
        match &extent.storage {
            None => Source::NoAccess,
            Some(VmdkStorage::Zero) => Source::Zero { writable },
            Some(VmdkStorage::Flat { file, offset }) => {
                Source::Flat { writable, file_start: *offset, name: name_of(file) }
            }
        }
    }

    /// The Rust's mapping of `offset` with `length` asked
    pub fn map(&self, offset: u64, length: u64) -> Mapping<'_> {
        match self.0.get_mapping(offset, length) {
            Err(error) => {
                let number = number_of(&error.to_string(), true);
                Mapping::Refused(Refusal { number, second: 0 })
            }
            Ok((ShallowMapping::Eof {}, run)) => {
                assert_eq!(run, 0);
                Mapping::End
            }
            Ok((ShallowMapping::Zero { explicit }, run)) => {
                assert!(explicit);
                Mapping::Zero { run, row: self.row_at(offset) }
            }
            Ok((ShallowMapping::Raw { storage, offset: file_offset, writable }, run)) => {
                let (row, name) = (self.row_at(offset), name_of(storage));
                Mapping::Raw { file_offset, run, row, writable, name }
            }
        }
    }

    /// The row that the Rust finds for an offset: the place of its extent in the list
    fn row_at(&self, offset: u64) -> usize {
        let found = self.0.get_extent_at(offset).expect("a mapped offset has an extent");
        let same = |extent: &VmdkExtent<Store>| std::ptr::eq(extent, found);
        self.0.extents.iter().position(same).expect("the extent is in the list")
    }

    /// How many rows document 01's mapping looks at: not the Rust's, computed from the ranges
    pub fn looked(&self, offset: u64) -> u64 {
        if offset >= self.size() {
            return 0;
        }
        self.halve(offset).1
    }

    /// The row that document 01's halving finds, and how many rows it looks at
    pub fn halve(&self, offset: u64) -> (Option<usize>, u64) {
        let (mut low, mut high, mut looked) = (0, self.rows(), 0);
        while low < high {
            let row = low + (high - low) / 2;
            let range = self.range(row);
            looked += 1;
            if range.contains(&offset) {
                return (Some(row), looked);
            }
            if range.end <= offset {
                low = row + 1;
            } else {
                high = row;
            }
        }
        (None, looked)
    }
}

/// The name that a data file was opened by.
fn name_of(file: &Store) -> &str {
    match file {
        Store::File(name) => name.to_str().expect("a name from UTF-8 text"),
        Store::Descriptor(_) => panic!("a descriptor is not a data file"),
    }
}

/// A descriptor whose building is refused and then asked for a second time: the refusal, and what
/// the Rust holds for a built image afterwards, if it accepts the second call.
pub fn build_twice(descriptor: &Store) -> (Refusal, Option<Image>) {
    let mut vmdk = Vmdk::<Store>::open_image(descriptor.clone(), false).expect("a sound read");
    let error = vmdk.open_implicit_dependencies_gated(NameGate).expect_err("a refused build");
    let refusal = refused_build(&vmdk, &error);
    let second = vmdk.open_implicit_dependencies_gated(NameGate);
    (refusal, second.ok().map(|()| Image(vmdk)))
}

/// A table made by hand: zero rows of these ranges, which need not follow each other.
pub fn by_hand(size: u64, ranges: &[Range<u64>]) -> Image {
    let mut vmdk = begun(&Store::Descriptor(Arc::new([])));
    vmdk.size = size.into();
    vmdk.extents.extend(ranges.iter().map(|range| VmdkExtent {
        access_type: VmdkAccessType::RW,
        disk_range: range.clone(),
        storage: Some(VmdkStorage::Zero),
    }));
    Image(vmdk)
}

#[cfg(test)]
mod tests {
    use super::*;
    use crate::{descriptors, draw::Draw};

    /// The line of each extent as the Rust reads: those at which its list grows; none of a refused text.
    fn grown(descriptor: &Store) -> Option<Vec<u64>> {
        let (mut vmdk, mut numbers) = (begun(descriptor), Vec::new());
        for (number, line) in lines(descriptor) {
            vmdk.parse_descriptor_line(str::from_utf8(line).ok()?).ok()?;
            if vmdk.parsed_extents.len() > numbers.len() {
                numbers.push(number);
            }
        }
        Some(numbers)
    }

    #[test]
    fn lines_at_which_the_list_grows() {
        let (mut draw, mut extents) = (Draw::new(7), 0);
        for _ in 0..20_000 {
            let descriptor = Store::Descriptor(Arc::from(descriptors::descriptor(&mut draw)));
            if let Ok(vmdk) = Vmdk::<Store>::open_image(descriptor.clone(), false) {
                assert_eq!(Some(extent_lines(&vmdk)), grown(&descriptor));
                extents += vmdk.parsed_extents.len();
            }
        }
        assert!(extents > 10_000);
    }
}
