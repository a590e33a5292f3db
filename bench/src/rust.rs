//! The Rust: imago's own reading, building, probing and mapping, with the opening of a file replaced
//! by a constant and the reading of a file by sharing its bytes.

use crate::sums::{fold, next, ASKED, SIZE};
use oracle::format::drivers::FormatDriverInstance;
use oracle::format::gate::ImplicitOpenGate;
use oracle::io_buffers::IoBufferMut;
use oracle::vmdk::opened::LIMIT;
use oracle::vmdk::Vmdk;
use oracle::{ShallowMapping, Storage, StorageOpenOptions};
use std::fmt::{self, Display, Formatter};
use std::io;
use std::path::{Path, PathBuf};
use std::sync::Arc;

/// A descriptor's bytes; a data file has none.
#[derive(Clone, Debug)]
pub struct Reel(Option<Arc<[u8]>>);

impl Reel {
    /// A descriptor.
    pub fn new(bytes: Arc<[u8]>) -> Self {
        Reel(Some(bytes))
    }
}

impl Display for Reel {
    fn fmt(&self, f: &mut Formatter<'_>) -> fmt::Result {
        f.write_str("reel")
    }
}

impl Storage for Reel {
    fn size(&self) -> io::Result<u64> {
        Ok(self.0.as_ref().map_or(0, |bytes| bytes.len() as u64))
    }

    fn resolve_relative_path<P: AsRef<Path>>(&self, _relative: P) -> io::Result<PathBuf> {
        Ok(PathBuf::new())
    }

    fn share(&self, buffer: IoBufferMut<'_>) -> io::Result<()> {
        if let Some(bytes) = &self.0 {
            buffer.fill(bytes);
        }
        Ok(())
    }
}

/// Opens every data file as the same constant.
struct ConstantGate;

impl ImplicitOpenGate<Reel> for ConstantGate {
    fn open_storage(&mut self, _options: StorageOpenOptions) -> io::Result<Reel> {
        Ok(Reel(None))
    }
}

/// Read and build.
fn open(descriptor: &Reel) -> io::Result<Vmdk<Reel>> {
    let mut vmdk = Vmdk::<Reel>::open_image(descriptor.clone(), false)?;
    vmdk.open_implicit_dependencies_gated(ConstantGate)?;
    Ok(vmdk)
}

/// Read and build: the size; all ones if it is refused.
pub fn read(descriptor: &Reel) -> u64 {
    open(descriptor).map_or(u64::MAX, |vmdk| vmdk.size())
}

/// Probe: 1 for yes.
pub fn probe(descriptor: &Reel) -> u64 {
    // Safe: the storage is bytes in memory
    u64::from(unsafe { Vmdk::<Reel>::probe(descriptor) }.unwrap_or(false))
}

/// Map so many offsets, drawn or ascending.
pub fn map(descriptor: &Reel, ascending: bool, count: u64) -> u64 {
    let vmdk = open(descriptor).expect("a sound table");
    let (mut offset, mut sum) = (0, 0);
    for _ in 0..count {
        let (place, run) = match vmdk.get_mapping(offset, ASKED) {
            Ok((ShallowMapping::Raw { offset, .. }, run)) => (offset, run),
            Ok((ShallowMapping::Zero { .. }, run)) => (0, run),
            Ok((ShallowMapping::Eof {}, _)) | Err(_) => (1, 0),
        };
        sum = fold(fold(sum, place), run);
        offset = next(ascending, offset);
    }
    sum
}

/// A piece of a walk, as document 01 has it; the file stands for the row.
#[derive(Clone, Copy)]
struct Piece<'a> {
    /// Disk start
    start: u64,
    /// Run
    run: u64,
    /// The file; none for zeros
    file: Option<&'a Reel>,
    /// File offset
    place: u64,
    /// Writable
    writable: bool,
}

/// Walk so many windows one after the other, from the start again at the disk's end.
pub fn walk(descriptor: &Reel, window: u64, count: u64) -> u64 {
    let vmdk = open(descriptor).expect("a sound table");
    let none = Piece { start: 0, run: 0, file: None, place: 0, writable: false };
    let mut pieces = [none; LIMIT];
    let (mut position, mut sum) = (0, 0);
    for _ in 0..count {
        let written = walk_window(&vmdk, position, window, &mut pieces);
        for piece in &pieces[..written] {
            sum = fold(fold(fold(sum, piece.start), piece.run), piece.place);
            std::hint::black_box((piece.file, piece.writable));
        }
        position = position.wrapping_add(window) % SIZE;
    }
    sum
}

/// Document 01's walk over the Rust's mapping: how many pieces it wrote.
#[inline(never)]
fn walk_window<'a>(vmdk: &'a Vmdk<Reel>, offset: u64, length: u64, pieces: &mut [Piece<'a>; LIMIT]) -> usize {
    let (mut start, mut left, mut count) = (offset, length, 0);
    while left > 0 && start < vmdk.size() && count < pieces.len() {
        let (file, place, writable, run) = match vmdk.get_mapping(start, left) {
            Ok((ShallowMapping::Raw { storage, offset, writable }, run)) => {
                (Some(storage), offset, writable, run)
            }
            Ok((ShallowMapping::Zero { .. }, run)) => (None, 0, false, run),
            Ok((ShallowMapping::Eof {}, _)) | Err(_) => break,
        };
        pieces[count] = Piece { start, run, file, place, writable };
        count += 1;
        start += run;
        left -= run;
    }
    count
}
