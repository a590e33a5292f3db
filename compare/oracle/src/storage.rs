//! Stand-ins for imago's storage: a descriptor is bytes in memory, a data file is its name.

use crate::io_buffers::IoBufferMut;
use std::fmt::{self, Debug, Display, Formatter};
use std::io;
use std::path::{Path, PathBuf};
use std::sync::Arc;

/// What a storage object must offer to `vmdk/mod.rs`.
pub trait Storage: Debug + Display + Send + Sync {
    /// Size in bytes.
    fn size(&self) -> io::Result<u64>;

    /// Alignment of buffers.
    fn mem_align(&self) -> usize {
        1
    }

    /// The path of a file that is named relative to this one.
    fn resolve_relative_path<P: AsRef<Path>>(&self, relative: P) -> io::Result<PathBuf>;

    /// Share the bytes from the start on with `buffer`.
    fn share(&self, buffer: IoBufferMut<'_>) -> io::Result<()>;
}

/// Extension of storage objects.
pub mod ext {
    use super::Storage;
    use crate::io_buffers::IoBufferMut;
    use std::io;

    /// Helper methods for storage objects.
    pub trait StorageExt: Storage {
        /// Read data at `offset` into `buffer`; only offset 0 is ever asked for.
        fn read(&self, buffer: IoBufferMut<'_>, offset: u64) -> io::Result<()> {
            assert_eq!(offset, 0);
            self.share(buffer)
        }
    }

    impl<S: Storage> StorageExt for S {}
}

/// Options for opening a storage object.
#[derive(Clone, Debug, Default)]
pub struct StorageOpenOptions {
    /// Name of the file to open.
    pub filename: Option<PathBuf>,
    /// Whether it is to be written to.
    pub writable: bool,
}

impl StorageOpenOptions {
    /// No name, not writable.
    pub fn new() -> Self {
        Self::default()
    }

    /// Set the name.
    pub fn filename<P: AsRef<Path>>(mut self, filename: P) -> Self {
        self.filename = Some(filename.as_ref().to_owned());
        self
    }

    /// Set whether it is to be written to.
    pub fn write(mut self, writable: bool) -> Self {
        self.writable = writable;
        self
    }
}

/// The only storage of the comparison.
#[derive(Clone, Debug)]
pub enum Store {
    /// The descriptor's bytes
    Descriptor(Arc<[u8]>),
    /// A data file, known by its name alone
    File(PathBuf),
}

impl Display for Store {
    fn fmt(&self, f: &mut Formatter<'_>) -> fmt::Result {
        f.write_str("store")
    }
}

impl Storage for Store {
    fn size(&self) -> io::Result<u64> {
        match self {
            Store::Descriptor(bytes) => Ok(bytes.len() as u64),
            Store::File(_) => Ok(0),
        }
    }

    fn resolve_relative_path<P: AsRef<Path>>(&self, relative: P) -> io::Result<PathBuf> {
        Ok(relative.as_ref().to_owned())
    }

    fn share(&self, buffer: IoBufferMut<'_>) -> io::Result<()> {
        match self {
            Store::Descriptor(bytes) => {
                buffer.fill(bytes);
                Ok(())
            }
            Store::File(_) => Err(io::Error::other("a data file is never read")),
        }
    }
}
