//! Stand-ins for imago's format layer: the traits that `vmdk/mod.rs` implements and asks for, cut
//! down to the functions that it names. Sync mode throughout.

use crate::Storage;
use std::fmt::{self, Debug, Display, Formatter};
use std::marker::PhantomData;

/// List of imago formats.
#[derive(Clone, Copy, Debug, Eq, PartialEq)]
pub enum Format {
    /// VMDK format
    Vmdk,
}

/// Format layer preallocation modes; none is ever used.
#[derive(Clone, Copy, Debug, Eq, PartialEq)]
pub enum PreallocateMode {
    /// No preallocation.
    None,
}

/// An image as another image's parent; there are none here.
#[derive(Debug)]
pub struct FormatAccess<S: Storage + 'static>(PhantomData<S>);

impl<S: Storage> Display for FormatAccess<S> {
    fn fmt(&self, f: &mut Formatter<'_>) -> fmt::Result {
        f.write_str("parent")
    }
}

/// Non-recursive mapping information, in imago's words.
#[derive(Debug)]
pub enum ShallowMapping<'a, S: Storage + 'static> {
    /// Raw data.
    Raw {
        /// Storage object where this data is stored.
        storage: &'a S,
        /// Offset in `storage` where this data is stored.
        offset: u64,
        /// Whether this mapping may be written to.
        writable: bool,
    },
    /// Range is to be read as zeroes.
    Zero {
        /// Whether these zeroes are explicit on this layer.
        explicit: bool,
    },
    /// End of file reached.
    Eof {},
}

/// Implementation of a disk image format.
pub mod drivers {
    use super::{Format, PreallocateMode};
    use crate::{ShallowMapping, Storage};
    use std::fmt::{Debug, Display};
    use std::io;

    /// Implementation of a disk image format.
    #[allow(clippy::missing_safety_doc, clippy::needless_lifetimes)]
    pub trait FormatDriverInstance: Debug + Display + Send + Sync {
        /// Type of storage used.
        type Storage: Storage;

        /// Return which format this is.
        fn format(&self) -> Format;

        /// Check whether `storage` has this format.
        unsafe fn probe(storage: &Self::Storage) -> io::Result<bool>
        where
            Self: Sized;

        /// Size of the disk represented by this image.
        fn size(&self) -> u64;

        /// Granularity on which blocks can be marked as zero.
        fn zero_granularity(&self) -> Option<u64>;

        /// Recursively collect all storage objects associated with this image.
        fn collect_storage_dependencies(&self) -> Vec<&Self::Storage>;

        /// Return whether this image may be modified.
        fn writable(&self) -> bool;

        /// Return the mapping at `offset`.
        fn get_mapping<'a>(
            &'a self,
            offset: u64,
            max_length: u64,
        ) -> io::Result<(ShallowMapping<'a, Self::Storage>, u64)>;

        /// Ensure that `offset` is directly mapped to some storage object.
        fn ensure_data_mapping<'a>(
            &'a self,
            offset: u64,
            length: u64,
            overwrite: bool,
        ) -> io::Result<(&'a Self::Storage, u64, u64)>;

        /// Flush internal buffers.
        fn flush(&self) -> io::Result<()>;

        /// Sync data already written to the storage hardware.
        fn sync(&self) -> io::Result<()>;

        /// Drop internal buffers.
        unsafe fn invalidate_cache(&self) -> io::Result<()>;

        /// Resize to the given size, which must be greater than the current size.
        fn resize_grow(&self, new_size: u64, prealloc_mode: PreallocateMode) -> io::Result<()>;

        /// Truncate to the given size, which must be smaller than the current size.
        fn resize_shrink(&mut self, new_size: u64) -> io::Result<()>;
    }
}

/// Gate functionality to control implicitly opened dependencies.
pub mod gate {
    use crate::{Storage, StorageOpenOptions};
    use std::io;

    /// Gate implicit storage object dependencies.
    pub trait ImplicitOpenGate<S: Storage + 'static> {
        /// Open an implicitly referenced storage object.
        fn open_storage(&mut self, builder: StorageOpenOptions) -> io::Result<S>;
    }
}

/// Allows using [`FormatAccess`](super::FormatAccess) in containers.
pub mod wrapped {
    use crate::{FormatAccess, Storage};
    use std::fmt::{Debug, Display};

    /// An image that may be another image's parent.
    pub trait WrappedFormat<S: Storage>: Debug + Display + Send + Sync {}

    impl<S: Storage> WrappedFormat<S> for FormatAccess<S> {}
}

/// Builder for defining open options for images.
pub mod builder {
    use super::drivers::FormatDriverInstance;
    use super::gate::ImplicitOpenGate;
    use super::Format;
    use crate::{Storage, StorageOpenOptions};
    use std::io;
    use std::marker::PhantomData;
    use std::path::{Path, PathBuf};

    /// Prepares opening an image.
    pub trait FormatDriverBuilder<S: Storage + 'static>: Sized {
        /// The format object that this builder will create.
        type Format: FormatDriverInstance<Storage = S>;

        /// Which format this is.
        const FORMAT: Format;

        /// Prepare opening the given image.
        fn new(image: S) -> Self;

        /// Prepare opening an image under the given path.
        fn new_path<P: AsRef<Path>>(path: P) -> Self;

        /// Whether the image should be writable or not.
        fn write(self, writable: bool) -> Self;

        /// Set base storage options for opened storage objects.
        fn storage_open_options(self, options: StorageOpenOptions) -> Self;

        /// Open the image.
        fn open<G: ImplicitOpenGate<S>>(self, gate: G) -> io::Result<Self::Format>;

        /// If possible, get the image’s path.
        fn get_image_path(&self) -> Option<PathBuf>;

        /// Return the set writable state.
        fn get_writable(&self) -> bool;

        /// Return the set storage options (if any).
        fn get_storage_open_options(&self) -> Option<&StorageOpenOptions>;
    }

    /// Image open builder: there is a type, so that imago's text compiles, and never a value.
    pub struct FormatDriverBuilderBase<S: Storage>(Never, PhantomData<S>);

    /// A type without values.
    enum Never {}

    impl<S: Storage> FormatDriverBuilderBase<S> {
        /// Never called: the comparison opens images by `open_image`.
        pub fn new(_image: S) -> Self {
            unimplemented!("the comparison builds no builder")
        }

        /// Never called, likewise.
        pub fn new_path<P: AsRef<Path>>(_path: P) -> Self {
            unimplemented!("the comparison builds no builder")
        }

        /// Set the writable state.
        pub fn set_write(&mut self, _writable: bool) {
            match self.0 {}
        }

        /// Set the storage options.
        pub fn set_storage_open_options(&mut self, _options: StorageOpenOptions) {
            match self.0 {}
        }

        /// If possible, get the image’s path.
        pub fn get_image_path(&self) -> Option<PathBuf> {
            match self.0 {}
        }

        /// Return the set writable state.
        pub fn get_writable(&self) -> bool {
            match self.0 {}
        }

        /// Return the set storage options (if any).
        pub fn get_storage_opts(&self) -> Option<&StorageOpenOptions> {
            match self.0 {}
        }

        /// Open the image’s storage object.
        pub fn open_image<G>(self, _gate: &mut G) -> io::Result<S> {
            match self.0 {}
        }
    }
}
