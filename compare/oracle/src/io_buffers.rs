//! Stand-in for imago's `io_buffers.rs`: a buffer that shares the bytes it was filled with.
//!
//! Filling it copies nothing, so a timing of the oracle holds its parsing and no file reading.

use std::io;
use std::sync::Arc;

/// Memory buffer, empty until a storage fills it.
pub struct IoBuffer(Arc<[u8]>);

/// Reference to an immutable buffer.
pub struct IoBufferRef<'a>(&'a [u8]);

/// Reference to a mutable buffer.
pub struct IoBufferMut<'a>(&'a mut Arc<[u8]>);

impl IoBuffer {
    /// Create a new buffer; size and alignment have no meaning here.
    pub fn new(_size: usize, _alignment: usize) -> io::Result<Self> {
        Ok(IoBuffer(Arc::default()))
    }

    /// Generate an immutable reference.
    pub fn as_ref(&self) -> IoBufferRef<'_> {
        IoBufferRef(&self.0)
    }

    /// Generate a mutable reference.
    pub fn as_mut(&mut self) -> IoBufferMut<'_> {
        IoBufferMut(&mut self.0)
    }
}

impl<'a> IoBufferRef<'a> {
    /// Turn this reference into a slice.
    pub fn into_slice(self) -> &'a [u8] {
        self.0
    }
}

impl IoBufferMut<'_> {
    /// Fill the buffer with `bytes`, shared.
    pub fn fill(self, bytes: &Arc<[u8]>) {
        *self.0 = Arc::clone(bytes);
    }
}
