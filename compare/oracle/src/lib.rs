//! The oracle: imago 0.2.6's `vmdk/mod.rs`, unchanged, over small stand-ins for what it leans on.
//!
//! `vmdk::opened` reads its private fields and turns its error texts into document 01's numbers;
//! `cases` reads a case file, `answer` writes the answers to it; both are told in `FORMAT.md`.

pub mod answer;
pub mod cases;
pub mod descriptors;
pub mod draw;
pub mod exhaustive;
pub mod format;
pub mod io_buffers;
pub mod kinds;
mod misc_helpers;
pub mod queries;
pub mod sample;
pub mod storage;

/// imago's text, and beside it the child module that may see what is private there.
#[allow(dead_code, clippy::all)]
pub mod vmdk {
    include!(concat!(env!("OUT_DIR"), "/vmdk.rs"));

    pub mod opened;
}

pub use format::{FormatAccess, ShallowMapping};
pub use storage::{Storage, StorageOpenOptions};
