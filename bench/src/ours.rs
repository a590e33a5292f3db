//! Our side: a static library with the four functions that `README.md` names.

extern "C" {
    fn ours_reads(descriptor: *const u8, length: usize, count: u64) -> u64;
    fn ours_probe(descriptor: *const u8, length: usize) -> u64;
    fn ours_map(descriptor: *const u8, length: usize, ascending: u64, count: u64) -> u64;
    fn ours_walk(descriptor: *const u8, length: usize, window: u64, count: u64) -> u64;
}

/// Read and build so many times, into memory that is made once and lent again: the sizes; all ones if it is refused.
pub fn reads(descriptor: &[u8], count: u64) -> u64 {
    // Safe, here and below: the pointer and the length are the slice's, and nothing is kept
    unsafe { ours_reads(descriptor.as_ptr(), descriptor.len(), count) }
}

/// Probe: 1 for yes.
pub fn probe(descriptor: &[u8]) -> u64 {
    unsafe { ours_probe(descriptor.as_ptr(), descriptor.len()) }
}

/// Map so many offsets, drawn or ascending.
pub fn map(descriptor: &[u8], ascending: bool, count: u64) -> u64 {
    unsafe { ours_map(descriptor.as_ptr(), descriptor.len(), ascending.into(), count) }
}

/// Walk so many windows one after the other.
pub fn walk(descriptor: &[u8], window: u64, count: u64) -> u64 {
    unsafe { ours_walk(descriptor.as_ptr(), descriptor.len(), window, count) }
}
