//! Caches that threads share: segments, each a cache for one thread behind its own lock.
//!
//! [`Cache`] has any keys and values, and [`ByteCache`] bytes. The caches inside are proved. The
//! sharing between threads is tested: by this package's tests, and by its examples `threads` and
//! `sessions` under ThreadSanitizer, which also checks the library.

mod builder;
mod bytes;
mod cache;
mod iter;
mod lock;
mod making;

pub use crate::typed::Policy;
pub use builder::CacheBuilder;
pub use bytes::{ByteBuilder, ByteCache, ByteIter, ByteRemovedIter};
pub use cache::Cache;
pub use iter::{EntryRef, Iter};

/// The maximum number of segments of a cache for which no number is set.
const MOST_SEGMENTS: u64 = 16;

/// Returns the number of segments that is set, clamped to the range from 1 to 65,536, or that of a
/// cache whose segments have a capacity of at least `least`.
fn segments_of(set: Option<usize>, capacity: Option<u64>, least: u64) -> usize {
    let fitting = capacity.map_or(MOST_SEGMENTS, |capacity| capacity / least);
    set.map_or(fitting.clamp(1, MOST_SEGMENTS) as usize, |set| {
        set.clamp(1, 1 << 16)
    })
}

/// Returns the segment of a hash, of so many: the same part of all segments as the hash's upper half
/// is of all numbers of 32 bits.
fn segment_of(hash: u64, count: usize) -> usize {
    (((hash >> 32) * count as u64) >> 32) as usize
}
