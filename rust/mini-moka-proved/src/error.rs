//! The errors of the calls.

use std::collections::TryReserveError;
use std::error::Error;
use std::fmt;

/// The error of a call that was refused memory. No entry was written.
#[derive(Clone, Copy, Debug, PartialEq, Eq)]
pub struct OutOfMemory;

impl fmt::Display for OutOfMemory {
    fn fmt(&self, f: &mut fmt::Formatter<'_>) -> fmt::Result {
        f.write_str("memory was refused")
    }
}

impl Error for OutOfMemory {}

impl From<TryReserveError> for OutOfMemory {
    fn from(_: TryReserveError) -> OutOfMemory {
        OutOfMemory
    }
}

/// The error of an insert with a time to live of its own. No entry was written.
#[derive(Clone, Copy, Debug, PartialEq, Eq)]
#[non_exhaustive]
pub enum TimedInsertError {
    /// The cache was built without a time to live, so its entries can have none of their own.
    NoTimeToLive,
    /// Memory was refused.
    OutOfMemory,
}

impl fmt::Display for TimedInsertError {
    fn fmt(&self, f: &mut fmt::Formatter<'_>) -> fmt::Result {
        match self {
            TimedInsertError::NoTimeToLive => f.write_str("the cache has no time to live"),
            TimedInsertError::OutOfMemory => OutOfMemory.fmt(f),
        }
    }
}

impl Error for TimedInsertError {}

impl From<OutOfMemory> for TimedInsertError {
    fn from(_: OutOfMemory) -> TimedInsertError {
        TimedInsertError::OutOfMemory
    }
}

/// The reason that a cache could not be built.
#[derive(Clone, Copy, Debug, PartialEq, Eq)]
#[non_exhaustive]
pub enum BuildError {
    /// A duration is 0, so no entry would be found.
    ZeroDuration,
    /// A duration is 2^64 - 1 nanoseconds or more, which is 584 years.
    DurationTooLong,
    /// A share is above 100 percent.
    ShareTooLarge,
    /// Memory was refused.
    OutOfMemory,
}

impl fmt::Display for BuildError {
    fn fmt(&self, f: &mut fmt::Formatter<'_>) -> fmt::Result {
        match self {
            BuildError::ZeroDuration => f.write_str("a duration is 0"),
            BuildError::DurationTooLong => {
                f.write_str("a duration is 2^64 - 1 nanoseconds or more")
            }
            BuildError::ShareTooLarge => f.write_str("a share is above 100 percent"),
            BuildError::OutOfMemory => OutOfMemory.fmt(f),
        }
    }
}

impl Error for BuildError {}

impl From<OutOfMemory> for BuildError {
    fn from(_: OutOfMemory) -> BuildError {
        BuildError::OutOfMemory
    }
}
