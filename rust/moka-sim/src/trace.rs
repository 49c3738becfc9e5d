//! A trace in memory.

use crate::keys::Keys;
use crate::memory::{push, OutOfMemory};

/// The requests of a trace, in order.
pub struct Trace {
    /// The distinct keys.
    pub keys: Keys,
    /// For each request the number of its key.
    pub requests: Vec<u32>,
    /// For each request the bytes of the entry, if a column has them.
    pub sizes: Option<Vec<u32>>,
    /// For each request the nanoseconds since the first one, if a column has its moment.
    pub times: Option<Vec<u64>>,
}

impl Trace {
    /// Creates an empty trace, with the columns that it gets.
    pub fn new(has_sizes: bool, has_times: bool) -> Result<Trace, OutOfMemory> {
        Ok(Trace {
            keys: Keys::new()?,
            requests: Vec::new(),
            sizes: has_sizes.then(Vec::new),
            times: has_times.then(Vec::new),
        })
    }

    /// Appends a request. Its size and its time are stored if the trace has that column.
    pub fn push(&mut self, key: u32, size: u32, time: u64) -> Result<(), OutOfMemory> {
        push(&mut self.requests, key)?;
        if let Some(sizes) = &mut self.sizes {
            push(sizes, size)?;
        }
        if let Some(times) = &mut self.times {
            push(times, time)?;
        }
        Ok(())
    }

    /// Returns the number of requests.
    pub fn len(&self) -> usize {
        self.requests.len()
    }

    /// Returns `true` if there is no request.
    pub fn is_empty(&self) -> bool {
        self.requests.is_empty()
    }

    /// Returns the size of a request in bytes, or 0 without a column of sizes.
    pub fn size(&self, request: usize) -> u64 {
        self.sizes
            .as_ref()
            .map_or(0, |sizes| u64::from(sizes[request]))
    }

    /// Returns the nanoseconds from the first request to this one, or 0 without a column of times.
    pub fn time(&self, request: usize) -> u64 {
        self.times.as_ref().map_or(0, |times| times[request])
    }

    /// Returns the bytes that an entry of this request takes in a cache of bytes: its size, but no
    /// less than its key.
    pub fn bytes(&self, request: usize) -> u64 {
        self.size(request)
            .max(self.keys.length(self.requests[request]) as u64)
    }

    /// Returns the bytes of an entry of each distinct key, at its last request.
    pub fn footprint(&self) -> Result<u64, OutOfMemory> {
        let mut last = crate::memory::filled(self.keys.len(), 0u64)?;
        for (request, key) in self.requests.iter().enumerate() {
            last[*key as usize] = self.bytes(request);
        }
        Ok(last.iter().sum())
    }
}
