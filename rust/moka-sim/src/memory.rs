//! Memory that can be refused.

use std::fmt;
use std::fs;
use std::mem::size_of;

/// The error of a growth for which there is no memory.
#[derive(Clone, Copy, Debug, PartialEq, Eq)]
pub struct OutOfMemory;

impl fmt::Display for OutOfMemory {
    fn fmt(&self, f: &mut fmt::Formatter<'_>) -> fmt::Result {
        f.write_str("memory was refused")
    }
}

/// A growth of this many bytes or more is compared with the available memory. Below it the
/// comparison would cost more than it saves.
const LARGE: usize = 64 << 20;

/// Appends an item, or returns an error if there is no memory for it.
pub fn push<T>(items: &mut Vec<T>, item: T) -> Result<(), OutOfMemory> {
    if items.len() == items.capacity() {
        reserve(items, 1)?;
    }
    items.push(item);
    Ok(())
}

/// Appends bytes, or returns an error if there is no memory for them.
pub fn extend(bytes: &mut Vec<u8>, more: &[u8]) -> Result<(), OutOfMemory> {
    if bytes.capacity() - bytes.len() < more.len() {
        reserve(bytes, more.len())?;
    }
    bytes.extend_from_slice(more);
    Ok(())
}

/// Reserves memory for at least `additional` more items, and for half as many again as there are.
pub fn reserve<T>(items: &mut Vec<T>, additional: usize) -> Result<(), OutOfMemory> {
    let more = additional.max(items.len() / 2).max(16);
    let bytes = more.checked_mul(size_of::<T>()).ok_or(OutOfMemory)?;
    // The kernel may grant more than the machine has, and end the program once it is used.
    if bytes >= LARGE && available().is_some_and(|available| available < bytes as u64) {
        return Err(OutOfMemory);
    }
    items.try_reserve_exact(more).map_err(|_| OutOfMemory)
}

/// Returns `count` copies of an item.
pub fn filled<T: Clone>(count: usize, item: T) -> Result<Vec<T>, OutOfMemory> {
    let mut items = Vec::new();
    reserve(&mut items, count)?;
    items.resize(count, item);
    Ok(items)
}

/// Returns the bytes of memory that programs can still get, if the system tells.
pub fn available() -> Option<u64> {
    available_of(&fs::read_to_string("/proc/meminfo").ok()?)
}

/// Returns the available memory in bytes, from the text of Linux's `/proc/meminfo`.
fn available_of(text: &str) -> Option<u64> {
    let line = text
        .lines()
        .find(|line| line.starts_with("MemAvailable:"))?;
    let kibibytes: u64 = line.split_whitespace().nth(1)?.parse().ok()?;
    kibibytes.checked_mul(1024)
}

#[cfg(test)]
mod tests {
    use super::*;

    #[test]
    fn the_available_memory_is_in_kibibytes() {
        let text = "MemTotal: 900 kB\nMemAvailable:     300 kB\nBuffers: 5 kB\n";
        assert_eq!(available_of(text), Some(300 * 1024));
        assert_eq!(available_of("MemTotal: 900 kB\n"), None);
    }

    #[test]
    fn a_growth_beyond_the_machine_is_refused() {
        assert_eq!(filled(usize::MAX / 16, 0u64), Err(OutOfMemory));
        assert_eq!(
            reserve(&mut Vec::<u64>::new(), usize::MAX),
            Err(OutOfMemory)
        );
        assert_eq!(filled(3, 7u8), Ok(vec![7, 7, 7]));
    }
}
