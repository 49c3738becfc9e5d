//! Capacity that a cache gives its frequency sketch, and the cells of a hash.

const SEEDS: [u64; 4] = [
    0xc3a5_c85c_97cb_3127,
    0xb492_b66f_be98_f273,
    0x9ae1_6a3b_2f90_404f,
    0xcbf2_9ce4_8422_2325,
];

/// Number of depths, at each of which a hash has a cell.
pub const DEPTHS: usize = 4;

/// Returns the capacity that the original gives its sketch after a new entry, or `None` below half of the limit.
pub fn asked(is_weighed: bool, max: u64, count: u64, weight: u64) -> Option<u32> {
    let expected = if is_weighed {
        (count as f64 * (weight as f64 / max as f64)) as u64
    } else {
        max
    };
    (weight >= max / 2).then(|| clamped(expected.into()))
}

/// Computes `asked` in whole numbers: see the row "the sketch's capacity is computed in floating point" of docs/DIFFERENCES.md.
pub fn asked_in_whole_numbers(is_weighed: bool, max: u64, count: u64, weight: u64) -> Option<u32> {
    let expected = if is_weighed {
        (u128::from(count) * u128::from(weight)).checked_div(max.into()).unwrap_or(0)
    } else {
        max.into()
    };
    (weight >= max / 2).then(|| clamped(expected))
}

fn clamped(expected: u128) -> u32 {
    u32::try_from(expected).unwrap_or(u32::MAX).max(128)
}

/// Returns the index of the word with the hash's cell at `depth`, in a table of `table_words` words.
pub fn index_of(hash: u64, depth: usize, table_words: u64) -> u64 {
    let seed = SEEDS[depth];
    let mixed = hash.wrapping_add(seed).wrapping_mul(seed);
    mixed.wrapping_add(mixed >> 32) & (table_words - 1)
}
