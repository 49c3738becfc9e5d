//! Keys for scripts, many of which collide in the hash map or in the sketch.
use crate::random::Random;
use crate::sketch::{index_of, DEPTHS};

/// Draws `count` keys, most of them distinct.
pub fn keys(random: &mut Random, count: u64) -> Vec<u64> {
    match random.share(&[6, 2, 2, 2, 2, 3]) {
        0 => (0..count).collect(),
        1 => (0..count).map(|place| u64::MAX - place).collect(),
        2 => (0..count).map(|_| random.number()).collect(),
        3 => of_one_cell(random, count),
        4 => covered(random, count),
        _ => mixed(random, count),
    }
}

/// Draws keys that have all four cells in common, in every table of up to 2^18 words. They differ only from bit 50 on, and the
/// index of a cell depends on the lowest 18 bits of the mixed hash and on the 18 bits from bit 32 on.
fn of_one_cell(random: &mut Random, count: u64) -> Vec<u64> {
    let low = random.below(1 << 50);
    (0..count).map(|place| low | (place << 50)).collect()
}

/// Draws groups of a key and four others. Each of the four shares another cell with the key, in a table of 128 words.
fn covered(random: &mut Random, count: u64) -> Vec<u64> {
    let mut keys = Vec::new();
    while (keys.len() as u64) < count {
        let key = random.number();
        keys.push(key);
        keys.extend((0..DEPTHS).map(|depth| sharing(random, key, depth)));
    }
    keys.truncate(count as usize);
    keys
}

/// Draws another key with the same cell at `depth`, in a table of 128 words.
fn sharing(random: &mut Random, key: u64, depth: usize) -> u64 {
    loop {
        let other = (random.number() & !3) | (key & 3);
        if other != key && index_of(other, depth, 128) == index_of(key, depth, 128) {
            return other;
        }
    }
}

/// Draws in turn small keys, huge ones, ones with common cells, and ones with a single bit set.
fn mixed(random: &mut Random, count: u64) -> Vec<u64> {
    let of_cell = of_one_cell(random, count);
    let mixed = |place: u64| match place % 4 {
        0 => place,
        1 => u64::MAX - place,
        2 => of_cell[place as usize],
        _ => 1u64.rotate_right(1 + (place / 4 % 64) as u32),
    };
    (0..count).map(mixed).collect()
}
