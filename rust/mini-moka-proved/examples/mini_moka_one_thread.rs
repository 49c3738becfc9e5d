// The program for one thread of the documentation of mini-moka 0.10.3. Only the line `use` is another
// one.

use mini_moka_proved::unsync::Cache;

fn value(n: usize) -> String {
    format!("value {}", n)
}

fn main() {
    const NUM_KEYS: usize = 64;

    // Create a cache that can store up to 10,000 entries.
    let mut cache = Cache::new(10_000);

    // Insert 64 entries.
    for key in 0..NUM_KEYS {
        cache.insert(key, value(key));
    }

    // Invalidate every 4 element of the inserted entries.
    for key in (0..NUM_KEYS).step_by(4) {
        cache.invalidate(&key);
    }

    // Verify the result.
    for key in 0..NUM_KEYS {
        if key % 4 == 0 {
            assert_eq!(cache.get(&key), None);
        } else {
            assert_eq!(cache.get(&key), Some(&value(key)));
        }
    }
}
