//! Caches of numbers and of 24 bytes: the package, the original and `lru`.
use std::hint::black_box;

/// A cache that calls are made on.
pub trait Side {
    /// Looks the key up, and reads its value. Returns `true` if it was found.
    fn get(&mut self, key: u64) -> bool;
    fn insert(&mut self, key: u64);
}

pub struct PackageNumbers(pub mini_moka_proved::NumberCache);

impl Side for PackageNumbers {
    fn get(&mut self, key: u64) -> bool {
        black_box(self.0.get(key)).is_some()
    }

    fn insert(&mut self, key: u64) {
        self.0.insert(key, key).expect("memory is available");
    }
}

pub struct OriginalNumbers(pub mini_moka::unsync::Cache<u64, u64>);

impl Side for OriginalNumbers {
    fn get(&mut self, key: u64) -> bool {
        black_box(self.0.get(&key).copied()).is_some()
    }

    fn insert(&mut self, key: u64) {
        self.0.insert(key, key);
    }
}

pub struct LruNumbers(pub lru::LruCache<u64, u64>);

impl Side for LruNumbers {
    fn get(&mut self, key: u64) -> bool {
        black_box(self.0.get(&key).copied()).is_some()
    }

    fn insert(&mut self, key: u64) {
        self.0.put(key, key);
    }
}

/// The value of each key of a typed cache.
const VALUE: [u8; 24] = [7; 24];

/// Defines a side with values of 24 bytes, by its cache, the name of its insert, and a function that makes the key of a number.
macro_rules! typed_side {
    ($side:ident, $cache:ty, $insert:ident, $key_of:ident) => {
        pub struct $side(pub $cache);

        impl Side for $side {
            fn get(&mut self, key: u64) -> bool {
                black_box(self.0.get(&$key_of(key)).map(|value| value[0])).is_some()
            }

            fn insert(&mut self, key: u64) {
                self.0.$insert($key_of(key), VALUE);
            }
        }
    };
}

fn number(key: u64) -> u64 {
    key
}

/// Returns a text of 25 bytes.
fn text(key: u64) -> String {
    format!("session {key:017x}")
}

typed_side!(PackageTyped, mini_moka_proved::Cache<u64, [u8; 24]>, insert, number);
typed_side!(OriginalTyped, mini_moka::unsync::Cache<u64, [u8; 24]>, insert, number);
typed_side!(LruTyped, lru::LruCache<u64, [u8; 24]>, put, number);
typed_side!(PackageTexts, mini_moka_proved::Cache<String, [u8; 24]>, insert, text);
typed_side!(OriginalTexts, mini_moka::unsync::Cache<String, [u8; 24]>, insert, text);
typed_side!(LruTexts, lru::LruCache<String, [u8; 24]>, put, text);
