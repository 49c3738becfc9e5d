//! Shares a cache of sessions between four threads. A session lives for ten minutes, and the
//! entries that leave the cache are drained. Prints the number of sessions that were inserted, that
//! remain, and that were drained or lost.

use mini_moka_proved::sync::ByteCache;
use std::thread;
use std::time::Duration;

const THREADS: u64 = 4;
const SESSIONS: u64 = 5000;

/// Drains the removed entries, and returns their number. A real program would write them to a
/// store.
fn drain(cache: &ByteCache) -> u64 {
    cache.removed().filter(|removed| removed.is_ok()).count() as u64
}

/// Inserts the sessions of a thread, and returns the number of entries that it has drained. A key
/// is the number of the thread and that of the session.
fn work(cache: &ByteCache, thread: u64) -> u64 {
    let mut drained = 0;
    for session in 0..SESSIONS {
        let key = [thread.to_le_bytes(), session.to_le_bytes()].concat();
        if let Err(error) = cache.insert(&key, session.to_le_bytes()) {
            eprintln!("{error}");
        }
        if let Some(value) = cache.get(&key) {
            assert_eq!(value, session.to_le_bytes());
        }
        if session % 100 == 0 {
            drained += drain(cache);
        }
    }
    drained
}

fn main() -> Result<(), Box<dyn std::error::Error>> {
    let cache = ByteCache::builder()
        .max_capacity(10_000)
        .adaptive()
        .time_to_live(Duration::from_secs(600))
        .removed_room(10_000)
        .build()?;
    let threads: Vec<_> = (0..THREADS)
        .map(|number| {
            let cache = cache.clone();
            thread::spawn(move || work(&cache, number))
        })
        .collect();
    let mut drained = 0;
    for thread in threads {
        drained += thread.join().expect("a thread panicked");
    }
    drained += drain(&cache);
    let counts = cache.statistics();
    println!(
        "{} inserted, {} remain, {} drained or lost",
        counts.inserts,
        cache.len(),
        drained + counts.lost
    );
    Ok(())
}
